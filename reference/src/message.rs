//! Message: a body of the right length, seen by its columns (01 Columns).

use crate::columns::{self, Column, DETAIL_WIDTH, HEADER_WIDTH, POOLS_MAX};
use crate::digits::number;
use crate::groups::{groups, Group};
use crate::lots::{lots_of_cc, lots_of_on, Lot};
use crate::pool_detail::{DetailReader, PoolDetail};
use crate::terminator::{position_one, PositionOne};
use crate::trade_id::{self, TradeId};

/// The four types that the engine knows.
#[derive(Clone, Copy, Debug, PartialEq, Eq, PartialOrd, Ord)]
pub enum Type {
    On,
    Cc,
    Dk,
    Cx,
}

impl Type {
    pub fn of(field: &[u8]) -> Option<Type> {
        match field {
            b"ON" => Some(Type::On),
            b"CC" => Some(Type::Cc),
            b"DK" => Some(Type::Dk),
            b"CX" => Some(Type::Cx),
            _ => None,
        }
    }
}

/// A body whose length passes check 10.
#[derive(Clone, Copy, Debug)]
pub struct Message<'a> {
    body: &'a [u8],
}

impl<'a> Message<'a> {
    /// None where the length is not 187 + n × D with n from 1 to 250 (check 10).
    pub fn read(body: &'a [u8]) -> Option<Message<'a>> {
        let details = body.len().checked_sub(HEADER_WIDTH)?;
        let whole = details % DETAIL_WIDTH == 0;
        let counted = (1..=POOLS_MAX).contains(&(details / DETAIL_WIDTH));
        (whole && counted).then_some(Message { body })
    }

    /// A header field's bytes.
    pub fn field(&self, column: Column) -> &'a [u8] {
        column.of(self.body)
    }

    /// A header field's number, where it is digits.
    pub fn number(&self, column: Column) -> Option<u64> {
        number(self.field(column))
    }

    pub fn message_type(&self) -> Option<Type> {
        Type::of(self.field(columns::TYPE))
    }

    pub fn sequence(&self) -> [u8; 6] {
        columns::SEQUENCE.array(self.body)
    }

    pub fn internal_id(&self) -> [u8; 16] {
        columns::INTERNAL_ID.array(self.body)
    }

    pub fn settlement(&self) -> [u8; 8] {
        columns::SETTLEMENT.array(self.body)
    }

    pub fn trade_id(&self) -> TradeId {
        trade_id::find(&columns::SPECIAL_INSTRUCTIONS.array(self.body))
    }

    /// The name in the special instructions, where its form is whole.
    pub fn trade_name(&self) -> Option<&'a [u8]> {
        let TradeId::Whole { place, length } = self.trade_id() else {
            return None;
        };
        Some(&self.field(columns::SPECIAL_INSTRUCTIONS)[place..place + length])
    }

    pub fn details(&self) -> Vec<PoolDetail> {
        DetailReader::new(self.body).collect()
    }

    /// The pools that the message lists as standing: a CC's canceled pools, all of a DK's.
    pub fn listed(&self) -> Vec<PoolDetail> {
        let mut listed = self.details();
        match self.message_type() {
            Some(Type::Dk) => {}
            Some(Type::Cc) => {
                listed.retain(|pool| position_one(&pool.terminator) == PositionOne::Canceled);
            }
            _ => listed.clear(),
        }
        listed
    }

    /// All lots of an ON or CC; none where check 19 fails. Another type has no lots.
    pub fn lots(&self) -> Option<Vec<Lot>> {
        match self.message_type() {
            Some(Type::On) => lots_of_on(&self.details()),
            Some(Type::Cc) => lots_of_cc(&self.details()),
            _ => Some(Vec::new()),
        }
    }

    /// The lots that the message brings: an ON's lots or a CC's replacement lots, in order.
    pub fn new_lots(&self) -> Option<Vec<Lot>> {
        let mut lots = self.lots()?;
        lots.retain(|lot| lot.position_one != PositionOne::Canceled);
        Some(lots)
    }

    /// A CC's groups, where checks 19 and 20 pass.
    pub fn groups(&self) -> Option<Vec<Group>> {
        groups(&self.lots()?)
    }
}
