//! Target: the live pools that a CC or DK concerns, and which of them it lists (checks 30 and 37).

use crate::book::{code_of, live_lots, live_weight_cents, Book, PoolRecord};
use crate::columns::TARGET;
use crate::lots::Lot;
use crate::message::{Message, Type};
use crate::pool_detail::PoolDetail;
use crate::terminator::PositionOne;

/// The live pools under a message ID.
#[derive(Clone, Copy)]
pub struct Target<'a> {
    live: &'a [PoolRecord],
    message_id: u64,
}

impl<'a> Target<'a> {
    /// The target's live pools; none where the target is not eleven digits or has no live pool.
    pub fn find(message: &Message, book: &Book, table: &'a [PoolRecord]) -> Option<Target<'a>> {
        let message_id = message.number(TARGET)?;
        let live = book.live(table);
        let found = live.iter().any(|pool| pool.message_id == message_id);
        found.then_some(Target { live, message_id })
    }

    /// The trade of the target; a message's pools all stand on one.
    pub fn trade(&self) -> usize {
        let pool = self.live.iter().find(|pool| pool.message_id == self.message_id);
        pool.map_or(0, |pool| pool.trade)
    }

    /// The live positions of the listed pools; the search ends at the first without a match.
    fn positions(&self, listed: &[PoolDetail]) -> Option<Vec<usize>> {
        listed
            .iter()
            .map(|pool| {
                self.live.iter().position(|record| {
                    record.message_id == self.message_id && record.matched == pool.matched
                })
            })
            .collect()
    }

    /// The live positions that the listed pools take off: exactly some live lots of the target,
    /// each pool once, in any order, and for a CC each canceled lot one live lot of its kind and
    /// millions. None where check 37 fails.
    pub fn taken_off(&self, message: &Message) -> Option<Vec<usize>> {
        let mut positions = self.positions(&message.listed())?;
        positions.sort_unstable();
        let each_once = positions.windows(2).all(|pair| pair[0] != pair[1]);
        let whole_lots = positions.iter().all(|position| {
            let lot = self.lot_around(*position);
            lot.into_iter().all(|of_lot| positions.binary_search(&of_lot).is_ok())
        });
        let lot_by_lot = message.message_type() != Some(Type::Cc) || {
            let details = message.details();
            let mut canceled = message.lots()?;
            canceled.retain(|lot| lot.position_one == PositionOne::Canceled);
            canceled.iter().all(|lot| self.is_one_live_lot(lot, &details))
        };
        (each_once && whole_lots && lot_by_lot).then_some(positions)
    }

    /// The positions of the live lot that a live pool belongs to.
    fn lot_around(&self, position: usize) -> Vec<usize> {
        (0..self.live.len())
            .filter(|other| self.live[*other].same_lot(&self.live[position]))
            .collect()
    }

    /// Whether a canceled lot's pools are one live lot of the same kind and millions.
    fn is_one_live_lot(&self, lot: &Lot, details: &[PoolDetail]) -> bool {
        let Some(mut positions) = self.positions(lot.of(details)) else {
            return false;
        };
        positions.sort_unstable();
        let live = &self.live[positions[0]];
        positions == self.lot_around(positions[0])
            && live.kind == code_of(lot.kind)
            && live.lot_millions == lot.millions
    }

    /// The weight of the live lots at these positions, as the book holds it.
    pub fn weight_cents(&self, positions: &[usize]) -> u128 {
        let pools: Vec<PoolRecord> =
            positions.iter().map(|position| self.live[*position]).collect();
        live_lots(&pools).map(live_weight_cents).sum()
    }
}
