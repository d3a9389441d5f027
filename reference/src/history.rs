//! History: what accepted messages brought and took off, read from the messages alone (01 The book).
//!
//! It is fed opening's values, then each call's body and whether it was accepted. It never
//! sees a book or a table.

use crate::columns::TARGET;
use crate::groups::Group;
use crate::lots::{good_millions, weight_cents, Lot};
use crate::message::{Message, Type};
use crate::pool_detail::{MatchedFields, PoolDetail};
use crate::terms::{trade_of_on, Trade};
use crate::values::OpeningValues;

/// A lot that an accepted message brought.
#[derive(Clone, Debug, PartialEq, Eq)]
pub struct BroughtLot {
    pub message_id: u64,
    pub trade: Option<usize>,
    pub pools: Vec<MatchedFields>,
    pub millions: u64,
    pub weight_cents: u64,
    /// How often an accepted message took it off.
    pub times_off: u32,
}

#[derive(Clone, Debug)]
pub struct History {
    trades: Vec<Trade>,
    last_message_id: u64,
    lots: Vec<BroughtLot>,
    /// By trade: the millions that ONs brought and that DKs took off.
    millions_by_on: Vec<u128>,
    millions_by_dk: Vec<u128>,
    /// Pools listed by an accepted CC or DK that no lot under its target has.
    pools_without_lot: u64,
}

impl History {
    pub fn new(opening: &OpeningValues) -> History {
        History {
            trades: opening.trades.clone(),
            last_message_id: opening.last_message_id,
            lots: Vec::new(),
            millions_by_on: vec![0; opening.trades.len()],
            millions_by_dk: vec![0; opening.trades.len()],
            pools_without_lot: 0,
        }
    }

    /// A refused call changes nothing; an accepted message gets the next ID, takes off, then brings.
    pub fn feed(&mut self, body: &[u8], accepted: bool) {
        if !accepted {
            return;
        }
        self.last_message_id += 1;
        let Some(message) = Message::read(body) else {
            return;
        };
        match message.message_type() {
            Some(Type::On) => self.on(&message),
            Some(Type::Cc) => self.cc(&message),
            Some(Type::Dk) => self.dk(&message),
            Some(Type::Cx) | None => {}
        }
    }

    /// An ON's lots go to the trade its rule gives for the history's open pars.
    fn on(&mut self, message: &Message) {
        let details = message.details();
        let lots = message.new_lots().unwrap_or_default();
        let weight = weight_cents(&lots, &details).unwrap_or_default();
        let trade = trade_of_on(message, &self.trades, &self.open_pars(), weight);
        if let Some(trade) = trade {
            self.millions_by_on[trade] += u128::from(good_millions(&lots));
        }
        self.bring(&lots, &details, trade);
    }

    /// All that a CC takes off goes first; then each group's lots go to the trade of the lots
    /// that the group took off.
    fn cc(&mut self, message: &Message) {
        self.take_off(message, &message.listed());
        let details = message.details();
        for group in message.groups().unwrap_or_default() {
            let trade = self.trade_of_group(message, &group, &details);
            self.bring(&group.replacement, &details, trade);
        }
    }

    fn dk(&mut self, message: &Message) {
        for lot in self.take_off(message, &message.listed()) {
            if let Some(trade) = self.lots[lot].trade {
                self.millions_by_dk[trade] += u128::from(self.lots[lot].millions);
            }
        }
    }

    /// Takes off, once, each lot brought under the target, even one already off, that has a listed
    /// pool; gives the places of these lots.
    fn take_off(&mut self, message: &Message, listed: &[PoolDetail]) -> Vec<usize> {
        let taken = self.lots_listed(message, listed);
        for lot in &taken {
            self.lots[*lot].times_off += 1;
        }
        let strays = listed.iter().filter(|pool| {
            let mut lots = taken.iter().map(|lot| &self.lots[*lot]);
            !lots.any(|lot| lot.pools.contains(&pool.matched))
        });
        self.pools_without_lot += strays.count() as u64;
        taken
    }

    /// The places of the lots brought under the message's target that have a listed pool.
    fn lots_listed(&self, message: &Message, listed: &[PoolDetail]) -> Vec<usize> {
        let target = message.number(TARGET);
        let has_listed =
            |lot: &BroughtLot| listed.iter().any(|pool| lot.pools.contains(&pool.matched));
        (0..self.lots.len())
            .filter(|place| target == Some(self.lots[*place].message_id))
            .filter(|place| has_listed(&self.lots[*place]))
            .collect()
    }

    fn trade_of_group(
        &self,
        message: &Message,
        group: &Group,
        details: &[PoolDetail],
    ) -> Option<usize> {
        let canceled = group.canceled.iter().flat_map(|lot| lot.of(details).to_vec());
        let taken = self.lots_listed(message, &canceled.collect::<Vec<PoolDetail>>());
        taken.first().and_then(|lot| self.lots[*lot].trade)
    }

    /// Brings lots under the newest ID, with fields, millions and weight from the message.
    fn bring(&mut self, lots: &[Lot], details: &[PoolDetail], trade: Option<usize>) {
        self.lots.extend(lots.iter().map(|lot| BroughtLot {
            message_id: self.last_message_id,
            trade,
            pools: lot.of(details).iter().map(|pool| pool.matched).collect(),
            millions: lot.millions,
            weight_cents: lot.weight_cents(details).unwrap_or_default(),
            times_off: 0,
        }));
    }

    /// The history sum of each trade: its opening par less the weights of its lots not taken off.
    pub fn open_pars(&self) -> Vec<i128> {
        let pars = self.trades.iter().map(|trade| i128::from(trade.par_cents));
        let mut open: Vec<i128> = pars.collect();
        for lot in self.lots.iter().filter(|lot| lot.times_off == 0) {
            if let Some(trade) = lot.trade {
                open[trade] -= i128::from(lot.weight_cents);
            }
        }
        open
    }

    /// Each trade's opening par.
    pub fn opening_pars(&self) -> Vec<u64> {
        self.trades.iter().map(|trade| trade.par_cents).collect()
    }

    /// The good millions that accepted ONs brought to a trade, and that accepted DKs took off it.
    pub fn millions_by_on_and_dk(&self, trade: usize) -> (u128, u128) {
        (self.millions_by_on[trade], self.millions_by_dk[trade])
    }

    pub fn lots(&self) -> &[BroughtLot] {
        &self.lots
    }

    pub fn last_message_id(&self) -> u64 {
        self.last_message_id
    }

    /// Whether every lot that an accepted message took off stood then, and every pool that one
    /// listed belongs to such a lot.
    pub fn each_lot_taken_off_once(&self) -> bool {
        self.pools_without_lot == 0 && self.lots.iter().all(|lot| lot.times_off <= 1)
    }
}
