//! Lots: how a message's pools fall into lots, and what a lot weighs (01 Terminators).

use crate::pool_detail::PoolDetail;
use crate::terminator::{position, position_one, Position, PositionOne};

/// One million dollars of par, in cents.
pub const CENTS_A_MILLION: u64 = 100_000_000;

#[derive(Clone, Copy, Debug, PartialEq, Eq)]
pub enum Kind {
    Good,
    Odd,
    Bad,
}

/// A lot of a message: the pools `first .. first + pools`. Its millions are 0 unless it is good.
#[derive(Clone, Copy, Debug, PartialEq, Eq)]
pub struct Lot {
    pub first: usize,
    pub pools: usize,
    pub position_one: PositionOne,
    pub kind: Kind,
    pub millions: u64,
}

impl Lot {
    /// The lot's pools within its message.
    pub fn of<'a>(&self, details: &'a [PoolDetail]) -> &'a [PoolDetail] {
        &details[self.first..self.first + self.pools]
    }

    /// Good: millions times 100,000,000 cents. Odd or bad: the sum of its current faces,
    /// none where one is not digits.
    pub fn weight_cents(&self, details: &[PoolDetail]) -> Option<u64> {
        match self.kind {
            Kind::Good => Some(self.millions * CENTS_A_MILLION),
            Kind::Odd | Kind::Bad => current_faces_cents(self.of(details)),
        }
    }
}

/// The sum of the pools' current faces; none where one is not digits.
pub fn current_faces_cents(pools: &[PoolDetail]) -> Option<u64> {
    pools.iter().map(PoolDetail::current_face_cents).sum()
}

/// The weight that these lots of a message bring.
pub fn weight_cents(lots: &[Lot], details: &[PoolDetail]) -> Option<u64> {
    lots.iter().map(|lot| lot.weight_cents(details)).sum()
}

/// The good millions of these lots.
pub fn good_millions(lots: &[Lot]) -> u64 {
    lots.iter().map(|lot| lot.millions).sum()
}

/// The lots of an ON, or none where a terminator or a lot's form is wrong (check 19).
pub fn lots_of_on(details: &[PoolDetail]) -> Option<Vec<Lot>> {
    lots(details, &[PositionOne::Original])
}

/// The lots of a CC, canceled and replacement, or none where check 19 fails.
pub fn lots_of_cc(details: &[PoolDetail]) -> Option<Vec<Lot>> {
    lots(details, &[PositionOne::Canceled, PositionOne::Replacement])
}

/// A lot is zero or more middles of its kind and one end, all with one position one.
fn lots(details: &[PoolDetail], allowed: &[PositionOne]) -> Option<Vec<Lot>> {
    let mut lots = Vec::new();
    let mut first = 0;
    for (at, end) in details.iter().enumerate() {
        let (kind, millions, middle) = match position(&end.terminator) {
            Position::GoodEnd { millions } => (Kind::Good, millions, Position::GoodOrOddMiddle),
            Position::OddEnd => (Kind::Odd, 0, Position::GoodOrOddMiddle),
            Position::BadEnd => (Kind::Bad, 0, Position::BadMiddle),
            Position::GoodOrOddMiddle | Position::BadMiddle => continue,
            Position::Wrong => return None,
        };
        let side = position_one(&end.terminator);
        let middles = &details[first..at];
        let one_kind = middles.iter().all(|pool| position(&pool.terminator) == middle);
        let one_side = middles.iter().all(|pool| position_one(&pool.terminator) == side);
        if !(one_kind && one_side && allowed.contains(&side)) {
            return None;
        }
        lots.push(Lot { first, pools: at + 1 - first, position_one: side, kind, millions });
        first = at + 1;
    }
    (first == details.len()).then_some(lots)
}
