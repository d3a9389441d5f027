//! Book: what the engine keeps between calls, and the table of live pools (01 The book).

use crate::lots::{Kind, CENTS_A_MILLION};
use crate::pool_detail::MatchedFields;
use crate::sequence::Inbound;
use crate::values::OpeningValues;

/// The book. Its fields can hold what no engine would leave there, so that soundness can be judged.
#[derive(Clone, Debug, PartialEq, Eq)]
pub struct Book {
    pub values: OpeningValues,
    /// The open par of each trade, in opening order.
    pub open_par_cents: Vec<u64>,
    pub inbound: Inbound,
    pub live_count: usize,
}

/// A record's kind, as a number: the paper's three kinds, 0 in an empty record.
pub mod kind_code {
    pub const GOOD: u32 = 1;
    pub const ODD: u32 = 2;
    pub const BAD: u32 = 3;
}

pub fn code_of(kind: Kind) -> u32 {
    match kind {
        Kind::Good => kind_code::GOOD,
        Kind::Odd => kind_code::ODD,
        Kind::Bad => kind_code::BAD,
    }
}

/// A pool record; an empty one is all zeros. Trades count from 0, in opening order.
#[derive(Clone, Copy, Debug, Default, PartialEq, Eq)]
pub struct PoolRecord {
    pub message_id: u64,
    pub ordinal: u64,
    pub trade: usize,
    pub matched: MatchedFields,
    pub current_face_cents: u64,
    pub kind: u32,
    pub lot_millions: u64,
}

impl PoolRecord {
    pub const EMPTY: PoolRecord = PoolRecord {
        message_id: 0,
        ordinal: 0,
        trade: 0,
        matched: MatchedFields { lot_id: [0; 6], pool_number: [0; 7], original_face: [0; 9] },
        current_face_cents: 0,
        kind: 0,
        lot_millions: 0,
    };

    /// Whether two records are pools of one lot.
    pub fn same_lot(&self, other: &PoolRecord) -> bool {
        self.message_id == other.message_id && self.ordinal == other.ordinal
    }
}

impl Book {
    /// The live pools, at most the whole table.
    pub fn live<'a>(&self, table: &'a [PoolRecord]) -> &'a [PoolRecord] {
        &table[..self.live_count.min(table.len())]
    }

    /// Each trade's open par, wide enough for any sum.
    pub fn open_pars(&self) -> Vec<i128> {
        self.open_par_cents.iter().map(|open| i128::from(*open)).collect()
    }

    /// A trade's standing millions: the lot millions of its live lots, each lot once.
    pub fn standing_millions(&self, table: &[PoolRecord], trade: usize) -> u128 {
        live_lots(self.live(table))
            .filter(|lot| lot[0].trade == trade)
            .map(|lot| u128::from(lot[0].lot_millions))
            .sum()
    }
}

/// The live lots: the pools of a lot lie side by side.
pub fn live_lots(live: &[PoolRecord]) -> impl Iterator<Item = &[PoolRecord]> {
    live.chunk_by(PoolRecord::same_lot)
}

/// What a live lot weighs: by its millions where it is good, else by its current faces.
pub fn live_weight_cents(lot: &[PoolRecord]) -> u128 {
    match lot {
        [first, ..] if first.kind == kind_code::GOOD => {
            u128::from(first.lot_millions) * u128::from(CENTS_A_MILLION)
        }
        _ => lot.iter().map(|pool| u128::from(pool.current_face_cents)).sum(),
    }
}
