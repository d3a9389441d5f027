//! Claims: what demand 3 promises of a book, set beside the history of its calls.

use crate::book::{Book, PoolRecord};
use crate::history::History;

/// Demand 3, claim by claim.
#[derive(Clone, Copy, Debug, PartialEq, Eq)]
pub struct Claims {
    /// Each trade's open par is the history sum.
    pub open_par_is_the_history_sum: bool,
    /// Open par lies between zero and the opening par.
    pub open_par_is_within_bounds: bool,
    /// Every lot taken off was brought earlier and taken off by none between.
    pub no_lot_is_taken_off_twice: bool,
    /// Standing millions are those that ONs brought less those that DKs took off.
    pub standing_millions_are_on_less_dk: bool,
}

impl Claims {
    pub const ALL_HOLD: Claims = Claims {
        open_par_is_the_history_sum: true,
        open_par_is_within_bounds: true,
        no_lot_is_taken_off_twice: true,
        standing_millions_are_on_less_dk: true,
    };
}

/// Judges demand 3 after a list of calls.
pub fn demand_3(history: &History, book: &Book, table: &[PoolRecord]) -> Claims {
    let opening_pars = history.opening_pars();
    let within = |(open, par): (&u64, &u64)| open <= par;
    Claims {
        open_par_is_the_history_sum: book.open_pars() == history.open_pars(),
        open_par_is_within_bounds: book.open_par_cents.len() == opening_pars.len()
            && book.open_par_cents.iter().zip(&opening_pars).all(within),
        no_lot_is_taken_off_twice: history.each_lot_taken_off_once(),
        standing_millions_are_on_less_dk: (0..opening_pars.len()).all(|trade| {
            let (by_on, by_dk) = history.millions_by_on_and_dk(trade);
            book.standing_millions(table, trade) + by_dk == by_on
        }),
    }
}
