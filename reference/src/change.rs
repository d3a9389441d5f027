//! Change: what an accepted message does to trades and live pools (01 The book, "Accepted").

use crate::book::{code_of, Book, PoolRecord};
use crate::checks::Case;

/// The change that an accepted message makes, worked out before anything is stored.
pub struct Change {
    taken_off: Vec<usize>,
    brought: Vec<PoolRecord>,
    trade: usize,
    open_par_cents: u64,
    message_id: u64,
}

impl Change {
    /// The change of a message that no check refuses.
    pub fn of(case: &Case) -> Change {
        let trade = case.trade().expect("check 38 passed");
        let message_id = case.book.values.last_message_id + 1;
        let open = u128::from(case.book.open_par_cents[trade]) + case.weight_off_cents()
            - u128::from(case.weight_brought_cents());
        Change {
            taken_off: case.taken_off().expect("check 37 passed"),
            brought: new_records(case, message_id, trade),
            trade,
            open_par_cents: open as u64,
            message_id,
        }
    }

    /// Takes the listed lots off, closes the table up, appends the new pools, moves the open par,
    /// and gives the new message ID.
    pub fn apply(self, book: &mut Book, table: &mut [PoolRecord]) -> u64 {
        let live = book.live(table).iter().enumerate();
        let staying = live.filter(|(position, _)| !self.taken_off.contains(position));
        let mut after: Vec<PoolRecord> = staying.map(|(_, pool)| *pool).collect();
        after.extend(self.brought);
        table.fill(PoolRecord::EMPTY);
        table[..after.len()].copy_from_slice(&after);
        book.live_count = after.len();
        book.open_par_cents[self.trade] = self.open_par_cents;
        book.values.last_message_id = self.message_id;
        self.message_id
    }
}

/// The records of the new pools, with each lot's ordinal among the new lots, from 1.
fn new_records(case: &Case, message_id: u64, trade: usize) -> Vec<PoolRecord> {
    let details = case.message().details();
    let mut records = Vec::new();
    for (lot, ordinal) in case.new_lots().iter().zip(1..) {
        records.extend(lot.of(&details).iter().map(|pool| PoolRecord {
            message_id,
            ordinal,
            trade,
            matched: pool.matched,
            current_face_cents: pool.current_face_cents().expect("check 34 passed"),
            kind: code_of(lot.kind),
            lot_millions: lot.millions,
        }));
    }
    records
}
