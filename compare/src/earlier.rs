//! A book by the earlier interface of the Rust crate, beside the reference's.

use reference::book::PoolRecord;

pub use rhoikandra::earlier::{Book, Stepped};
pub use rhoikandra::{Answer, Tally, BOOK_WORDS};

/// The reference's book and table as such a book.
pub fn held(book: &reference::book::Book, table: &[PoolRecord]) -> Book {
    crate::engine::raw(book, table).into()
}

/// Whether a table's records are the reference's.
pub fn same_table(held: &Book, table: &[PoolRecord]) -> bool {
    held.pools.iter().copied().eq(table.iter().map(crate::engine::pool))
}
