//! Soundness: judges any book and table, damaged ones too, fact by named fact (42).

use std::collections::BTreeSet;

use crate::book::{kind_code, live_lots, live_weight_cents, Book, PoolRecord};
use crate::opening::{self, CENTS_MAX};
use crate::terminator::LOT_MILLIONS_MAX;

/// A fact of soundness: its name in the paper's words, and its test on any book and table.
type Fact = (&'static str, fn(&Book, &[PoolRecord]) -> bool);

pub const FACTS: [Fact; 9] = [
    ("opening's rules", |book, table| opening::in_range(&book.values, table.len())),
    ("inbound counter", |book, _| book.inbound.is_sound()),
    ("live count within the table", |book, table| book.live_count <= table.len()),
    ("each live record", |book, table| {
        book.live(table).iter().all(|pool| record_is_sound(pool, book))
    }),
    ("message ID, then ordinal, never falling", |book, table| {
        book.live(table).is_sorted_by_key(|pool| (pool.message_id, pool.ordinal))
    }),
    ("agreement within a message and within a lot", |book, table| {
        book.live(table).windows(2).all(|pair| neighbours_agree(&pair[0], &pair[1]))
    }),
    ("matched fields once under a message ID", |book, table| {
        let mut seen = BTreeSet::new();
        let mut live = book.live(table).iter();
        live.all(|pool| seen.insert((pool.message_id, pool.matched)))
    }),
    ("zeros after the live ones", |book, table| {
        table[book.live(table).len()..].iter().all(|pool| *pool == PoolRecord::EMPTY)
    }),
    ("open par is par less its lots' weights", open_par_is_sound),
];

/// The first fact that fails, by its name.
pub fn first_broken(book: &Book, table: &[PoolRecord]) -> Option<&'static str> {
    let broken = FACTS.iter().find(|(_, holds)| !holds(book, table));
    broken.map(|(name, _)| *name)
}

pub fn is_sound(book: &Book, table: &[PoolRecord]) -> bool {
    first_broken(book, table).is_none()
}

fn record_is_sound(pool: &PoolRecord, book: &Book) -> bool {
    let kind_and_millions = match pool.kind {
        kind_code::GOOD => (1..=LOT_MILLIONS_MAX).contains(&pool.lot_millions),
        kind_code::ODD | kind_code::BAD => pool.lot_millions == 0,
        _ => false,
    };
    pool.trade < book.values.trades.len()
        && (1..=book.values.last_message_id).contains(&pool.message_id)
        && pool.ordinal > 0
        && pool.current_face_cents <= CENTS_MAX
        && kind_and_millions
}

/// Records in order agree all the way where neighbours do.
fn neighbours_agree(one: &PoolRecord, next: &PoolRecord) -> bool {
    let on_trade = one.message_id != next.message_id || one.trade == next.trade;
    let on_lot =
        !one.same_lot(next) || (one.kind == next.kind && one.lot_millions == next.lot_millions);
    on_trade && on_lot
}

fn open_par_is_sound(book: &Book, table: &[PoolRecord]) -> bool {
    let trades = &book.values.trades;
    let mut weights = vec![0u128; trades.len()];
    for lot in live_lots(book.live(table)) {
        if let Some(weight) = weights.get_mut(lot[0].trade) {
            *weight += live_weight_cents(lot);
        }
    }
    book.open_par_cents.len() == trades.len()
        && (0..trades.len()).all(|trade| {
            u128::from(book.open_par_cents[trade]) + weights[trade]
                == u128::from(trades[trade].par_cents)
        })
}
