//! Damage: ways to break one clause of 41 or of 42, each by its name.

use crate::book::{kind_code, live_lots, live_weight_cents, Book, PoolRecord};
use crate::digits::digits;
use crate::generator::Random;
use crate::lots::CENTS_A_MILLION;
use crate::opening::*;
use crate::sequence::{Inbound, RECEIVED_MAX, SEQUENCE_MAX};
use crate::values::OpeningValues;

/// An opening's values and the length of the table lent with them.
pub struct Lent {
    pub values: OpeningValues,
    pub records: usize,
}

/// A clause of 41 and a way to break it in an opening with at least two trades and a holiday.
pub type OpeningDamage = (&'static str, fn(&mut Lent));

pub const OPENING_DAMAGES: [OpeningDamage; 47] = [
    ("more than 64 trades", |lent| {
        let trade = lent.values.trades[0].clone();
        for number in lent.values.trades.len()..=TRADES_MAX {
            let id = format!("more{number}").into_bytes();
            lent.values.trades.push(crate::terms::Trade { id, ..trade.clone() });
        }
    }),
    ("more than 32 holidays", |lent| lent.values.holidays.resize(HOLIDAYS_MAX + 1, *b"12252026")),
    ("table too long", |lent| lent.records = TABLE_MAX + 1),
    ("empty ID", |lent| lent.values.trades[1].id.clear()),
    ("ID of 17 characters", |lent| lent.values.trades[1].id = vec![b'A'; 17]),
    ("ID with a blank", |lent| lent.values.trades[1].id = b"A B".to_vec()),
    ("ID with code 127", |lent| lent.values.trades[1].id = b"A\x7f".to_vec()),
    ("ID with an equals sign", |lent| lent.values.trades[1].id = b"A=B".to_vec()),
    ("ID that begins with an equals sign", |lent| lent.values.trades[1].id = b"=AB".to_vec()),
    ("ID that ends with an equals sign", |lent| lent.values.trades[1].id = b"AB=".to_vec()),
    ("equal IDs", |lent| lent.values.trades[1].id = lent.values.trades[0].id.clone()),
    ("seller equal to buyer", |lent| lent.values.trades[1].buyer = lent.values.trades[1].seller),
    ("seller with a blank", |lent| lent.values.trades[1].seller = *b"MBA "),
    ("seller with code 127", |lent| lent.values.trades[1].seller = *b"MBA\x7f"),
    ("buyer with a zero byte", |lent| lent.values.trades[1].buyer = *b"MB\0B"),
    ("buyer with code 255", |lent| lent.values.trades[1].buyer = *b"MB\xffB"),
    ("contra FICC", |lent| lent.values.trades[1].contra = *b"FICC"),
    ("contra in small letters", |lent| lent.values.trades[1].contra = *b"ftba"),
    ("CUSIP with a blank", |lent| lent.values.trades[1].cusip = *b"01F08263 "),
    ("CUSIP with code 127", |lent| lent.values.trades[1].cusip = *b"01F08263\x7f"),
    ("settlement on a Saturday", |lent| lent.values.trades[1].settlement = *b"07042026"),
    ("settlement on a Sunday", |lent| lent.values.trades[1].settlement = *b"07052026"),
    ("settlement on no date", |lent| lent.values.trades[1].settlement = *b"02292026"),
    ("settlement not digits", |lent| lent.values.trades[1].settlement = *b"7142026 "),
    ("settlement before 1990", |lent| lent.values.trades[1].settlement = *b"12291989"),
    ("settlement after 2099", |lent| lent.values.trades[1].settlement = *b"01012100"),
    ("settlement on a holiday", |lent| {
        lent.values.holidays[0] = lent.values.trades[1].settlement;
    }),
    ("price 0", |lent| lent.values.trades[1].price = 0),
    ("price too wide", |lent| lent.values.trades[1].price = PRICE_MAX + 1),
    ("price far too wide", |lent| lent.values.trades[1].price = u64::MAX),
    ("par 0", |lent| lent.values.trades[1].par_cents = 0),
    ("par too wide", |lent| lent.values.trades[1].par_cents = CENTS_MAX + 1),
    ("holiday that is no date", |lent| lent.values.holidays[0] = *b"02302028"),
    ("holiday of blanks", |lent| lent.values.holidays[0] = *b"        "),
    ("subscriber with a blank", |lent| lent.values.subscriber = *b"012 "),
    ("subscriber with code 127", |lent| lent.values.subscriber = *b"012\x7f"),
    ("connection with a zero byte", |lent| lent.values.connection = *b"120\0"),
    ("last message ID too high", |lent| lent.values.last_message_id = MESSAGE_ID_MAX + 1),
    ("last outbound number too high", |lent| lent.values.last_outbound = SEQUENCE_MAX + 1),
    ("GDMM ceiling too high", |lent| lent.values.limits.gdmm_ceiling = GDMM_CEILING_MAX + 1),
    ("variance too high", |lent| {
        lent.values.limits.variance_cents_a_million = VARIANCE_CENTS_MAX + 1;
    }),
    ("no pools a million", |lent| lent.values.limits.pools_a_million = 0),
    ("too many pools a million", |lent| {
        lent.values.limits.pools_a_million = POOLS_A_MILLION_MAX + 1;
    }),
    ("least face 0", |lent| lent.values.limits.least_face_dollars = 0),
    ("least face too high", |lent| lent.values.limits.least_face_dollars = FACE_DOLLARS_MAX + 1),
    ("least face far too high", |lent| lent.values.limits.least_face_dollars = u64::MAX),
    ("table far too long", |lent| lent.records = 10 * TABLE_MAX),
];

/// A clause of 42 and a way to break it alone, in the book of `sound_book`.
pub type BookDamage = (&'static str, fn(&mut Book, &mut Vec<PoolRecord>));

pub const BOOK_DAMAGES: [BookDamage; 37] = [
    ("table too long", |_, table| table.resize(TABLE_MAX + 1, PoolRecord::EMPTY)),
    ("a limit out of range", |book, _| book.values.limits.pools_a_million = 0),
    ("equal IDs", |book, _| book.values.trades[1].id = book.values.trades[0].id.clone()),
    ("settlement made a holiday", |book, _| {
        let settlement = book.values.trades[0].settlement;
        book.values.holidays.push(settlement);
    }),
    ("last message ID too high", |book, _| book.values.last_message_id = MESSAGE_ID_MAX + 1),
    ("last outbound number too high", |book, _| book.values.last_outbound = SEQUENCE_MAX + 1),
    ("inbound received too high", |book, _| {
        book.inbound = Inbound { received: Some(RECEIVED_MAX + 1), expected: RECEIVED_MAX + 2 };
    }),
    ("inbound received as high as can be", |book, _| {
        book.inbound = Inbound { received: Some(u32::MAX), expected: 0 };
    }),
    ("expected not one more", |book, _| book.inbound.expected += 1),
    ("expected equal to received", |book, _| {
        book.inbound = Inbound { received: Some(3), expected: 3 };
    }),
    ("none received but not expecting 1", |book, _| {
        book.inbound = Inbound { received: None, expected: 2 };
    }),
    ("none received and expecting 0", |book, _| {
        book.inbound = Inbound { received: None, expected: 0 };
    }),
    ("live count over the table", |book, table| {
        table.truncate(book.live_count);
        book.live_count += 1;
    }),
    ("live count far over the table", |book, table| {
        table.truncate(book.live_count);
        book.live_count = usize::MAX;
    }),
    ("no such trade", |book, table| {
        on_message(table, 2, |pool| (pool.trade, pool.current_face_cents) = (2, 0));
        balance(book, table);
    }),
    ("no such trade by far", |book, table| {
        on_message(table, 2, |pool| (pool.trade, pool.current_face_cents) = (usize::MAX, 0));
        balance(book, table);
    }),
    ("message ID 0", |_, table| on_message(table, 1, |pool| pool.message_id = 0)),
    ("message ID over the last", |_, table| on_message(table, 2, |pool| pool.message_id = 3)),
    ("ordinal 0", |_, table| on_lot(table, 1, 1, |pool| pool.ordinal = 0)),
    ("current face over eleven digits", |_, table| table[0].current_face_cents = CENTS_MAX + 1),
    ("current face as high as can be", |_, table| table[0].current_face_cents = u64::MAX),
    ("kind 0", |book, table| set_lot(book, table, 0, 0)),
    ("kind 4", |book, table| set_lot(book, table, 4, 0)),
    ("good lot of no millions", |book, table| set_lot(book, table, kind_code::GOOD, 0)),
    ("good lot of 100 millions", |book, table| set_lot(book, table, kind_code::GOOD, 100)),
    ("odd lot with millions", |book, table| set_lot(book, table, kind_code::ODD, 1)),
    ("bad lot with millions", |book, table| set_lot(book, table, kind_code::BAD, 1)),
    ("message ID falling", |book, table| table[..book.live_count].rotate_left(5)),
    ("ordinal falling", |_, table| table[..5].reverse()),
    ("a message on two trades", |book, table| {
        on_lot(table, 1, 1, |pool| pool.trade = 1);
        balance(book, table);
    }),
    ("a lot of two kinds", |_, table| table[4].kind = kind_code::BAD),
    ("a lot with two millions", |_, table| table[1].lot_millions = 3),
    ("matched fields twice in a lot", |_, table| table[1].matched = table[0].matched),
    ("matched fields twice in a message", |_, table| table[2].matched = table[0].matched),
    ("nonzero after the live ones", |_, table| {
        let last = table.len() - 1;
        table[last].matched.original_face[8] = 1;
    }),
    ("open par too high", |book, _| book.open_par_cents[0] += 1),
    ("open par too low", |book, _| book.open_par_cents[1] -= 1),
];

/// A sound book with pools: under message 1 on the first trade two good lots of two millions, of
/// two pools and of one, and an odd lot of two pools; under message 2 on the second trade an odd
/// lot of two pools.
pub fn sound_book() -> (Book, Vec<PoolRecord>) {
    let mut values = crate::day::opening_values();
    values.trades[0].par_cents = CENTS_MAX;
    let second = crate::terms::Trade { id: b"T2".to_vec(), ..values.trades[0].clone() };
    values.trades.push(second);
    values.holidays.push(*b"12252026");
    let mut table = vec![PoolRecord::EMPTY; 12];
    let mut book = open(&values, &mut table).expect("the opening is in range");
    let pool = |message_id, ordinal, current_face_cents, kind, lot_millions| PoolRecord {
        message_id,
        ordinal,
        trade: if message_id == 1 { 0 } else { 1 },
        current_face_cents,
        kind,
        lot_millions,
        ..PoolRecord::EMPTY
    };
    let pools = [
        pool(1, 1, CENTS_A_MILLION, kind_code::GOOD, 2),
        pool(1, 1, CENTS_A_MILLION, kind_code::GOOD, 2),
        pool(1, 2, 2 * CENTS_A_MILLION, kind_code::GOOD, 2),
        pool(1, 3, 1, kind_code::ODD, 0),
        pool(1, 3, 2, kind_code::ODD, 0),
        pool(2, 1, 1, kind_code::ODD, 0),
        pool(2, 1, 2, kind_code::ODD, 0),
    ];
    for (place, pool) in pools.into_iter().enumerate() {
        table[place] = pool;
        table[place].matched.pool_number = digits(place as u64);
    }
    book.live_count = pools.len();
    book.values.last_message_id = 2;
    book.inbound = Inbound::after(2);
    balance(&mut book, &table);
    (book, table)
}

fn on_message(table: &mut [PoolRecord], message_id: u64, change: fn(&mut PoolRecord)) {
    table.iter_mut().filter(|pool| pool.message_id == message_id).for_each(change);
}

fn on_lot(table: &mut [PoolRecord], message_id: u64, ordinal: u64, change: fn(&mut PoolRecord)) {
    let mut pools: Vec<&mut PoolRecord> = table.iter_mut().collect();
    pools.retain(|pool| pool.message_id == message_id && pool.ordinal == ordinal);
    pools.into_iter().for_each(change);
}

/// Gives the first lot a kind and millions, and the trades their open par.
fn set_lot(book: &mut Book, table: &mut [PoolRecord], kind: u32, millions: u64) {
    let first = table[0];
    for pool in table.iter_mut().filter(|pool| pool.same_lot(&first)) {
        (pool.kind, pool.lot_millions) = (kind, millions);
    }
    balance(book, table);
}

/// Makes each open par its par less its lots' weights.
fn balance(book: &mut Book, table: &[PoolRecord]) {
    for trade in 0..book.values.trades.len() {
        let lots = live_lots(book.live(table)).filter(|lot| lot[0].trade == trade);
        let weight: u128 = lots.map(live_weight_cents).sum();
        book.open_par_cents[trade] = book.values.trades[trade].par_cents - weight as u64;
    }
}

/// Writes one random value over one random field of a book or table; often that is damage.
pub fn scribble(random: &mut Random, book: &mut Book, table: &mut [PoolRecord]) {
    let value = match random.below(4) {
        0 => random.number(),
        1 => u64::MAX,
        _ => random.below(5),
    };
    let place = random.below(book.live(table).len() as u64 + 2) as usize;
    let trade = random.below(book.values.trades.len() as u64) as usize;
    let byte = value as u8;
    let column = random.below(9) as usize;
    match (random.below(19), table.get_mut(place)) {
        (0, _) => book.values.last_message_id = value,
        (1, _) => book.values.last_outbound = value as u32,
        (2, _) => book.inbound.expected = value as u32,
        (3, _) => book.inbound.received = (value > 1).then_some(value as u32),
        (4, _) => book.live_count = value as usize,
        (5, _) => book.open_par_cents[trade] = value,
        (6, _) => book.values.trades[trade].par_cents = value,
        (7, _) => book.values.trades[trade].cusip[0] = byte,
        (8, _) => book.values.limits.variance_cents_a_million = value,
        (9, _) => book.values.subscriber[3] = byte,
        (10, Some(pool)) => pool.message_id = value,
        (11, Some(pool)) => pool.ordinal = value,
        (12, Some(pool)) => pool.trade = value as usize,
        (13, Some(pool)) => pool.matched.lot_id[column % 6] = byte,
        (14, Some(pool)) => pool.current_face_cents = value,
        (15, Some(pool)) => pool.kind = value as u32,
        (16, Some(pool)) => pool.lot_millions = value,
        (17, Some(pool)) => pool.matched.original_face[column] = byte,
        (_, Some(pool)) => pool.matched.pool_number[column % 7] = byte,
        (_, None) => book.values.limits.gdmm_ceiling = value,
    }
}
