//! Rule damage: sound books of any size, and a way to break each rule of 41 and of 42 at a place of its own.

use crate::book::{kind_code, live_lots, live_weight_cents, Book, PoolRecord};
use crate::digits::digits;
use crate::generator::Random;
use crate::lots::CENTS_A_MILLION;
use crate::opening::*;
use crate::sequence::{Inbound, RECEIVED_MAX, SEQUENCE_MAX};
use crate::terms::Trade;
use crate::values::OpeningValues;

/// The rules of 41, and those that 42 has besides, by their numbers.
pub const OF_OPENING: [u16; 22] = [
    102, 103, 104, 105, 106, 107, 108, 109, 110, 111, 112, 121, 122, 123, 124, 125, 126, 127, 128,
    129, 130, 141,
];
pub const OF_BOOK: [u16; 13] = [142, 143, 151, 152, 153, 154, 155, 156, 157, 158, 159, 160, 161];

/// How much a book holds.
#[derive(Clone, Copy, Debug)]
pub struct Size {
    pub trades: usize,
    pub holidays: usize,
    pub live: usize,
    pub records: usize,
}

impl Size {
    /// As much as a book can hold, with so many live pools.
    pub fn full(live: usize) -> Size {
        Size { trades: TRADES_MAX, holidays: HOLIDAYS_MAX, live, records: TABLE_MAX }
    }

    /// A few of each, so that every rule can be broken.
    pub fn any(random: &mut Random) -> Size {
        let live = random.between(2, 40) as usize;
        Size {
            trades: random.between(2, 9) as usize,
            holidays: random.between(1, 6) as usize,
            live,
            records: live + random.between(1, 9) as usize,
        }
    }
}

/// The first message ID, so that there are lower ones.
const FIRST_MESSAGE_ID: u64 = 10;

/// A sound book of a size, and its table.
pub fn sized(random: &mut Random, size: Size) -> (Book, Vec<PoolRecord>) {
    let mut table = vec![PoolRecord::EMPTY; size.records];
    let mut book = open(&values(size), &mut table).expect("the opening is in range");
    let mut place = 0;
    book.values.last_message_id = FIRST_MESSAGE_ID;
    while place < size.live {
        let pools = random.between(1, 250).min((size.live - place) as u64) as usize;
        let trade = random.below(size.trades as u64) as usize;
        message(random, &mut table[place..place + pools], book.values.last_message_id, trade);
        place += pools;
        book.values.last_message_id += random.between(1, 3);
    }
    for (place, pool) in table[..size.live].iter_mut().enumerate() {
        pool.matched.pool_number = digits(place as u64);
    }
    book.live_count = size.live;
    book.inbound = Inbound::after(random.below(1 + u64::from(RECEIVED_MAX)) as u32);
    balance(&mut book, &table);
    (book, table)
}

fn values(size: Size) -> OpeningValues {
    let mut values = crate::day::opening_values();
    let trade = Trade { par_cents: CENTS_MAX, ..values.trades[0].clone() };
    let named = |number| Trade { id: format!("T{number}").into_bytes(), ..trade.clone() };
    values.trades = (0..size.trades).map(named).collect();
    let day = |number| digits(11_012_020 + number as u64);
    values.holidays = (0..size.holidays).map(day).collect();
    values
}

/// Fills records with the lots of a message, of which few are good, so that a trade holds them all.
fn message(random: &mut Random, pools: &mut [PoolRecord], message_id: u64, trade: usize) {
    let mut place = 0;
    for ordinal in 1.. {
        let end = (place + random.between(1, 4) as usize).min(pools.len());
        let kind = match random.below(20) {
            0 => kind_code::GOOD,
            even if even % 2 == 0 => kind_code::ODD,
            _ => kind_code::BAD,
        };
        for pool in &mut pools[place..end] {
            pool.message_id = message_id;
            pool.ordinal = ordinal;
            pool.trade = trade;
            pool.kind = kind;
            pool.lot_millions = if kind == kind_code::GOOD { 1 } else { 0 };
            pool.current_face_cents = random.below(1_000);
        }
        place = end;
        if place == pools.len() {
            break;
        }
    }
}

/// Makes each open par its par less its lots' weights.
fn balance(book: &mut Book, table: &[PoolRecord]) {
    for lot in live_lots(book.live(table)) {
        book.open_par_cents[lot[0].trade] -= live_weight_cents(lot) as u64;
    }
}

/// The places at which a rule can be broken in a book and its table: the first, and how many there are.
pub fn places(rule: u16, book: &Book, table: &[PoolRecord]) -> (usize, usize) {
    let (trades, live) = (book.values.trades.len(), book.live_count);
    match rule {
        104 => (0, book.values.holidays.len()),
        121..=129 | 161 => (0, trades),
        130 => (0, trades.saturating_sub(1)),
        151..=155 => (0, live),
        156..=158 => (1, live.saturating_sub(1)),
        159 => (0, live.saturating_sub(1)),
        160 => (live, table.len() - live),
        _ => (0, 1),
    }
}

/// Breaks a rule at one of its places, in a book that was sound, so that it is the first that is broken.
pub fn break_rule(
    random: &mut Random,
    rule: u16,
    place: usize,
    book: &mut Book,
    table: &mut Vec<PoolRecord>,
) {
    match rule {
        102..=112 => break_values(random, rule, place, &mut book.values),
        121..=130 => break_trade(random, rule, place, &mut book.values.trades),
        141 => {
            let more = random.pick(&[1, 1, 2, 100]);
            table.resize(TABLE_MAX + more, PoolRecord::EMPTY);
        }
        142 => book.inbound = any_broken_line(random),
        143 => {
            table.truncate(book.live_count);
            book.live_count = random.pick(&[table.len() + 1, table.len() + 2, usize::MAX]);
        }
        151..=155 => {
            let (trades, last) = (book.values.trades.len(), book.values.last_message_id);
            break_record(random, rule, &mut table[place], trades, last);
        }
        156..=159 => break_neighbors(random, rule, place, book, table),
        160 => break_empty(random, &mut table[place]),
        _ => {
            let open = &mut book.open_par_cents[place];
            *open = random.pick(&[open.wrapping_add(1), open.wrapping_sub(1), CENTS_MAX + 1]);
        }
    }
}

/// Breaks several rules, or one at several places. Those that change how much the book holds are broken last.
pub fn break_several(random: &mut Random, book: &mut Book, table: &mut Vec<PoolRecord>) {
    let mut rules: Vec<(u16, usize)> = Vec::new();
    for _ in 0..random.between(2, 4) {
        let rule = match random.percent(40) {
            true => random.pick(&OF_OPENING),
            false => random.pick(&OF_BOOK),
        };
        let (first, count) = places(rule, book, table);
        let place = first + random.below(count as u64) as usize;
        let turns = if random.percent(30) { 2 } else { 1 };
        let next = (place + 1).min(first + count - 1);
        rules.extend([(rule, place), (rule, next)].into_iter().take(turns));
    }
    rules.sort_by_key(|(rule, _)| [102, 103, 141, 143].contains(rule));
    for (rule, place) in rules {
        break_rule(random, rule, place, book, table);
    }
}

/// A code that no text has, at any place of a text.
fn spoil(random: &mut Random, text: &mut [u8]) {
    let place = random.below(text.len() as u64) as usize;
    let code = random.pick(&[0, 1, 31, 32, 127, 128, 255]);
    if let Some(byte) = text.get_mut(place) {
        *byte = code;
    }
}

fn break_values(random: &mut Random, rule: u16, place: usize, values: &mut OpeningValues) {
    let over = |random: &mut Random, most: u64| random.pick(&[most + 1, most + 2, u64::MAX]);
    match rule {
        102 => {
            let trade = values.trades[0].clone();
            let more = random.between(1, 3) as usize;
            values.trades.resize(TRADES_MAX + more, trade);
        }
        103 => {
            let more = random.between(1, 3) as usize;
            values.holidays.resize(HOLIDAYS_MAX + more, *b"12252026");
        }
        104 => {
            let no_dates = [b"02292026", b"12311989", b"01012100", b"        ", b"13012026"];
            values.holidays[place] = *random.pick(&no_dates);
        }
        105 => spoil(random, &mut values.subscriber),
        106 => spoil(random, &mut values.connection),
        107 => values.limits.gdmm_ceiling = over(random, GDMM_CEILING_MAX),
        108 => values.limits.variance_cents_a_million = over(random, VARIANCE_CENTS_MAX),
        109 => {
            let wide = over(random, POOLS_A_MILLION_MAX);
            values.limits.pools_a_million = random.pick(&[0, wide]);
        }
        110 => {
            let wide = over(random, FACE_DOLLARS_MAX);
            values.limits.least_face_dollars = random.pick(&[0, wide]);
        }
        111 => values.last_message_id = over(random, MESSAGE_ID_MAX),
        _ => values.last_outbound = random.pick(&[SEQUENCE_MAX + 1, u32::MAX]),
    }
}

fn break_trade(random: &mut Random, rule: u16, place: usize, trades: &mut [Trade]) {
    if rule == 130 {
        let later = random.between(place as u64 + 1, trades.len() as u64 - 1) as usize;
        trades[later].id = trades[place].id.clone();
        return;
    }
    let trade = &mut trades[place];
    match rule {
        121 => {
            let mut spoiled = trade.id.clone();
            spoil(random, &mut spoiled);
            trade.id = random.pick(&[vec![], vec![b'A'; 17], b"A=".to_vec(), spoiled]);
        }
        122 => spoil(random, &mut trade.seller),
        123 => spoil(random, &mut trade.buyer),
        124 => trade.seller = trade.buyer,
        125 => trade.contra = random.pick(&[*b"FICC", *b"ftba", *b"FST\0"]),
        126 => spoil(random, &mut trade.cusip),
        127 => {
            let no_business = [b"07042026", b"07052026", b"02292026", b"7142026 ", b"01012100"];
            trade.settlement = *random.pick(&no_business);
        }
        128 => trade.price = random.pick(&[0, PRICE_MAX + 1, u64::MAX]),
        _ => trade.par_cents = random.pick(&[0, CENTS_MAX + 1, u64::MAX]),
    }
}

fn any_broken_line(random: &mut Random) -> Inbound {
    let last = random.below(u64::from(RECEIVED_MAX)) as u32;
    random.pick(&[
        Inbound { received: None, expected: 0 },
        Inbound { received: None, expected: 2 + last },
        Inbound { received: Some(last), expected: last },
        Inbound { received: Some(last), expected: last + 2 },
        Inbound { received: Some(RECEIVED_MAX + 1), expected: RECEIVED_MAX + 2 },
        Inbound { received: Some(u32::MAX), expected: 0 },
    ])
}

fn break_record(random: &mut Random, rule: u16, pool: &mut PoolRecord, trades: usize, last: u64) {
    match rule {
        151 => pool.trade = random.pick(&[trades, trades + 1, usize::MAX]),
        152 => pool.message_id = random.pick(&[0, last.wrapping_add(1), u64::MAX]),
        153 => pool.ordinal = 0,
        154 => pool.current_face_cents = random.pick(&[CENTS_MAX + 1, u64::MAX]),
        _ => {
            let wrong = [(0, 0), (1, 0), (1, 100), (1, u64::MAX), (2, 1), (3, 99), (4, 0)];
            (pool.kind, pool.lot_millions) = random.pick(&wrong);
        }
    }
}

/// 156 to 158 name the later of two neighbors, 159 the earlier of two records.
fn break_neighbors(
    random: &mut Random,
    rule: u16,
    place: usize,
    book: &Book,
    table: &mut [PoolRecord],
) {
    if rule == 159 {
        let later = match random.percent(50) {
            true => last_of_message(place, book.live(table)),
            false => place + 1,
        };
        if table[later].message_id != table[place].message_id {
            let matched = table[later].matched;
            table[later] = PoolRecord { matched, ..table[place] };
        }
        table[later].matched = table[place].matched;
        return;
    }
    let before = table[place - 1];
    let pool = &mut table[place];
    match rule {
        156 => pool.message_id = random.between(1, before.message_id.max(2) - 1),
        157 => {
            let others = book.values.trades.len() as u64 - 1;
            let other = before.trade.wrapping_add(1 + random.below(others) as usize);
            pool.message_id = before.message_id;
            pool.ordinal = before.ordinal.wrapping_add(random.below(2));
            pool.trade = other % book.values.trades.len();
        }
        _ => {
            let of_lot = (before.kind, before.lot_millions);
            let others = [(1, 1), (1, 2), (1, 99), (2, 0), (3, 0)];
            let others: Vec<_> = others.into_iter().filter(|other| *other != of_lot).collect();
            *pool = PoolRecord { matched: pool.matched, ..before };
            (pool.kind, pool.lot_millions) = random.pick(&others);
        }
    }
}

/// The last record of the message of a place, or the next record where that place is the last.
fn last_of_message(place: usize, live: &[PoolRecord]) -> usize {
    let of_message = |pool: &PoolRecord| pool.message_id == live[place].message_id;
    live.iter().rposition(of_message).unwrap_or(place).max(place + 1)
}

/// One number or one byte that is not 0.
fn break_empty(random: &mut Random, pool: &mut PoolRecord) {
    let number = random.between(1, CENTS_A_MILLION);
    let column = random.below(6) as usize;
    match random.below(9) {
        0 => pool.message_id = number,
        1 => pool.ordinal = number,
        2 => pool.trade = number as usize,
        3 => pool.current_face_cents = number,
        4 => pool.kind = number as u32,
        5 => pool.lot_millions = number,
        6 => pool.matched.lot_id[column] = 1,
        7 => pool.matched.pool_number[column + 1] = 1,
        _ => pool.matched.original_face[column + 3] = 1,
    }
}
