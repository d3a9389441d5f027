//! The reference's book, table and answers as the exported engine has them.

use reference::answer::Answer;
use reference::book::{Book, PoolRecord};
use reference::digits::number;
use reference::values::OpeningValues;
use rhoikandra::{Limits, Opening, Pool, Raw, Trade};

/// A number that no eight digits make.
const NO_DATE: u64 = u32::MAX as u64;

fn date(text: &[u8; 8]) -> u64 {
    number(text).unwrap_or(NO_DATE)
}

pub fn opening(values: &OpeningValues) -> Opening {
    let limits = &values.limits;
    let trades = values.trades.iter().map(|trade| Trade {
        id: trade.id.clone(),
        seller: trade.seller,
        buyer: trade.buyer,
        contra: trade.contra,
        cusip: trade.cusip,
        settlement: date(&trade.settlement),
        price: trade.price,
        par: trade.par_cents,
    });
    Opening {
        trades: trades.collect(),
        holidays: values.holidays.iter().map(|day| date(day) as u32).collect(),
        subscriber: values.subscriber,
        connection: values.connection,
        limits: Limits {
            ceiling: limits.gdmm_ceiling,
            variance: limits.variance_cents_a_million,
            pools: limits.pools_a_million,
            least: limits.least_face_dollars,
        },
        last: values.last_message_id,
        outbound: values.last_outbound,
    }
}

/// The place of a trade's open par among its words, the words of a trade, and the trades that there is room for; where the
/// words after the trades begin, and where the holidays and the line stand among them.
const OPEN_PAR: usize = 41;
pub const TRADE_WORDS: usize = 42;
const TRADES_MAX: usize = 64;
pub const REST: usize = 2688;
pub const HOLIDAYS: usize = 1;
const HOLIDAYS_MAX: usize = 32;
pub const RECEIVED: usize = 48;

/// The words of a book: those of its values, with open pars, line and live pools.
pub fn words(book: &Book) -> Vec<u64> {
    let Raw { mut words, .. } = Raw::of(&opening(&book.values), 0);
    for (trade, &left) in book.open_par_cents.iter().enumerate().take(TRADES_MAX) {
        words[trade * TRADE_WORDS + OPEN_PAR] = left;
    }
    let line = words.len() - 4;
    words[line..].copy_from_slice(&[
        u64::from(book.inbound.received.is_some()),
        u64::from(book.inbound.received.unwrap_or(0)),
        u64::from(book.inbound.expected),
        book.live_count as u64,
    ]);
    words
}

/// The words after a call, from those before it: past the trades an accepted message leaves zeros and any other what stood
/// there, and past the holidays zeros stand after every answer that is told.
pub fn words_after(book: &Book, before: &[u64], answer: Answer, silent: bool) -> Vec<u64> {
    let mut words = words(book);
    if silent {
        return before.to_vec();
    }
    if answer != Answer::Accepted {
        let past = book.values.trades.len() * TRADE_WORDS..TRADES_MAX * TRADE_WORDS;
        words[past.clone()].copy_from_slice(&before[past]);
    }
    words
}

/// Puts any words past a book's trades and holidays, of which no call asks anything.
pub fn fill_past(words: &mut [u64], values: &OpeningValues, mut word: impl FnMut() -> u64) {
    words[values.trades.len() * TRADE_WORDS..TRADES_MAX * TRADE_WORDS].fill_with(&mut word);
    let holidays = REST + HOLIDAYS;
    words[holidays + values.holidays.len()..holidays + HOLIDAYS_MAX].fill_with(&mut word);
}

/// Puts any words where opening sets them itself: open pars, line and live pools.
pub fn fill_opened(words: &mut [u64], mut word: impl FnMut() -> u64) {
    for trade in 0..TRADES_MAX {
        words[trade * TRADE_WORDS + OPEN_PAR] = word();
    }
    words[REST + RECEIVED..].fill_with(&mut word);
}

/// The reference's record as the engine's.
pub fn pool(record: &PoolRecord) -> Pool {
    Pool {
        message: record.message_id,
        ordinal: record.ordinal,
        trade: record.trade as u64,
        lot: record.matched.lot_id,
        pool: record.matched.pool_number,
        original: record.matched.original_face,
        spare: [0; 2],
        current: record.current_face_cents,
        kind: u64::from(record.kind),
        millions: record.lot_millions,
    }
}

/// The reference's book and table as memory that the engine is lent.
pub fn raw(book: &Book, table: &[PoolRecord]) -> Raw {
    Raw { words: words(book), pools: table.iter().map(pool).collect() }
}

/// The same as a client of the engine holds them.
pub fn held(book: &Book, table: &[PoolRecord]) -> rhoikandra::Book {
    rhoikandra::Book::from_raw(raw(book, table))
}

/// Whether a table's records are the reference's.
pub fn same_table(held: &Raw, table: &[PoolRecord]) -> bool {
    held.pools.iter().copied().eq(table.iter().map(pool))
}

/// The engine's answer as the reference gives it.
pub fn told(answer: rhoikandra::Answer) -> Answer {
    match answer {
        rhoikandra::Answer::Accepted(_) => Answer::Accepted,
        rhoikandra::Answer::Rejected(number) => Answer::Rejected(number),
        rhoikandra::Answer::Dked(number) => Answer::DKed(number),
    }
}
