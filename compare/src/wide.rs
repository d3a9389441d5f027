//! The places of a book's words that can be too wide for what they stand for.

use reference::values::OpeningValues;

use crate::engine::{HOLIDAYS, RECEIVED, REST, TRADE_WORDS};

/// The places of a trade's length, seller and settlement among its words, and what stands where among the words after the trades.
const LENGTH: usize = 16;
const SELLER: usize = 17;
const SETTLEMENT: usize = 38;
const SUBSCRIBER: usize = 34;
const CEILING: usize = 42;
const OUTBOUND: usize = 47;

/// The places of words that can be too wide: those that hold a byte, those that hold a number of 32 bits, and those of the line,
/// which opening does not read.
pub struct Wide {
    pub bytes: Vec<usize>,
    pub numbers: Vec<usize>,
    pub of_line: Vec<usize>,
}

/// Those of the trades and holidays that count, and of what stands beside them.
pub fn wide(values: &OpeningValues) -> Wide {
    let of_trade = |trade: usize| {
        let texts = (0..LENGTH).chain(SELLER..SETTLEMENT);
        texts.map(move |place| trade * TRADE_WORDS + place)
    };
    let of_trades = (0..values.trades.len()).flat_map(of_trade);
    let accounts = REST + SUBSCRIBER..REST + CEILING;
    let holidays = REST + HOLIDAYS..REST + HOLIDAYS + values.holidays.len();
    Wide {
        bytes: of_trades.chain(accounts).collect(),
        numbers: holidays.chain([REST + OUTBOUND]).collect(),
        of_line: (REST + RECEIVED..REST + RECEIVED + 3).collect(),
    }
}
