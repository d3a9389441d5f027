//! Opening: judges the values an operator lends (41) and makes a book of them.

use crate::answer::{Number, OPENING};
use crate::book::{Book, PoolRecord};
use crate::calendar::{business_date, date};
use crate::sequence::{Inbound, SEQUENCE_MAX};
use crate::terms::{Trade, FSTI, FTBA};
use crate::trade_id::TRADE_ID_MAX;
use crate::values::{Limits, OpeningValues};

pub const TRADES_MAX: usize = 64;
pub const HOLIDAYS_MAX: usize = 32;
pub const TABLE_MAX: usize = 4_096;
pub const MESSAGE_ID_MAX: u64 = 99_999_999_999;
pub const GDMM_CEILING_MAX: u64 = 9_999;
pub const VARIANCE_CENTS_MAX: u64 = 1_000_000;
pub const POOLS_A_MILLION_MAX: u64 = 250;
pub const FACE_DOLLARS_MAX: u64 = 50_000_000;
/// Eleven digits, two implied decimals.
pub const CENTS_MAX: u64 = 99_999_999_999;
/// Twelve digits, nine implied decimals.
pub const PRICE_MAX: u64 = 999_999_999_999;

/// Opens a book and zeroes the table, or refuses with 41 and leaves the table as it was.
pub fn open(values: &OpeningValues, table: &mut [PoolRecord]) -> Result<Book, Number> {
    if !in_range(values, table.len()) {
        return Err(OPENING);
    }
    table.fill(PoolRecord::EMPTY);
    Ok(Book {
        open_par_cents: values.trades.iter().map(|trade| trade.par_cents).collect(),
        values: values.clone(),
        inbound: Inbound::NONE_RECEIVED,
        live_count: 0,
    })
}

/// Opening's rules; a book that breaks them later is unsound.
pub fn in_range(values: &OpeningValues, table_length: usize) -> bool {
    values.trades.len() <= TRADES_MAX
        && values.holidays.len() <= HOLIDAYS_MAX
        && table_length <= TABLE_MAX
        && is_text(&values.subscriber)
        && is_text(&values.connection)
        && values.last_message_id <= MESSAGE_ID_MAX
        && values.last_outbound <= SEQUENCE_MAX
        && limits_in_range(&values.limits)
        && values.holidays.iter().all(|holiday| date(holiday).is_some())
        && values.trades.iter().all(|trade| trade_in_range(trade, &values.holidays))
        && ids_differ(&values.trades)
}

fn limits_in_range(limits: &Limits) -> bool {
    limits.gdmm_ceiling <= GDMM_CEILING_MAX
        && limits.variance_cents_a_million <= VARIANCE_CENTS_MAX
        && (1..=POOLS_A_MILLION_MAX).contains(&limits.pools_a_million)
        && (1..=FACE_DOLLARS_MAX).contains(&limits.least_face_dollars)
}

fn trade_in_range(trade: &Trade, holidays: &[[u8; 8]]) -> bool {
    (1..=TRADE_ID_MAX).contains(&trade.id.len())
        && is_text(&trade.id)
        && !trade.id.contains(&b'=')
        && is_text(&trade.seller)
        && is_text(&trade.buyer)
        && trade.seller != trade.buyer
        && [FTBA, FSTI].contains(&trade.contra)
        && is_text(&trade.cusip)
        && business_date(&trade.settlement, holidays)
        && (1..=PRICE_MAX).contains(&trade.price)
        && (1..=CENTS_MAX).contains(&trade.par_cents)
}

fn ids_differ(trades: &[Trade]) -> bool {
    trades
        .iter()
        .enumerate()
        .all(|(place, trade)| trades[..place].iter().all(|earlier| earlier.id != trade.id))
}

/// Characters of codes 33 to 126.
pub fn is_text(bytes: &[u8]) -> bool {
    bytes.iter().all(|byte| (33..=126).contains(byte))
}
