//! Terms: a trade's terms, and when a message agrees with them (01 The book).

use crate::columns::{CONTRA, CUSIP, PRICE, SETTLEMENT, SUBMITTER};
use crate::message::{Message, Type};

pub const FTBA: [u8; 4] = *b"FTBA";
pub const FSTI: [u8; 4] = *b"FSTI";

/// A trade as opening lends it.
#[derive(Clone, Debug, PartialEq, Eq)]
pub struct Trade {
    pub id: Vec<u8>,
    pub seller: [u8; 4],
    pub buyer: [u8; 4],
    pub contra: [u8; 4],
    pub cusip: [u8; 9],
    pub settlement: [u8; 8],
    /// Nine implied decimals.
    pub price: u64,
    pub par_cents: u64,
}

/// Prices are equal after dropping the last three of nine decimals; nothing is rounded.
pub fn prices_agree(one: u64, other: u64) -> bool {
    const LAST_THREE_DECIMALS: u64 = 1_000;
    one / LAST_THREE_DECIMALS == other / LAST_THREE_DECIMALS
}

/// The submitter is the seller for ON and CC, the buyer for DK.
pub fn agree(message: &Message, trade: &Trade) -> bool {
    let submitter = match message.message_type() {
        Some(Type::Dk) => trade.buyer,
        _ => trade.seller,
    };
    message.field(SUBMITTER) == submitter
        && message.field(CONTRA) == trade.contra
        && message.field(CUSIP) == trade.cusip
        && message.field(SETTLEMENT) == trade.settlement
        && message.number(PRICE).is_some_and(|price| prices_agree(price, trade.price))
}

/// The trade that the message's whole trade ID names, exactly and in length too.
pub fn named(message: &Message, trades: &[Trade]) -> Option<usize> {
    let name = message.trade_name()?;
    trades.iter().position(|trade| trade.id == name)
}

/// The trade that an ON goes to: the one its ID names, else the first in opening order
/// whose terms agree and whose open par holds the message's whole weight.
pub fn trade_of_on(
    message: &Message,
    trades: &[Trade],
    open_par_cents: &[i128],
    weight_cents: u64,
) -> Option<usize> {
    if message.trade_name().is_some() {
        return named(message, trades);
    }
    trades
        .iter()
        .zip(open_par_cents)
        .position(|(trade, open)| agree(message, trade) && *open >= i128::from(weight_cents))
}

#[cfg(test)]
mod tests {
    use super::*;

    #[test]
    fn six_decimals_decide_and_nothing_is_rounded() {
        assert!(prices_agree(98_123_456_789, 98_123_456_000));
        assert!(!prices_agree(98_123_456_789, 98_123_457_000));
        assert!(prices_agree(u64::MAX, u64::MAX));
        assert!(!prices_agree(0, 1_000));
    }
}
