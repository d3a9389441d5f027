//! What opening lends, and the words that say it.

use crate::raw::{Raw, RECORDS_MAX};
use crate::{Book, Fault, Number, BOOK_WORDS};

const TRADES_MAX: usize = 64;
const TRADE_WORDS: usize = 42;
const HOLIDAYS_MAX: usize = 32;
const ID_MAX: usize = 16;

/// A trade. Dates are the number mmddyyyy, the price has nine decimals, par is in cents.
#[derive(Clone, Debug)]
pub struct Trade {
    pub id: Vec<u8>,
    pub seller: [u8; 4],
    pub buyer: [u8; 4],
    pub contra: [u8; 4],
    pub cusip: [u8; 9],
    pub settlement: u64,
    pub price: u64,
    pub par: u64,
}

/// GDMM ceiling, variance in cents a million, pools a million, least face in dollars.
#[derive(Clone, Copy, Debug)]
pub struct Limits {
    pub ceiling: u64,
    pub variance: u64,
    pub pools: u64,
    pub least: u64,
}

/// What opening lends. The engine judges it, and refuses it with 41; [`Opening::fault`] says why.
#[derive(Clone, Debug)]
pub struct Opening {
    pub trades: Vec<Trade>,
    /// mmddyyyy.
    pub holidays: Vec<u32>,
    pub subscriber: [u8; 4],
    pub connection: [u8; 4],
    pub limits: Limits,
    /// The last message ID that was used.
    pub last: u64,
    /// The last outbound number that was used.
    pub outbound: u32,
}

fn bytes(words: &mut Vec<u64>, bytes: &[u8]) {
    words.extend(bytes.iter().map(|&byte| u64::from(byte)));
}

impl Opening {
    /// A book with these values over a table of so many records, at most 4,096; or 41, where a value is out of range. Then
    /// [`Opening::fault`] names the value.
    pub fn open(&self, records: usize) -> Result<Book, Number> {
        // One record too many says all that a longer table would.
        let mut raw = Raw::of(self, records.min(RECORDS_MAX + 1));
        raw.open()?;
        Ok(Book { raw })
    }

    /// The first rule that these values break over a table of so many records: there is one exactly where [`Opening::open`]
    /// answers 41.
    ///
    /// ```
    /// use rhoikandra::{Limits, Opening, Trade};
    ///
    /// let trade = Trade {
    ///     id: b"T1".to_vec(),
    ///     seller: *b"MBAA",
    ///     buyer: *b"MBBB",
    ///     contra: *b"FTBA",
    ///     cusip: *b"01F082630",
    ///     settlement: 7_142_026,
    ///     price: 98_500_000_000,
    ///     par: 300_000_000,
    /// };
    /// // The fourth of July 2026 is a Saturday.
    /// let second = Trade { id: b"T2".to_vec(), settlement: 7_042_026, ..trade.clone() };
    /// let mut opening = Opening {
    ///     trades: vec![trade, second],
    ///     holidays: vec![],
    ///     subscriber: *b"0123",
    ///     connection: *b"1200",
    ///     limits: Limits { ceiling: 2500, variance: 10_000, pools: 3, least: 1000 },
    ///     last: 0,
    ///     outbound: 0,
    /// };
    /// assert_eq!(opening.open(64), Err(41));
    /// let fault = opening.fault(64).expect("a rule is broken");
    /// assert_eq!((fault.rule, fault.place), (127, 1));
    /// assert!(fault.to_string().starts_with("rule 127, trade 1: its settlement is a business date; "));
    ///
    /// opening.trades[1].settlement = 7_062_026;
    /// assert_eq!(opening.fault(64), None);
    /// assert!(opening.open(64).is_ok());
    /// ```
    pub fn fault(&self, records: usize) -> Option<Fault> {
        Raw::of(self, 0).opening_fault(records)
    }

    /// The words of a book with these values, nothing received and no live pool. What does not fit its place, a 65th
    /// trade, a 33rd holiday or a 17th character, is told by its count, and opening refuses it.
    pub fn words(&self) -> Vec<u64> {
        let mut words = Vec::with_capacity(BOOK_WORDS);
        for trade in self.trades.iter().take(TRADES_MAX) {
            let mut id = trade.id.clone();
            id.resize(ID_MAX, 0);
            bytes(&mut words, &id);
            words.push(trade.id.len() as u64);
            bytes(&mut words, &trade.seller);
            bytes(&mut words, &trade.buyer);
            bytes(&mut words, &trade.contra);
            bytes(&mut words, &trade.cusip);
            words.extend([trade.settlement, trade.price, trade.par, trade.par]);
        }
        words.resize(TRADES_MAX * TRADE_WORDS, 0);
        words.push(self.trades.len() as u64);
        let mut holidays: Vec<u64> = self.holidays.iter().map(|&day| u64::from(day)).collect();
        holidays.resize(HOLIDAYS_MAX, 0);
        words.extend(holidays);
        words.push(self.holidays.len() as u64);
        bytes(&mut words, &self.subscriber);
        bytes(&mut words, &self.connection);
        let Limits { ceiling, variance, pools, least } = self.limits;
        words.extend([ceiling, variance, pools, least, self.last, u64::from(self.outbound)]);
        // Nothing received, 1 expected, no live pool.
        words.extend([0, 0, 1, 0]);
        words
    }
}
