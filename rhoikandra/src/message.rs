//! Messages for tests and examples: a header and its pools, put together by the engine's columns.

use crate::columns::*;
use crate::frames::{END, START};
use crate::Opening;

/// The bytes of the frame of the longest message.
pub const FRAME_MAX: usize = HEADER_WIDTH + POOLS_MAX * DETAIL_WIDTH + 2;

/// The version that check 14 asks for.
const VERSION_TAKEN: &[u8] = b"002";

/// A pool of a message: its matched fields, with the original face in dollars, its current face in cents, its terminator.
#[derive(Clone, Copy, Debug, PartialEq, Eq)]
pub struct PoolDetail {
    pub lot: [u8; 6],
    pub pool: [u8; 7],
    pub original: u64,
    pub current: u64,
    pub terminator: [u8; 4],
}

/// A message, blank where nothing was put. What does not fit its column panics, with the name of the column, and so does a
/// trade that the opening has not.
///
/// ```
/// # use rhoikandra::{columns::*, message::{Message, PoolDetail}, Limits, Opening, Trade};
/// # let opening = Opening {
/// #     trades: vec![Trade {
/// #         id: b"T1".to_vec(), seller: *b"MBAA", buyer: *b"MBBB", contra: *b"FTBA", cusip: *b"01F082630",
/// #         settlement: 7_142_026, price: 98_500_000_000, par: 300_000_000,
/// #     }],
/// #     holidays: vec![], subscriber: *b"0123", connection: *b"1200",
/// #     limits: Limits { ceiling: 2500, variance: 10_000, pools: 3, least: 1000 }, last: 0, outbound: 0,
/// # };
/// let on = Message::on(&opening, 0).number(SEQUENCE, 1).number(GDMM, 1).pool(&PoolDetail {
///     lot: *b"LOT001",
///     pool: *b"AA00001",
///     original: 1_000_000,
///     current: 100_000_000,
///     terminator: *b"0001",
/// });
/// let stepped = opening.open(64)?.step(&on.body(), b"093000");
/// assert_eq!(stepped.answer, rhoikandra::Answer::Accepted(1));
/// # Ok::<(), rhoikandra::Number>(())
/// ```
#[derive(Clone, Debug, PartialEq, Eq)]
pub struct Message {
    header: [u8; HEADER_WIDTH],
    pools: Vec<[u8; DETAIL_WIDTH]>,
}

impl Message {
    /// An ON from the seller of a trade, counted from 0. It needs a sequence, the good millions (GDMM) and pools.
    pub fn on(opening: &Opening, trade: usize) -> Message {
        Message::of(b"ON", opening, trade)
    }

    /// A CC from the seller of a trade. It needs a sequence, a target, the number of replacement pools and pools.
    pub fn cc(opening: &Opening, trade: usize) -> Message {
        Message::of(b"CC", opening, trade)
    }

    /// A DK from the buyer of a trade. It needs a sequence, a target, a reason and pools.
    pub fn dk(opening: &Opening, trade: usize) -> Message {
        let message = Message::of(b"DK", opening, trade);
        message.text(SUBMITTER, &opening.trades[trade].buyer)
    }

    /// A header that agrees with an opening and one of its trades.
    fn of(kind: &[u8; 2], opening: &Opening, trade: usize) -> Message {
        let trade = &opening.trades[trade];
        Message { header: [b' '; HEADER_WIDTH], pools: Vec::new() }
            .text(MESSAGE_TYPE, kind)
            .text(VERSION, VERSION_TAKEN)
            .text(SUBSCRIBER, &opening.subscriber)
            .text(CONNECTION, &opening.connection)
            .text(SUBMITTER, &trade.seller)
            .text(CONTRA, &trade.contra)
            .text(CUSIP, &trade.cusip)
            .number(PAR, trade.par)
            .number(PRICE, trade.price)
            .number(GDMM, 0)
            .number(SETTLEMENT, trade.settlement)
    }

    /// Puts bytes into a column of the header, with blanks after them.
    pub fn text(mut self, column: Column, bytes: &[u8]) -> Message {
        assert!(HEADER.contains(&column), "{} is no column of the header", column.name);
        put(&mut self.header, column, bytes);
        self
    }

    /// Puts a number into a column of the header, in as many digits as the column is wide.
    pub fn number(self, column: Column, number: u64) -> Message {
        self.text(column, &digits(column, number))
    }

    /// Adds a pool.
    pub fn pool(mut self, pool: &PoolDetail) -> Message {
        let mut detail = [b' '; DETAIL_WIDTH];
        put(&mut detail, LOT_ID, &pool.lot);
        put(&mut detail, POOL_NUMBER, &pool.pool);
        put(&mut detail, ORIGINAL_FACE, &digits(ORIGINAL_FACE, pool.original));
        put(&mut detail, CURRENT_FACE, &digits(CURRENT_FACE, pool.current));
        put(&mut detail, TERMINATOR, &pool.terminator);
        self.pools.push(detail);
        self
    }

    /// The body of the message's frame.
    pub fn body(&self) -> Vec<u8> {
        [&self.header[..], &self.pools.concat()].concat()
    }

    /// The message as it goes over the line. A body that has the marks of a frame in it makes no frame, and panics.
    pub fn frame(&self) -> Vec<u8> {
        let body = self.body();
        let marked = body.iter().any(|byte| [START, END].contains(byte));
        assert!(!marked, "the body has a mark of a frame in it");
        [&[START][..], &body, &[END]].concat()
    }
}

fn put(record: &mut [u8], column: Column, bytes: &[u8]) {
    let Column { name, at, width } = column;
    assert!(bytes.len() <= width, "{name} has room for {width} bytes, and not for {}", bytes.len());
    record[at..at + width].fill(b' ');
    record[at..at + bytes.len()].copy_from_slice(bytes);
}

/// A number in a column's digits; a wider one does not fit when it is put.
fn digits(column: Column, number: u64) -> Vec<u8> {
    format!("{number:0width$}", width = column.width).into_bytes()
}
