//! Desk: a book with its history beside it, to which drafts are put one after another.

use crate::acknowledgment::OUTPUT_MIN;
use crate::answer::Answer;
use crate::book::{Book, PoolRecord};
use crate::claims::{demand_3, Claims};
use crate::columns::*;
use crate::digits::digits;
use crate::draft::{Draft, DraftPool};
use crate::frame_call::frame_call;
use crate::history::History;
use crate::opening::open;
use crate::pool_detail::MatchedFields;
use crate::tally::Tally;
use crate::values::OpeningValues;

pub struct Desk {
    pub book: Book,
    pub table: Vec<PoolRecord>,
    pub history: History,
    pub tally: Tally,
    /// The bytes that the last call wrote.
    pub wrote: Vec<u8>,
}

/// A pool with this number and current face; its original face passes check 34.
pub fn pool(number: u64, current_face_cents: u64) -> DraftPool {
    let matched = MatchedFields {
        lot_id: *b"1A    ",
        pool_number: digits(number),
        original_face: *b"000500000",
    };
    DraftPool { matched, current_face_cents }
}

impl Desk {
    pub fn open(values: &OpeningValues, records: usize) -> Desk {
        let mut table = vec![PoolRecord::EMPTY; records];
        Desk {
            book: open(values, &mut table).expect("the opening is in range"),
            table,
            history: History::new(values),
            tally: Tally::default(),
            wrote: Vec::new(),
        }
    }

    /// A draft whose header agrees with a trade and whose sequence number is expected.
    pub fn draft(&self, message_type: &[u8; 2], trade: usize) -> Draft {
        let values = &self.book.values;
        let trade = &values.trades[trade];
        let mut draft = Draft::new(message_type);
        draft.put_number(SEQUENCE, u64::from(self.book.inbound.expected));
        draft.put(SUBSCRIBER, &values.subscriber);
        draft.put(CONNECTION, &values.connection);
        draft.put(SUBMITTER, if message_type == b"DK" { &trade.buyer } else { &trade.seller });
        draft.put(CONTRA, &trade.contra);
        draft.put(CUSIP, &trade.cusip);
        draft.put_number(PRICE, trade.price);
        draft.put(SETTLEMENT, &trade.settlement);
        draft
    }

    /// An ON of these pools.
    pub fn on(&self, trade: usize, millions: u64, pools: &[(DraftPool, &[u8; 4])]) -> Draft {
        let mut draft = self.draft(b"ON", trade);
        draft.put_number(GDMM, millions);
        add(&mut draft, pools);
        draft
    }

    /// A CC on a target, with the right number of pools.
    pub fn cc(&self, trade: usize, target: u64, pools: &[(DraftPool, &[u8; 4])]) -> Draft {
        let mut draft = self.draft(b"CC", trade);
        draft.put_number(TARGET, target);
        let replacements = pools.iter().filter(|(_, terminator)| terminator[0] == b'7');
        draft.put_number(NUMBER_OF_POOLS, replacements.count() as u64);
        add(&mut draft, pools);
        draft
    }

    /// A DK on a target.
    pub fn dk(&self, trade: usize, target: u64, pools: &[DraftPool]) -> Draft {
        let mut draft = self.draft(b"DK", trade);
        draft.put_number(TARGET, target);
        for pool in pools {
            draft.add_pool(pool, b"    ");
        }
        draft
    }

    /// Puts a body to the book, and asserts demand 3 after it.
    pub fn put(&mut self, body: &[u8]) -> Answer {
        let mut output = [0; OUTPUT_MIN];
        let Desk { book, table, tally, .. } = self;
        let step = frame_call(book, table, &mut output, b"123456", body, *tally);
        self.tally = step.tally;
        self.wrote = output[..step.written].to_vec();
        self.history.feed(body, step.answer == Answer::Accepted);
        assert_eq!(demand_3(&self.history, &self.book, &self.table), Claims::ALL_HOLD);
        step.answer
    }

    pub fn send(&mut self, draft: &Draft) -> Answer {
        self.put(&draft.body())
    }
}

fn add(draft: &mut Draft, pools: &[(DraftPool, &[u8; 4])]) {
    for (pool, terminator) in pools {
        draft.add_pool(pool, terminator);
    }
}
