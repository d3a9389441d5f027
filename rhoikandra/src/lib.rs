//! The allocation book for Rust programs. Every call goes to the proved engine; this crate only lends it the memory.
//!
//! [`Opening::open`] gives a [`Book`], [`Line`] the frames of what is read, [`Book::step`] the answer to each and the bytes to
//! send. A book is all that the engine keeps. It may be cloned, saved to a disk and loaded later ([`saved`] says what is wrong
//! with bytes that changed meanwhile). One that was damaged in memory is refused with 42 by the next call where it can no
//! longer have come about by calls, and nothing moves. [`Opening::fault`] and [`Book::fault`] name the first rule of 41 or 42
//! that is broken ([`rules`]). A thread that calls needs 128 KiB of stack.
//!
//! ```
//! use rhoikandra::{Book, Line, Number, Opening};
//!
//! /// A day from its opening: what is read goes to the book, the book is kept, and then the answer is sent.
//! fn day(
//!     opening: &Opening,
//!     reads: impl Iterator<Item = Vec<u8>>,
//!     mut keep: impl FnMut(&[u8]),
//!     mut send: impl FnMut(&[u8]),
//! ) -> Result<Book, Number> {
//!     let mut book = opening.open(4096)?;
//!     let mut line = Line::default();
//!     for read in reads {
//!         line.read(&read);
//!         while let Some(body) = line.next_body() {
//!             let stepped = book.step(body, b"093000");
//!             keep(&book.save());
//!             send(stepped.to_send());
//!         }
//!     }
//!     Ok(book)
//! }
//! ```

pub mod columns;
pub mod earlier;
pub mod exported;
mod frames;
pub mod message;
pub mod numbers;
mod opening;
mod raw;
pub mod rules;
pub mod saved;

pub use frames::{frames, Frames, Line, END, START};
pub use opening::{Limits, Opening, Trade};
#[cfg(feature = "raw")]
pub use raw::Raw;
pub use rules::Fault;

use std::collections::hash_map::RandomState;
use std::hash::{BuildHasher, Hasher};

/// The room that an output needs: a TX and an AA.
pub const OUTPUT_LENGTH: usize = 217;

/// The words of a book.
pub const BOOK_WORDS: usize = 2740;

/// A number of the paper, 10 to 44: [`numbers::meaning`] says it in words.
pub type Number = u16;

/// What a frame gets.
#[derive(Clone, Copy, Debug, PartialEq, Eq)]
pub enum Answer {
    /// Under this message ID.
    Accepted(u64),
    Rejected(Number),
    Dked(Number),
}

impl Answer {
    /// From the two numbers that the engine writes.
    fn from_said(first: u64, second: u64) -> Answer {
        match [first, second] {
            [0, id] => Answer::Accepted(id),
            [1, number] => Answer::Rejected(number as Number),
            [_, number] => Answer::Dked(number as Number),
        }
    }

    /// The two numbers that the engine writes.
    fn said(self) -> [u64; 2] {
        match self {
            Answer::Accepted(id) => [0, id],
            Answer::Rejected(number) => [1, u64::from(number)],
            Answer::Dked(number) => [2, u64::from(number)],
        }
    }
}

/// What a frame call gives: the answer, and the bytes to send.
#[derive(Clone, Copy, Debug, PartialEq, Eq)]
#[must_use = "what the call wrote is to be sent"]
pub struct Stepped {
    pub answer: Answer,
    output: [u8; OUTPUT_LENGTH],
    written: usize,
}

impl Stepped {
    /// What goes out on the line: an AA, a TX before it where numbers are missing, or nothing.
    pub fn to_send(&self) -> &[u8] {
        &self.output[..self.written]
    }
}

/// What a frame call says of an output of one's own: the answer, and how many bytes of it are the call's: 0, 64 or 217.
#[derive(Clone, Copy, Debug, PartialEq, Eq)]
pub struct Said {
    pub answer: Answer,
    pub written: usize,
}

/// The answers of a day, counted: a row for ON, CC, DK and CX, each with accepted, rejected and DKed. A full cell stays full.
#[derive(Clone, Copy, Debug, Default, PartialEq, Eq)]
pub struct Tally {
    pub rows: [[u32; 3]; 4],
}

impl Tally {
    /// Counts the answer that a frame's body got. Other types are not in the tally, and neither are refusals that moved nothing.
    pub fn count(&mut self, body: &[u8], answer: Answer) {
        let rows = &mut self.rows;
        let said = answer.said();
        unsafe {
            exported::rhoikandra_tally(
                rows.as_mut_ptr(),
                rows.len(),
                body.as_ptr(),
                body.len(),
                said.as_ptr(),
                said.len(),
            )
        };
    }
}

/// What a book says of a trade.
#[derive(Clone, Copy, Debug, PartialEq, Eq)]
pub struct Figures {
    /// In cents.
    pub open_par: u64,
    pub standing_millions: u64,
}

/// A live pool: the message ID that brought it, its lot's ordinal there, its trade, the matched fields as bytes, its
/// current face in cents, its lot's kind (1 good, 2 odd, 3 bad) and millions. A record that is not used is zeros.
#[repr(C)]
#[derive(Clone, Copy, Debug, Default, Eq)]
pub struct Pool {
    pub message: u64,
    pub ordinal: u64,
    pub trade: u64,
    pub lot: [u8; 6],
    pub pool: [u8; 7],
    pub original: [u8; 9],
    /// No part of the record: no call reads it, two records are equal whatever stands here, and a book's bytes have none of it.
    pub spare: [u8; 2],
    pub current: u64,
    pub kind: u64,
    pub millions: u64,
}

impl PartialEq for Pool {
    fn eq(&self, other: &Pool) -> bool {
        self.parts() == other.parts()
    }
}

/// The seed of a call, drawn at random. No answer depends on it; whoever sends messages must not know it, for rows of pools are spread by it.
fn seed() -> u64 {
    RandomState::new().build_hasher().finish()
}

/// A book between two calls. It comes from [`Opening::open`] or from [`Book::load`]: one that was not opened cannot be
/// stepped, and one that is open cannot be opened again.
///
/// ```compile_fail,E0599
/// fn again(book: &mut rhoikandra::Book) {
///     book.open();
/// }
/// ```
///
/// ```compile_fail,E0451
/// fn unopened() -> rhoikandra::Book {
///     rhoikandra::Book { raw: todo!() }
/// }
/// ```
#[derive(Clone, Debug, PartialEq, Eq)]
pub struct Book {
    raw: raw::Raw,
}

impl Book {
    /// Puts a frame's body to the book. What it gives to send is to be sent once the book is saved. Where it is rejected with
    /// 42, [`Book::fault`] says why.
    pub fn step(&mut self, body: &[u8], time: &[u8; 6]) -> Stepped {
        let mut output = [0; OUTPUT_LENGTH];
        let Said { answer, written } = self.step_into(body, time, &mut output);
        Stepped { answer, output, written }
    }

    /// The same with an output of one's own: TX and AA stand at its head, and the rest of it stays.
    pub fn step_into(&mut self, body: &[u8], time: &[u8; 6], output: &mut [u8]) -> Said {
        self.step_by(seed(), body, time, output)
    }

    /// The same by a seed of one's own, for a run that is to be repeated. No answer depends on it.
    pub fn step_by(
        &mut self,
        seed: u64,
        body: &[u8],
        time: &[u8; 6],
        output: &mut [u8],
    ) -> Said {
        let raw::Raw { words, pools } = &mut self.raw;
        let mut said = [0; 3];
        unsafe {
            exported::rhoikandra_step(
                words.as_mut_ptr(),
                words.len(),
                pools.as_mut_ptr(),
                pools.len(),
                body.as_ptr(),
                body.len(),
                time.as_ptr(),
                time.len(),
                seed,
                output.as_mut_ptr(),
                output.len(),
                said.as_mut_ptr(),
                said.len(),
            )
        };
        let [first, second, written] = said;
        Said { answer: Answer::from_said(first, second), written: written as usize }
    }

    /// The records that the table has room for.
    pub fn records(&self) -> usize {
        self.raw.pools.len()
    }

    /// The pools that stand under trades, in the order of the table.
    pub fn live_pools(&self) -> &[Pool] {
        self.raw.live_pools()
    }

    /// The figures of a trade, counted from 0 in opening order; none where there is no such trade or the book is damaged,
    /// and then [`Book::fault`] says how.
    pub fn figures(&self, trade: usize) -> Option<Figures> {
        self.figures_by(seed(), trade)
    }

    /// The same by a seed of one's own.
    pub fn figures_by(&self, seed: u64, trade: usize) -> Option<Figures> {
        let raw::Raw { words, pools } = &self.raw;
        let mut told = [0; 3];
        unsafe {
            exported::rhoikandra_figures(
                words.as_ptr(),
                words.len(),
                pools.as_ptr(),
                pools.len(),
                trade,
                seed,
                told.as_mut_ptr(),
                told.len(),
            )
        };
        let [known, open_par, standing_millions] = told;
        (known == 1).then_some(Figures { open_par, standing_millions })
    }

    /// The first rule that the book breaks: there is one exactly where every frame gets 42. It is not for each frame: on a
    /// full table it takes some milliseconds.
    pub fn fault(&self) -> Option<Fault> {
        self.raw.book_fault()
    }
}

impl Pool {
    /// What a record says: its numbers and its matched fields.
    fn parts(&self) -> ([u64; 6], [u8; 6], [u8; 7], [u8; 9]) {
        let numbers =
            [self.message, self.ordinal, self.trade, self.current, self.kind, self.millions];
        (numbers, self.lot, self.pool, self.original)
    }
}
