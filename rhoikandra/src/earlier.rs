//! A book by the earlier interface: its words and its records are open, it is opened in its place, and a call writes to an output of
//! the caller's. A book of [`crate::Opening::open`] cannot be stepped before it is opened, nor opened twice; this one can. Before it
//! is opened a frame gets 42 only where a value is out of range, and to open it again drops what it holds.

use std::mem::take;

use crate::raw::Raw;
use crate::saved::Damaged;
use crate::{Figures, Number, Opening, Pool};

pub use crate::Said as Stepped;

/// A book, opened or not: its words and the records of its table.
#[derive(Clone, Debug, PartialEq, Eq)]
pub struct Book {
    pub words: Vec<u64>,
    pub pools: Vec<Pool>,
}

impl From<Raw> for Book {
    fn from(Raw { words, pools }: Raw) -> Book {
        Book { words, pools }
    }
}

impl Book {
    /// A book that is not opened yet, with a table of so many records.
    pub fn of(opening: &Opening, records: usize) -> Book {
        Raw::of(opening, records).into()
    }

    /// Lends the memory to a call, and takes it back.
    fn lend<T>(&mut self, call: impl FnOnce(&mut crate::Book) -> T) -> T {
        let raw = Raw { words: take(&mut self.words), pools: take(&mut self.pools) };
        let mut book = crate::Book { raw };
        let told = call(&mut book);
        *self = book.raw.into();
        told
    }

    /// The same memory for calls that only read it.
    fn read(&self) -> crate::Book {
        let Book { words, pools } = self.clone();
        crate::Book { raw: Raw { words, pools } }
    }

    /// Opens it, or says 41 and leaves it as it was.
    pub fn open(&mut self) -> Result<(), Number> {
        self.lend(|book| book.raw.open())
    }

    /// Puts a frame's body to the book, by a seed drawn at random.
    pub fn step(&mut self, body: &[u8], time: &[u8; 6], output: &mut [u8]) -> Stepped {
        self.lend(|book| book.step_into(body, time, output))
    }

    /// The same by a seed of one's own.
    pub fn step_by(
        &mut self,
        seed: u64,
        body: &[u8],
        time: &[u8; 6],
        output: &mut [u8],
    ) -> Stepped {
        self.lend(|book| book.step_by(seed, body, time, output))
    }

    /// The figures of a trade, by a seed drawn at random.
    pub fn figures(&self, trade: usize) -> Option<Figures> {
        self.read().figures(trade)
    }

    /// The same by a seed of one's own.
    pub fn figures_by(&self, seed: u64, trade: usize) -> Option<Figures> {
        self.read().figures_by(seed, trade)
    }

    /// The book as bytes for a disk.
    pub fn save(&self) -> Vec<u8> {
        self.read().save()
    }

    /// A book from such bytes, or what is wrong with them.
    pub fn load(bytes: &[u8]) -> Result<Book, Damaged> {
        crate::Book::load(bytes).map(|book| book.raw.into())
    }
}
