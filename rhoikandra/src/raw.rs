//! The memory of a book as the engine is lent it, opened or not. It is public with the feature `raw` alone, for programs that
//! build any book, damaged ones too, and read all of it.

use crate::{exported, Fault, Number, Opening, Pool};

/// The records of the longest table.
pub const RECORDS_MAX: usize = 4096;

/// Where a book's words have the number of live pools.
const LIVE: usize = 2739;

/// The words of a book and the records of its table.
#[derive(Clone, Debug, PartialEq, Eq)]
pub struct Raw {
    pub words: Vec<u64>,
    pub pools: Vec<Pool>,
}

impl Raw {
    /// What an opening lends, with a table of so many records. It is not opened yet.
    pub fn of(opening: &Opening, records: usize) -> Raw {
        Raw { words: opening.words(), pools: vec![Pool::default(); records] }
    }

    /// Opens it, or says 41 and leaves it as it was. An opened table is zeros to the byte.
    pub fn open(&mut self) -> Result<(), Number> {
        let Raw { words, pools } = self;
        let code = unsafe {
            exported::rhoikandra_open(
                words.as_mut_ptr(),
                words.len(),
                pools.as_mut_ptr(),
                pools.len(),
            )
        };
        match code {
            0 => {
                pools.iter_mut().for_each(|pool| pool.spare = [0; 2]);
                Ok(())
            }
            number => Err(number as Number),
        }
    }

    /// The records that the words say are live, as many of them as there are.
    pub fn live_pools(&self) -> &[Pool] {
        let Raw { words, pools } = self;
        let live = words.get(LIVE).map_or(0, |live| pools.len().min(*live as usize));
        &pools[..live]
    }

    /// The first rule of opening that the words break over a table of so many records.
    pub fn opening_fault(&self, records: usize) -> Option<Fault> {
        let words = &self.words;
        let mut named = [0; 2];
        unsafe {
            exported::rhoikandra_opening_fault(
                words.as_ptr(),
                words.len(),
                records,
                named.as_mut_ptr(),
                named.len(),
            )
        };
        Fault::from_named(named)
    }

    /// The first rule of a sound book that the words and the table break.
    pub fn book_fault(&self) -> Option<Fault> {
        let Raw { words, pools } = self;
        let mut named = [0; 2];
        unsafe {
            exported::rhoikandra_book_fault(
                words.as_ptr(),
                words.len(),
                pools.as_ptr(),
                pools.len(),
                named.as_mut_ptr(),
                named.len(),
            )
        };
        Fault::from_named(named)
    }
}

#[cfg(feature = "raw")]
impl crate::Book {
    /// Any memory as a book. What is no book's is refused with 42 by every call.
    pub fn from_raw(raw: Raw) -> Self {
        Self { raw }
    }

    pub fn raw(&self) -> &Raw {
        &self.raw
    }

    pub fn raw_mut(&mut self) -> &mut Raw {
        &mut self.raw
    }
}
