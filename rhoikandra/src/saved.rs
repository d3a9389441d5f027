//! A book on a disk: what stands in the bytes, and what is wrong with bytes that are no saved book.
//!
//! The bytes are a mark of eight, the version of the format and the number of records (32 bits each), the words of the
//! book, the records (six numbers, then the matched fields), and a checksum over all of these. Numbers are little-endian.
//! The checksum is the CRC of 64 bits that xz uses: it sees every change of one bit and every one that lies within 64 bits,
//! and of other damage all but one in 2^64; a book that was changed and still is a sound one is told by it alone.

use crate::raw::Raw;
use crate::{Book, Pool, BOOK_WORDS};
use std::fmt;

const MARK: [u8; 8] = *b"RHOIKAND";
const VERSION: u32 = 1;

/// The bytes before the words: mark, version, number of records.
const HEAD_BYTES: usize = 8 + 4 + 4;
/// The bytes of a record: six numbers, then the matched fields.
const POOL_BYTES: usize = 6 * 8 + 22;
const CHECKSUM_BYTES: usize = 8;

/// Why bytes are no saved book. Nothing of them was handed to the engine.
#[derive(Clone, Copy, Debug, PartialEq, Eq)]
pub enum Damaged {
    /// They do not begin as a saved book does.
    Mark,
    /// They have a version of the format that this library does not read.
    Version(u32),
    /// They are not as long as they must be by their number of records; where that is cut off too, as without any.
    Length { expected: usize, found: usize },
    /// Something in them changed since they were saved.
    Checksum,
}

impl fmt::Display for Damaged {
    fn fmt(&self, f: &mut fmt::Formatter) -> fmt::Result {
        match self {
            Damaged::Mark => write!(
                f,
                "not a saved book: it does not begin with RHOIKAND; check the file's name"
            ),
            Damaged::Version(version) => {
                write!(f, "a saved book of version {version}, and this library reads version {VERSION}; load it with the library that saved it")
            }
            Damaged::Length { found, .. } if *found < HEAD_BYTES => {
                write!(f, "a saved book of which only {found} bytes are here; restore the last good copy")
            }
            Damaged::Length { expected, found } => {
                write!(f, "a saved book of {expected} bytes, and {found} are here; restore the last good copy")
            }
            Damaged::Checksum => write!(
                f,
                "a saved book that changed since it was saved; restore the last good copy"
            ),
        }
    }
}

impl std::error::Error for Damaged {}

/// What each byte does to the checksum.
const TABLE: [u64; 256] = {
    let mut table = [0; 256];
    let mut byte = 0;
    while byte < 256 {
        let mut sum = byte as u64;
        let mut bit = 0;
        while bit < 8 {
            sum = if sum & 1 == 1 { sum >> 1 ^ 0xC96C_5795_D787_0F42 } else { sum >> 1 };
            bit += 1;
        }
        table[byte] = sum;
        byte += 1;
    }
    table
};

/// The checksum of bytes.
pub fn checksum(bytes: &[u8]) -> u64 {
    !bytes.iter().fold(!0, |sum, byte| TABLE[(sum as u8 ^ byte) as usize] ^ sum >> 8)
}

/// The bytes of a saved book with a table of so many records.
pub fn size(records: usize) -> usize {
    HEAD_BYTES + BOOK_WORDS * 8 + records * POOL_BYTES + CHECKSUM_BYTES
}

fn word(bytes: &[u8]) -> u64 {
    u64::from_le_bytes(bytes.try_into().expect("eight bytes"))
}

fn half(bytes: &[u8]) -> u32 {
    u32::from_le_bytes(bytes.try_into().expect("four bytes"))
}

fn put_pool(bytes: &mut Vec<u8>, pool: &Pool) {
    let (numbers, lot, matched, original) = pool.parts();
    bytes.extend(numbers.into_iter().flat_map(u64::to_le_bytes));
    bytes.extend(lot.into_iter().chain(matched).chain(original));
}

fn pool(bytes: &[u8]) -> Pool {
    let (numbers, fields) = bytes.split_at(6 * 8);
    let number = |at: usize| word(&numbers[at * 8..][..8]);
    Pool {
        message: number(0),
        ordinal: number(1),
        trade: number(2),
        lot: fields[..6].try_into().expect("six bytes"),
        pool: fields[6..13].try_into().expect("seven bytes"),
        original: fields[13..].try_into().expect("nine bytes"),
        spare: [0; 2],
        current: number(3),
        kind: number(4),
        millions: number(5),
    }
}

impl Book {
    /// The book as bytes for a disk. After a call write them to a new file, and after them what is to be sent, sync it, rename
    /// it over the last one, and sync the folder; then send. After a restart send it again: [`size`] says where the book ends
    /// in the file.
    pub fn save(&self) -> Vec<u8> {
        let Raw { words, pools } = &self.raw;
        let mut bytes = Vec::with_capacity(size(pools.len()));
        bytes.extend(MARK);
        bytes.extend(VERSION.to_le_bytes());
        bytes.extend((pools.len() as u32).to_le_bytes());
        bytes.extend(words.iter().flat_map(|word| word.to_le_bytes()));
        pools.iter().for_each(|pool| put_pool(&mut bytes, pool));
        let sum = checksum(&bytes);
        bytes.extend(sum.to_le_bytes());
        bytes
    }

    /// A book from such bytes, or what is wrong with them. Whether it is a sound one is judged by the next call.
    pub fn load(bytes: &[u8]) -> Result<Book, Damaged> {
        if !MARK.starts_with(&bytes[..bytes.len().min(8)]) {
            return Err(Damaged::Mark);
        }
        if let Some(version) = bytes.get(8..12).map(half).filter(|version| *version != VERSION) {
            return Err(Damaged::Version(version));
        }
        let records = bytes.get(12..HEAD_BYTES).map_or(0, half) as usize;
        let expected = size(records);
        if bytes.len() != expected {
            return Err(Damaged::Length { expected, found: bytes.len() });
        }
        let (summed, sum) = bytes.split_at(bytes.len() - CHECKSUM_BYTES);
        if checksum(summed) != word(sum) {
            return Err(Damaged::Checksum);
        }
        let (words, pools) = summed[HEAD_BYTES..].split_at(BOOK_WORDS * 8);
        let words = words.chunks_exact(8).map(word).collect();
        let pools = pools.chunks_exact(POOL_BYTES).map(pool).collect();
        Ok(Book { raw: Raw { words, pools } })
    }
}
