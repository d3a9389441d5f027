//! A saved book: what is loaded is what was saved, and every damage is told before the engine sees it.

use compare::cases::Cases;
use compare::engine::{held, opening};
use reference::desk::{pool, Desk};
use reference::opening::TABLE_MAX;
use rhoikandra::saved::{checksum, size, Damaged};
use rhoikandra::{Answer, Book, BOOK_WORDS};

/// A book of one trade with a live pool, over a table of two records.
fn small() -> Book {
    let mut desk = Desk::open(&reference::day::opening_values(), 2);
    let on = desk.on(0, 0, &[(pool(1, 500), b"0999")]);
    desk.send(&on);
    held(&desk.book, &desk.table)
}

/// The vector that the checksum is published with.
#[test]
fn the_checksum_is_that_of_xz() {
    assert_eq!(checksum(b"123456789"), 0x995D_C9BB_DF19_39FA);
    assert_eq!(checksum(b""), 0);
}

#[test]
fn what_is_loaded_was_saved() {
    let book = small();
    assert_eq!(book.save().len(), 8 + 4 + 4 + BOOK_WORDS * 8 + 2 * 70 + 8);
    assert_eq!(Book::load(&book.save()), Ok(book));
}

/// A flipped bit of the number of records is told by the length, of the mark and the version by them, and any other by the checksum.
#[test]
fn every_flipped_bit_is_told() {
    let mut bytes = small().save();
    for bit in 0..bytes.len() * 8 {
        bytes[bit / 8] ^= 1 << (bit % 8);
        let told = Book::load(&bytes).expect_err("a flipped bit");
        let right = match bit / 8 {
            0..8 => told == Damaged::Mark,
            8..12 => matches!(told, Damaged::Version(_)),
            12..16 => matches!(told, Damaged::Length { .. }),
            _ => told == Damaged::Checksum,
        };
        assert!(right, "bit {bit}: {told}");
        bytes[bit / 8] ^= 1 << (bit % 8);
    }
}

#[test]
fn every_other_length_is_told() {
    let bytes = small().save();
    for length in 0..bytes.len() {
        assert!(
            matches!(Book::load(&bytes[..length]), Err(Damaged::Length { found, .. }) if found == length),
            "{length} bytes"
        );
    }
    let longer = [&bytes[..], &[0]].concat();
    assert_eq!(
        Book::load(&longer),
        Err(Damaged::Length { expected: bytes.len(), found: longer.len() })
    );
}

/// What begins otherwise is no saved book, however short it is, and what is cut off within its head is one of which a part is here.
#[test]
fn a_short_head_is_told() {
    for other in [&b"R#"[..], b"day 5 5\n", b"RHOIKAN.", b"rhoikand\x01\0\0\0"] {
        assert_eq!(Book::load(other), Err(Damaged::Mark), "{other:?}");
    }
    for version in [0, 2, 256, u32::MAX] {
        let head = [&b"RHOIKAND"[..], &version.to_le_bytes()].concat();
        assert_eq!(Book::load(&head), Err(Damaged::Version(version)));
    }
    for length in 0..16 {
        let told = Book::load(&b"RHOIKAND\x01\0\0\0\x02\0\0\0"[..length]).unwrap_err().to_string();
        assert_eq!(
            told,
            format!(
                "a saved book of which only {length} bytes are here; restore the last good copy"
            )
        );
    }
}

/// The number of records is held against the bytes that are there, and nothing is taken for more of them.
#[test]
fn records_that_are_not_there() {
    let bytes = small().save();
    for records in [0, 1, 3, 4_096, 4_097, 0x0EA0_EA0E, 0x8000_0000, u32::MAX] {
        let claimed = [&bytes[..12], &records.to_le_bytes(), &bytes[16..]].concat();
        let expected = size(records as usize);
        let told = Err(Damaged::Length { expected, found: bytes.len() });
        assert_eq!(Book::load(&claimed), told, "{records} records");
    }
}

/// An empty table and the longest, and the last record of it.
#[test]
fn tables_of_every_length() {
    for records in [0, 1, 2, TABLE_MAX - 1, TABLE_MAX] {
        let book = opening(&reference::day::opening_values()).open(records).unwrap();
        let mut bytes = book.save();
        assert_eq!(bytes.len(), size(records));
        assert_eq!(Book::load(&bytes), Ok(book));
        let mut cases = Cases::of("flipped bits of a saved book");
        for turn in 0..500 {
            // Those of the last bytes too.
            let bits = 8 * bytes.len() as u64;
            let bit = bits - 1 - if turn < 200 { turn } else { cases.random.below(bits) };
            bytes[bit as usize / 8] ^= 1 << (bit % 8);
            assert!(Book::load(&bytes).is_err(), "bit {bit} of {records} records");
            bytes[bit as usize / 8] ^= 1 << (bit % 8);
            cases.count();
        }
    }
}

/// Bytes with a checksum that fits are loaded, whatever they say: what is no book is refused by every call, and named.
#[test]
fn bytes_that_are_no_book() {
    let bytes = small().save();
    let summed = |mut bytes: Vec<u8>| {
        let end = bytes.len() - 8;
        let sum = checksum(&bytes[..end]).to_le_bytes();
        bytes[end..].copy_from_slice(&sum);
        Book::load(&bytes).expect("the checksum fits")
    };
    let with = |at: usize, byte: u8| {
        let mut other = bytes.clone();
        other[at] = byte;
        summed(other)
    };
    let longer = || {
        let records = TABLE_MAX + 1;
        let mut bytes = bytes[..size(0) - 8].to_vec();
        bytes[12..16].copy_from_slice(&(records as u32).to_le_bytes());
        bytes.resize(size(records), 0);
        summed(bytes)
    };
    // A byte of the first trade's ID is a word of 256 and more, and its length 17; the first record is of an eighth kind.
    let kind = size(0) - 8 + 4 * 8;
    let books =
        [(with(17, 1), 101), (with(16 + 16 * 8, 17), 121), (with(kind, 8), 155), (longer(), 141)];
    for (mut book, rule) in books {
        let before = book.clone();
        assert_eq!(book.fault().map(|fault| fault.rule), Some(rule));
        let stepped = book.step(b"", b"093000");
        assert_eq!((stepped.answer, stepped.to_send()), (Answer::Rejected(42), &b""[..]));
        assert!(book.figures(0).is_none() && book == before, "rule {rule}");
    }
}

#[test]
fn any_damage_is_told() {
    let mut cases = Cases::of("damaged bytes of a saved book");
    let bytes = small().save();
    for _ in 0..20_000 {
        let mut damaged = bytes.clone();
        for _ in 0..1 + cases.random.below(8) {
            let at = cases.random.below(bytes.len() as u64) as usize;
            damaged[at] = cases.random.number() as u8;
        }
        if damaged != bytes {
            assert!(Book::load(&damaged).is_err());
            cases.count();
        }
    }
}
