//! The calls that name a broken rule, on slices too short for what is said, and every safe call on a table that is too long.

use compare::engine::{held, opening, raw, told};
use reference::answer::{Answer, OPENING, UNSOUND_BOOK};
use reference::desk::{pool, Desk};
use reference::opening::TABLE_MAX;
use rhoikandra::exported::{rhoikandra_book_fault, rhoikandra_opening_fault};
use rhoikandra::{Fault, Pool, Raw, OUTPUT_LENGTH};

/// A desk of so many trades, and an ON that it takes.
fn desk(trades: usize) -> (Desk, Vec<u8>) {
    let mut values = reference::day::opening_values();
    let one = values.trades[0].clone();
    values.trades = (0..trades)
        .map(|i| {
            let mut trade = one.clone();
            trade.id = format!("T{i}").into_bytes();
            trade
        })
        .collect();
    let desk = Desk::open(&values, 16);
    let body = desk.on(0, 0, &[(pool(1, 500), b"0999")]).body();
    (desk, body)
}

/// Two numbers are written all or none, whether a rule is broken or not, and a longer slice keeps its tail.
#[test]
fn faults_without_room() {
    let (desk, _) = desk(2);
    let sound = raw(&desk.book, &desk.table);
    let mut broken = sound.clone();
    // The second trade's settlement, and a record after the live ones.
    let settlement = 42 + 38;
    broken.words[settlement] = 7_042_026;
    let mut record = sound.clone();
    record.pools[15].kind = 1;
    let cases =
        [(&sound, [0, 0], [0, 0]), (&broken, [127, 1], [127, 1]), (&record, [0, 0], [160, 15])];
    for (Raw { words, pools }, of_opening, of_book) in cases {
        for room in 0..5 {
            let told = |named: [u64; 2]| match room {
                0 => vec![],
                1 => vec![9],
                _ => [&named[..], &[9; 3][..room - 2]].concat(),
            };
            let mut out = vec![9; room];
            unsafe {
                rhoikandra_opening_fault(
                    words.as_ptr(),
                    words.len(),
                    pools.len(),
                    out.as_mut_ptr(),
                    out.len(),
                )
            };
            assert_eq!(out, told(of_opening));
            let mut out = vec![9; room];
            unsafe {
                rhoikandra_book_fault(
                    words.as_ptr(),
                    words.len(),
                    pools.as_ptr(),
                    pools.len(),
                    out.as_mut_ptr(),
                    out.len(),
                )
            };
            assert_eq!(out, told(of_book));
        }
    }
}

/// A table that is longer than a table may be is refused by every call, and not opened.
#[test]
fn a_table_too_long() {
    let (desk, body) = desk(1);
    let mut book = held(&desk.book, &desk.table);
    book.raw_mut().pools.resize(TABLE_MAX + 1, Pool::default());
    let before = book.clone();
    let mut out = [7; OUTPUT_LENGTH];
    assert_eq!(
        told(book.step_into(&body, b"093000", &mut out).answer),
        Answer::Rejected(UNSOUND_BOOK)
    );
    assert_eq!(book.figures(0), None);
    assert_eq!(book.fault(), Some(Fault { rule: 141, place: 0 }));
    assert!(book == before && out == [7; OUTPUT_LENGTH]);
    book.raw_mut().pools.truncate(TABLE_MAX);
    assert_eq!(book.fault(), None);
    assert_eq!(told(book.step_into(&body, b"093000", &mut out).answer), Answer::Accepted);
    let opening = opening(&desk.book.values);
    for records in [TABLE_MAX + 1, usize::MAX] {
        assert_eq!(opening.open(records), Err(OPENING));
        assert_eq!(opening.fault(records), Some(Fault { rule: 141, place: 0 }));
    }
    let opened = opening.open(TABLE_MAX).unwrap();
    assert_eq!((opened.records(), opened.live_pools()), (TABLE_MAX, &[][..]));
}
