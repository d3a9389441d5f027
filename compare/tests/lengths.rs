//! What a client in C may lend and the safe wrapper cannot: time bytes that are not six, and slices too short for what is said.

use compare::engine::told;
use compare::earlier::{held, Book};
use reference::answer::{Answer, UNSOUND_BOOK};
use reference::desk::{pool, Desk};
use reference::opening::TABLE_MAX;
use rhoikandra::exported::{rhoikandra_figures, rhoikandra_step};
use rhoikandra::numbers::TIME_REFUSED;
use rhoikandra::{Pool, OUTPUT_LENGTH};

const TRADES_MAX: usize = 64;

fn step(book: &mut Book, body: &[u8], time: &[u8], out: &mut [u8], said: &mut [u64]) {
    let Book { words, pools } = book;
    unsafe {
        rhoikandra_step(
            words.as_mut_ptr(),
            words.len(),
            pools.as_mut_ptr(),
            pools.len(),
            body.as_ptr(),
            body.len(),
            time.as_ptr(),
            time.len(),
            0,
            out.as_mut_ptr(),
            out.len(),
            said.as_mut_ptr(),
            said.len(),
        )
    }
}

/// A desk of so many trades, and an ON that it takes.
fn desk(trades: usize) -> (Desk, Vec<u8>) {
    let mut values = reference::day::opening_values();
    let one = values.trades[0].clone();
    values.trades = (0..trades)
        .map(|i| {
            let mut trade = one.clone();
            trade.id = format!("T{i}").into_bytes();
            trade
        })
        .collect();
    let desk = Desk::open(&values, 16);
    let body = desk.on(0, 0, &[(pool(1, 500), b"0999")]).body();
    (desk, body)
}

/// Also on a book with as many trades as a book has, so that one more is one too many.
#[test]
fn time_bytes_that_are_not_six() {
    for trades in [1, TRADES_MAX] {
        let (desk, body) = desk(trades);
        let before = held(&desk.book, &desk.table);
        for time in [&b""[..], b"09300", b"0930000"] {
            let (mut book, mut out, mut said) = (before.clone(), [7; OUTPUT_LENGTH], [9; 3]);
            step(&mut book, &body, time, &mut out, &mut said);
            assert_eq!(said, [1, u64::from(TIME_REFUSED), 0], "{} time bytes", time.len());
            assert!(book == before && out == [7; OUTPUT_LENGTH], "something moved");
        }
        let (mut book, mut out, mut said) = (before.clone(), [7; OUTPUT_LENGTH], [9; 3]);
        step(&mut book, &body, b"093000", &mut out, &mut said);
        assert_eq!(said, [0, 1, 64]);
    }
}

/// The call is made all the same, and what has no room is not told in part.
#[test]
fn an_answer_without_room() {
    let (desk, body) = desk(1);
    let mut expected = held(&desk.book, &desk.table);
    let mut written = [7; OUTPUT_LENGTH];
    assert_eq!(told(expected.step(&body, b"093000", &mut written).answer), Answer::Accepted);
    for room in 0..5 {
        let mut book = held(&desk.book, &desk.table);
        let (mut out, mut said) = ([7; OUTPUT_LENGTH], vec![9; room]);
        step(&mut book, &body, b"093000", &mut out, &mut said);
        assert!(book == expected && out == written, "{room} numbers");
        let told: &[u64] = match room {
            0 => &[],
            1 => &[9],
            2 => &[9, 9],
            3 => &[0, 1, 64],
            _ => &[0, 1, 64, 9],
        };
        assert_eq!(said, told);
    }
}

#[test]
fn figures_without_room() {
    let (desk, _) = desk(1);
    let book = held(&desk.book, &desk.table);
    for room in 0..5 {
        let mut out = vec![9; room];
        unsafe {
            rhoikandra_figures(
                book.words.as_ptr(),
                book.words.len(),
                book.pools.as_ptr(),
                book.pools.len(),
                0,
                0,
                out.as_mut_ptr(),
                out.len(),
            )
        };
        let told: &[u64] = match room {
            0 => &[],
            1 => &[9],
            2 => &[9, 9],
            3 => &[1, 200_000_000, 0],
            _ => &[1, 200_000_000, 0, 9],
        };
        assert_eq!(out, told);
    }
}

/// A table that is longer than a table may be is refused by every call.
#[test]
fn a_table_too_long() {
    let (desk, body) = desk(1);
    let mut book = held(&desk.book, &desk.table);
    book.pools.resize(TABLE_MAX + 1, Pool::default());
    let before = book.clone();
    let mut out = [7; OUTPUT_LENGTH];
    assert_eq!(told(book.step(&body, b"093000", &mut out).answer), Answer::Rejected(UNSOUND_BOOK));
    assert_eq!(book.figures(0), None);
    assert!(book == before && out == [7; OUTPUT_LENGTH]);
    book.pools.truncate(TABLE_MAX);
    assert_eq!(told(book.step(&body, b"093000", &mut out).answer), Answer::Accepted);
}
