//! A book as full as a message of 250 pools lets it be, and what is put to it.

use std::fs;
use std::path::Path;

use reference::answer::Answer;
use reference::columns::SEQUENCE;
use reference::desk::{pool, Desk};
use reference::draft::DraftPool;
use reference::opening::{CENTS_MAX, TABLE_MAX};

use crate::engine::held;

const POOLS: u64 = 250;
const MILLION_CENTS: u64 = 100_000_000;
/// The message that brought good lots of one pool each; the others brought one odd lot each.
const SINGLE_LOTS: u64 = 8;

type Listed = Vec<(DraftPool, [u8; 4])>;

fn single_lots(first: u64, count: u64, terminator: [u8; 4]) -> Listed {
    (first..first + count).map(|number| (pool(number, MILLION_CENTS), terminator)).collect()
}

fn odd_lot(first: u64, count: u64) -> Listed {
    let last = first + count - 1;
    let terminator = |number| if number == last { *b"0999" } else { *b"0000" };
    (first..=last).map(|number| (pool(number, 100), terminator(number))).collect()
}

fn lent(pools: &Listed) -> Vec<(DraftPool, &[u8; 4])> {
    pools.iter().map(|(pool, terminator)| (*pool, terminator)).collect()
}

/// A desk to which one message of 250 pools more brings the last record.
pub fn desk() -> Desk {
    let mut values = reference::day::opening_values();
    values.trades[0].par_cents = CENTS_MAX;
    let mut desk = Desk::open(&values, TABLE_MAX);
    let live = TABLE_MAX as u64 - POOLS;
    for (message, first) in (1..).zip((0..live).step_by(POOLS as usize)) {
        let on = if message == SINGLE_LOTS {
            desk.on(0, POOLS, &lent(&single_lots(first, POOLS, *b"0001")))
        } else {
            desk.on(0, 0, &lent(&odd_lot(first, POOLS.min(live - first))))
        };
        assert_eq!(desk.send(&on), Answer::Accepted);
    }
    desk
}

/// What is put to that desk, each to the same book: messages that are accepted, one with a gap before it, and refusals of every kind.
pub fn bodies(desk: &Desk) -> Vec<(&'static str, Vec<u8>)> {
    let first = (SINGLE_LOTS - 1) * POOLS;
    let on = desk.on(0, 0, &lent(&odd_lot(9_000, POOLS)));
    let mut gap = on.clone();
    gap.put_number(SEQUENCE, 900_000);
    let canceled = single_lots(first, POOLS / 2, *b"6001");
    let new = single_lots(9_000, POOLS / 2, *b"7001");
    let replaced: Listed =
        canceled.into_iter().zip(new).flat_map(|(old, new)| [old, new]).collect();
    let listed: Vec<DraftPool> =
        (first..first + POOLS).rev().map(|number| pool(number, MILLION_CENTS)).collect();
    let mut twice = odd_lot(9_000, POOLS);
    twice[1].0 = twice[0].0;
    vec![
        ("ON 0 17", on.body()),
        ("ON 0 17", gap.body()),
        ("CC 0 17", desk.cc(0, SINGLE_LOTS, &lent(&replaced)).body()),
        ("DK 0 17", desk.dk(0, SINGLE_LOTS, &listed).body()),
        ("DK 1 37", desk.dk(0, SINGLE_LOTS - 1, &listed).body()),
        ("ON 2 36", desk.on(0, 0, &lent(&twice)).body()),
        ("CX 1 18", [b"CX", &on.body()[2..]].concat()),
        ("ON 1 10", b"ON".to_vec()),
    ]
}

/// Writes the book as it is saved, and these bodies as a tape.
pub fn write(desk: &Desk, bodies: &[(&str, Vec<u8>)], book: &Path, tape: &Path) {
    let frames = bodies.iter().flat_map(|(_, body)| [&[2][..], body, &[3]].concat());
    fs::write(book, held(&desk.book, &desk.table).save()).unwrap();
    fs::write(tape, frames.collect::<Vec<u8>>()).unwrap();
}
