//! Throws at the engine what no sender should send, and at the claims what no book should hold.

use reference::answer::Answer::{self, Accepted, DKed, Rejected};
use reference::book::PoolRecord;
use reference::claims::{demand_3, Claims};
use reference::columns::*;
use reference::day;
use reference::desk::{pool, Desk};
use reference::frame::next_frame;
use reference::frame_call::frame_call;
use reference::generator::{tape, Random};
use reference::history::History;
use reference::opening::open;
use reference::values::OpeningValues;

const MILLION: u64 = 100_000_000;

fn values() -> OpeningValues {
    let mut values = day::opening_values();
    values.trades[0].par_cents = 10 * MILLION;
    values
}

/// A desk with a good and an odd lot, and a valid next ON, CC and DK.
fn desk_and_bodies() -> (Desk, [Vec<u8>; 3]) {
    let mut desk = Desk::open(&values(), 10);
    let pools = [(pool(1, 2 * MILLION), b"0002"), (pool(2, 5), b"0000"), (pool(3, 6), b"0999")];
    assert_eq!(desk.send(&desk.on(0, 2, &pools)), Accepted);
    let on = desk.on(0, 1, &[(pool(4, MILLION), b"0001")]).body();
    let cc = desk.cc(0, 1, &[(pool(1, 0), b"6002"), (pool(5, 2 * MILLION), b"7002")]).body();
    let dk = desk.dk(0, 1, &[pool(3, 0), pool(2, 0)]).body();
    (desk, [on, cc, dk])
}

/// Puts a body to a copy of the desk's book, and asserts what holds after any call.
fn put(desk: &Desk, body: &[u8], output: &mut [u8]) -> Answer {
    let (mut book, mut table) = (desk.book.clone(), desk.table.clone());
    let mut history = desk.history.clone();
    let step = frame_call(&mut book, &mut table, output, b"000000", body, desk.tally);
    history.feed(body, step.answer == Accepted);
    assert_eq!(demand_3(&history, &book, &table), Claims::ALL_HOLD);
    if step.answer != Accepted {
        assert_eq!((&book.open_par_cents, &table), (&desk.book.open_par_cents, &desk.table));
    }
    step.answer
}

#[test]
fn every_byte_value_at_every_place() {
    let (desk, bodies) = desk_and_bodies();
    for body in bodies {
        assert_eq!(put(&desk, &body, &mut [0; 217]), Accepted);
        for place in 0..body.len() {
            let mut accepted = 0;
            for byte in 0..=255 {
                let mut changed = body.clone();
                changed[place] = byte;
                accepted += u32::from(put(&desk, &changed, &mut [0; 217]) == Accepted);
            }
            assert!(accepted >= 1, "the byte that was there is accepted");
        }
    }
}

#[test]
fn every_length() {
    let (desk, [on, ..]) = desk_and_bodies();
    let long = [&on[..], &on[HEADER_WIDTH..], &on[HEADER_WIDTH..]].concat();
    for length in 0..long.len() {
        let whole = length > HEADER_WIDTH && (length - HEADER_WIDTH) % DETAIL_WIDTH == 0;
        let answer = put(&desk, &long[..length], &mut [0; 217]);
        assert_eq!(answer == Rejected(10), !whole, "{length}");
    }
    for byte in 0..=255 {
        assert_eq!(put(&desk, &[byte; HEADER_WIDTH], &mut [0; 217]), Rejected(10));
        let digits_or_not = put(&desk, &[byte; HEADER_WIDTH + DETAIL_WIDTH], &mut [0; 217]);
        assert_ne!(digits_or_not, Accepted);
    }
}

#[test]
fn every_output_length() {
    let (desk, [on, ..]) = desk_and_bodies();
    for length in 0..217 {
        let mut output = vec![9; length];
        assert_eq!(put(&desk, &on, &mut output), Rejected(44));
        assert_eq!(put(&desk, b"", &mut output), Rejected(44), "44 comes before 10");
        assert!(output.iter().all(|byte| *byte == 9));
    }
    let mut output = vec![9; 100_000];
    assert_eq!(put(&desk, &on, &mut output), Accepted);
    assert!(output[64..].iter().all(|byte| *byte == 9));
}

#[test]
fn unread_fields_hold_anything_and_go_out_as_they_are() {
    let (mut desk, _) = desk_and_bodies();
    let mut on = desk.on(0, 1, &[(pool(4, MILLION), b"0001")]);
    on.put(INTERNAL_ID, b"\x02\x03\x00\xff\x02\x03\x00\xff\x02\x03\x00\xff\x02\x03\x00\xff");
    on.put(REASON, b"\xff\xff\xff\xff");
    on.put(TARGET, b"\x02\x02\x02\x02\x02\x02\x02\x02\x02\x02\x02");
    on.put(NUMBER_OF_POOLS, b"\x03\x03\x03\x03");
    assert_eq!(desk.send(&on), Accepted);
    assert_eq!(&desk.wrote[20..24], b"\x02\x03\x00\xff");
}

#[test]
fn two_hundred_and_fifty_pools_and_no_more() {
    let values = values();
    let mut desk = Desk::open(&values, 300);
    let mut pools: Vec<_> = (0..250).map(|number| (pool(number, 1), b"0000")).collect();
    pools[249].1 = b"0999";
    assert_eq!(desk.send(&desk.on(0, 0, &pools)), Accepted);
    assert_eq!(desk.book.live_count, 250);
    let mut more = pools.clone();
    more.insert(0, (pool(250, 1), b"0000"));
    assert_eq!(desk.send(&desk.on(0, 0, &more)), Rejected(10));
    assert_eq!(desk.send(&desk.on(0, 0, &pools)), Rejected(40));
    let listed: Vec<_> = (0..250).rev().map(|number| pool(number, 0)).collect();
    assert_eq!(desk.send(&desk.dk(0, 1, &listed)), Accepted);
    assert_eq!(desk.book.live_count, 0);
    assert_eq!(desk.table, vec![PoolRecord::EMPTY; 300]);
}

#[test]
fn a_book_without_trades_or_table_answers() {
    let mut values = values();
    let (desk, [on, ..]) = desk_and_bodies();
    let (mut table, mut output) = ([], [0; 217]);
    let mut book = open(&values, &mut table).unwrap();
    let step = frame_call(&mut book, &mut table, &mut output, b"000000", &on, desk.tally);
    assert_eq!(step.answer, Rejected(40));
    values.trades.clear();
    let mut book = open(&values, &mut table).unwrap();
    let step = frame_call(&mut book, &mut table, &mut output, b"000000", &on, desk.tally);
    assert_eq!(step.answer, Rejected(17));
}

#[test]
fn noise_on_the_tape() {
    let mut random = Random::from_seed(99);
    for seed in 0..300 {
        let mut noisy = tape(seed);
        for _ in 0..random.below(20) {
            let place = random.below(noisy.len() as u64) as usize;
            match random.below(3) {
                0 => noisy[place] = random.number() as u8,
                1 => noisy.insert(place, 0x02),
                _ => noisy.insert(place, 0x03),
            }
        }
        let lines = day::lines(&noisy);
        assert_eq!(lines.lines().count(), 2);
        assert!(lines.starts_with("day ") && lines.ends_with('\n'));
        assert!(next_frame(&noisy, noisy.len() + seed as usize).frame.is_none());
    }
    for byte in 0..=255 {
        assert_eq!(day::lines(&[byte; 70_000]), "day 0 0\ntrade T1 200000000 0\n");
    }
}

#[test]
fn claims_fail_for_a_book_that_stores_nothing() {
    let (desk, [on, ..]) = desk_and_bodies();
    let mut history = desk.history.clone();
    history.feed(&on, true);
    let claims = demand_3(&history, &desk.book, &desk.table);
    assert!(!claims.open_par_is_the_history_sum);
    assert!(!claims.standing_millions_are_on_less_dk);
}

#[test]
fn claims_fail_for_a_lot_taken_off_twice_or_never_brought() {
    let (desk, [_, _, dk]) = desk_and_bodies();
    let mut history = desk.history.clone();
    history.feed(&dk, true);
    assert!(history.each_lot_taken_off_once());
    history.feed(&dk, true);
    assert!(!history.each_lot_taken_off_once());
    let mut history = History::new(&values());
    history.feed(&dk, true);
    assert!(!history.each_lot_taken_off_once());
}

#[test]
fn claims_fail_for_drifted_figures() {
    let (desk, _) = desk_and_bodies();
    let judge = |desk: &Desk| demand_3(&desk.history, &desk.book, &desk.table);
    assert_eq!(judge(&desk), Claims::ALL_HOLD);
    let (mut drifted, _) = desk_and_bodies();
    drifted.book.open_par_cents[0] += 1;
    assert!(!judge(&drifted).open_par_is_the_history_sum);
    drifted.book.open_par_cents[0] = 10 * MILLION + 1;
    assert!(!judge(&drifted).open_par_is_within_bounds);
    let (mut drifted, _) = desk_and_bodies();
    drifted.table[0].lot_millions = 3;
    assert!(!judge(&drifted).standing_millions_are_on_less_dk);
}

#[test]
fn the_history_knows_no_book() {
    let source = include_str!("../src/history.rs");
    let known = source.lines().filter(|line| line.starts_with("use "));
    for module in ["book", "change", "checks", "frame_call", "opening", "soundness", "target"] {
        let path = format!("crate::{module}::");
        assert!(known.clone().all(|line| !line.contains(&path)), "{module}");
        assert!(!source.contains(&path), "{module}");
    }
}

#[test]
fn the_history_takes_any_feed() {
    let mut random = Random::from_seed(5);
    let (_, bodies) = desk_and_bodies();
    let mut history = History::new(&values());
    for _ in 0..5_000 {
        let mut body = random.pick(&bodies);
        for _ in 0..random.below(30) {
            let place = random.below(body.len() as u64) as usize;
            body[place] = random.number() as u8;
        }
        body.truncate(random.pick(&[body.len(), body.len(), 40, 0]));
        let accepted = random.percent(50);
        let before = history.last_message_id();
        history.feed(&body, accepted);
        assert_eq!(history.last_message_id(), before + u64::from(accepted));
    }
    // An ON that names its trade goes there whatever is left, so lies can drive the sum below zero.
    let desk = Desk::open(&values(), 1);
    let mut named = desk.on(0, 99, &[(pool(4, 0), b"0099")]);
    named.put(SPECIAL_INSTRUCTIONS, b"TRID=T1=");
    history.feed(&named.body(), true);
    assert!(history.open_pars()[0] < 0);
}

#[test]
fn a_refused_message_leaves_room_for_a_valid_one() {
    let (mut desk, _) = desk_and_bodies();
    let over = desk.on(0, 9, &[(pool(4, 9 * MILLION), b"0009")]);
    assert_eq!(desk.send(&over), DKed(38));
    let fits = desk.on(0, 7, &[(pool(4, 7 * MILLION), b"0007")]);
    assert_eq!(desk.send(&fits), Accepted);
}
