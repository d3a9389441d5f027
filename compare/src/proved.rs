//! The exported leaves: their declarations, and a safe wrapper for each that speaks the
//! reference's types, so that a comparison is one equality.

use reference::acknowledgment::Sender;
use reference::frame::{Found, Frame};
use reference::lots::{Kind, Lot};
use reference::sequence::{Inbound, Judgement};
use reference::terminator::{position_one, Position};
use reference::trade_id::TradeId;
use reference::values::Limits;

/// A lent slice is a pointer and a length.
mod exported {
    extern "C" {
        pub fn rhoikandra_column(i: usize, out: *mut u64, out_len: usize);
        pub fn rhoikandra_number(
            s: *const u8,
            len: usize,
            at: usize,
            width: usize,
            out: *mut u64,
            out_len: usize,
        );
        pub fn rhoikandra_date(
            n: u64,
            holidays: *const u32,
            len: usize,
            out: *mut u64,
            out_len: usize,
        );
        pub fn rhoikandra_trade_id(special: *const u8, len: usize, out: *mut u64, out_len: usize);
        pub fn rhoikandra_prices_agree(a: u64, b: u64) -> bool;

        pub fn rhoikandra_line(
            any: bool,
            last: u32,
            expected: u32,
            number: u32,
            out: *mut u64,
            out_len: usize,
        );
        pub fn rhoikandra_outbound(last: u32, out: *mut u64, out_len: usize);

        pub fn rhoikandra_terminator(s: *const u8, len: usize, out: *mut u64, out_len: usize);
        pub fn rhoikandra_forms(body: *const u8, len: usize, out: *mut u64, out_len: usize);
        pub fn rhoikandra_sums(body: *const u8, len: usize, out: *mut u64, out_len: usize);
        pub fn rhoikandra_lot_at(
            body: *const u8,
            len: usize,
            first: usize,
            out: *mut u64,
            out_len: usize,
        );
        pub fn rhoikandra_faces(
            body: *const u8,
            len: usize,
            least: u64,
            variance: u64,
            pools: u64,
            out: *mut u64,
            out_len: usize,
        );

        pub fn rhoikandra_tally_raise(rows: *mut [u32; 3], len: usize, kind: u64, outcome: u64);
        pub fn rhoikandra_put_aa(
            out: *mut u8,
            out_len: usize,
            at: usize,
            last: u32,
            said: *const u8,
            said_len: usize,
            message: u64,
            code: u64,
        ) -> u32;
        pub fn rhoikandra_put_tx(
            out: *mut u8,
            out_len: usize,
            at: usize,
            last: u32,
            said: *const u8,
            said_len: usize,
            expected: u32,
            received: u32,
        ) -> u32;
    }
}

use exported::*;
use rhoikandra::exported::{rhoikandra_frame, rhoikandra_tally};

// Every call below is safe: the leaves ask nothing of their callers, read only what a slice
// lends, and write only within one that is lent for writing.

/// The N numbers that a leaf writes at the head of the slice that it is lent.
fn numbers<const N: usize>(leaf: impl FnOnce(*mut u64, usize)) -> [u64; N] {
    let mut numbers = [0; N];
    leaf(numbers.as_mut_ptr(), N);
    numbers
}

/// An answer, which a leaf writes as 1 or 0.
fn yes(bit: u64) -> bool {
    assert!(bit <= 1, "no answer has the number {bit}");
    bit == 1
}

/// The first byte and the width of a column of the header, by its place in their order.
pub fn column(i: usize) -> (usize, usize) {
    let [at, width] = numbers(|out, len| unsafe { rhoikandra_column(i, out, len) });
    (at as usize, width as usize)
}

/// The number in the width digits from a place on, if they are digits.
pub fn number(s: &[u8], at: usize, width: usize) -> Option<u64> {
    let [found, number] =
        numbers(|out, len| unsafe { rhoikandra_number(s.as_ptr(), s.len(), at, width, out, len) });
    yes(found).then_some(number)
}

pub fn next_frame(tape: &[u8], at: usize) -> Found {
    let mut dropped = 0;
    let [found, start, end, after] = numbers(|out, len| unsafe {
        dropped = rhoikandra_frame(tape.as_ptr(), tape.len(), at, out, len)
    });
    let frame = Frame { start: start as usize, end: end as usize, after: after as usize };
    Found { frame: yes(found).then_some(frame), dropped }
}

/// What positions two to four of a terminator say; bytes that are not four are wrong.
pub fn position(terminator: &[u8]) -> Position {
    let numbers = numbers(|out, len| unsafe {
        rhoikandra_terminator(terminator.as_ptr(), terminator.len(), out, len)
    });
    match numbers {
        [0, 0] => Position::GoodOrOddMiddle,
        [1, 0] => Position::BadMiddle,
        [2, millions] => Position::GoodEnd { millions },
        [3, 0] => Position::OddEnd,
        [4, 0] => Position::BadEnd,
        [5, 0] => Position::Wrong,
        other => panic!("no terminator has the numbers {other:?}"),
    }
}

/// Whether lots and groups are formed.
#[derive(Clone, Copy, Debug)]
pub struct Forms {
    /// Whether an ON's lots pass check 19.
    pub on: bool,
    /// Whether a CC's lots pass it.
    pub cc: bool,
    /// Whether a CC's groups pass check 20.
    pub groups: bool,
    /// Whether they pass check 21.
    pub balanced: bool,
}

pub fn forms(body: &[u8]) -> Forms {
    let [on, cc, groups, balanced] =
        numbers(|out, len| unsafe { rhoikandra_forms(body.as_ptr(), body.len(), out, len) });
    Forms { on: yes(on), cc: yes(cc), groups: yes(groups), balanced: yes(balanced) }
}

/// What is counted and summed over a body.
#[derive(Clone, Copy, Debug)]
pub struct Sums {
    pub pools: usize,
    pub replacements: usize,
    pub good_millions: u64,
    /// The weight of the new lots.
    pub new_weight_cents: u64,
}

pub fn sums(body: &[u8]) -> Sums {
    let [pools, replacements, good_millions, new_weight_cents] =
        numbers(|out, len| unsafe { rhoikandra_sums(body.as_ptr(), body.len(), out, len) });
    Sums {
        pools: pools as usize,
        replacements: replacements as usize,
        good_millions,
        new_weight_cents,
    }
}

/// The six numbers of the lot that begins at a pool, at the head of any slice.
pub fn put_lot(body: &[u8], first: usize, out: &mut [u64]) {
    unsafe { rhoikandra_lot_at(body.as_ptr(), body.len(), first, out.as_mut_ptr(), out.len()) }
}

/// The lot that begins at a pool, and its weight in cents.
pub fn lot_at(body: &[u8], first: usize) -> Option<(Lot, u64)> {
    let mut numbers = [0; 6];
    put_lot(body, first, &mut numbers);
    let [found, one, kind, millions, last, weight_cents] = numbers;
    if !yes(found) {
        return None;
    }
    let kind = match kind {
        0 => Kind::Good,
        1 => Kind::Odd,
        2 => Kind::Bad,
        other => panic!("no kind has the number {other}"),
    };
    let pools = last as usize + 1 - first;
    let position_one = position_one(&[one as u8, 0, 0, 0]);
    Some((Lot { first, pools, position_one, kind, millions }, weight_cents))
}

/// Whether a new pool of a body fails check 34, and whether a new lot fails check 35.
pub fn faces_and_lots_fail(body: &[u8], limits: &Limits) -> (bool, bool) {
    let Limits { least_face_dollars, variance_cents_a_million, pools_a_million, .. } = *limits;
    let (bytes, len) = (body.as_ptr(), body.len());
    let [faces, lots] = numbers(|out, out_len| unsafe {
        rhoikandra_faces(
            bytes,
            len,
            least_face_dollars,
            variance_cents_a_million,
            pools_a_million,
            out,
            out_len,
        )
    });
    (yes(faces), yes(lots))
}

/// Whether a number is a date, and whether it is a business date with these holidays.
pub fn date(mmddyyyy: u64, holidays: &[u32]) -> (bool, bool) {
    let [date, business] = numbers(|out, len| unsafe {
        rhoikandra_date(mmddyyyy, holidays.as_ptr(), holidays.len(), out, len)
    });
    (yes(date), yes(business))
}

/// What a number is to a line.
#[derive(Clone, Copy, Debug)]
pub struct Arrived {
    /// None where check 11 refuses it.
    pub judged: Option<Judgement>,
    pub after: Inbound,
    /// Whether the line before it can have come about (42).
    pub sound: bool,
}

pub fn arrive(line: Inbound, sequence: u32) -> Arrived {
    let (any, last) = (line.received.is_some(), line.received.unwrap_or(0));
    let [arrival, received, last, expected, sound] = numbers(|out, len| unsafe {
        rhoikandra_line(any, last, line.expected, sequence, out, len)
    });
    let judged = match arrival {
        0 => None,
        1 => Some(Judgement::Duplicate),
        2 => Some(Judgement::AsExpected),
        3 => Some(Judgement::Gap),
        other => panic!("no arrival has the number {other}"),
    };
    let received = yes(received).then_some(last as u32);
    Arrived { judged, after: Inbound { received, expected: expected as u32 }, sound: yes(sound) }
}

/// The outbound number after the last one used, and whether fewer than two are left (43).
pub fn outbound(last: u32) -> (u32, bool) {
    let [next, spent] = numbers(|out, len| unsafe { rhoikandra_outbound(last, out, len) });
    (next as u32, yes(spent))
}

/// Raises a cell among four rows; a slice of another length stays.
pub fn tally_raise(rows: &mut [[u32; 3]], kind: u64, outcome: u64) {
    unsafe { rhoikandra_tally_raise(rows.as_mut_ptr(), rows.len(), kind, outcome) }
}

/// The tally after a frame call, by the numbers that its answer says.
pub fn tally(rows: &mut [[u32; 3]], body: &[u8], said: &[u64]) {
    unsafe {
        rhoikandra_tally(
            rows.as_mut_ptr(),
            rows.len(),
            body.as_ptr(),
            body.len(),
            said.as_ptr(),
            said.len(),
        )
    }
}

pub fn trade_id(special: &[u8]) -> TradeId {
    let numbers = numbers(|out, len| unsafe {
        rhoikandra_trade_id(special.as_ptr(), special.len(), out, len)
    });
    match numbers {
        [0, place, length] => TradeId::Whole { place: place as usize, length: length as usize },
        [1, 0, 0] => TradeId::Broken,
        [2, 0, 0] => TradeId::Absent,
        other => panic!("no trade ID has the numbers {other:?}"),
    }
}

pub fn prices_agree(one: u64, other: u64) -> bool {
    unsafe { rhoikandra_prices_agree(one, other) }
}

/// What an AA says of a message.
#[derive(Clone, Copy, Debug)]
pub struct Acknowledged {
    pub internal_id: [u8; 16],
    pub message_id: u64,
    pub code: u16,
    pub time: [u8; 6],
    pub original_sequence: [u8; 6],
}

/// Writes an AA from a place on, stamped with the number after the sender's, and gives that number.
pub fn put_aa(out: &mut [u8], at: usize, sender: Sender, a: &Acknowledged) -> u32 {
    let said =
        [&sender.subscriber[..], &sender.connection, &a.internal_id, &a.time, &a.original_sequence]
            .concat();
    put_aa_said(out, at, sender.outbound, &said, a.message_id, a.code.into())
}

/// The same with what is said in any bytes.
pub fn put_aa_said(
    out: &mut [u8],
    at: usize,
    last: u32,
    said: &[u8],
    message_id: u64,
    code: u64,
) -> u32 {
    let (bytes, len) = (out.as_mut_ptr(), out.len());
    unsafe { rhoikandra_put_aa(bytes, len, at, last, said.as_ptr(), said.len(), message_id, code) }
}

/// Writes a TX from a place on, stamped with the number after the sender's, and gives that number.
pub fn put_tx(out: &mut [u8], at: usize, sender: Sender, expected: u32, received: u32) -> u32 {
    let said = [sender.subscriber, sender.connection].concat();
    put_tx_said(out, at, sender.outbound, &said, expected, received)
}

/// The same with what is said in any bytes.
pub fn put_tx_said(
    out: &mut [u8],
    at: usize,
    last: u32,
    said: &[u8],
    expected: u32,
    received: u32,
) -> u32 {
    let (bytes, len) = (out.as_mut_ptr(), out.len());
    unsafe {
        rhoikandra_put_tx(bytes, len, at, last, said.as_ptr(), said.len(), expected, received)
    }
}
