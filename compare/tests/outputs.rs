//! AA and TX bytes at random places of random outputs, short ones included: the rest stays.

use compare::cases::Cases;
use compare::proved::{self, Acknowledged};
use reference::acknowledgment::{aa, tx, Sender};
use reference::generator::Random;

/// Numbers and parties of a sender; 43 keeps the last number below the highest two.
fn sender(random: &mut Random) -> Sender {
    Sender {
        outbound: random.pick(&[0, 9, 999_997, random.clone().below(999_998) as u32]),
        subscriber: random.bytes(4).try_into().unwrap(),
        connection: random.text(),
    }
}

/// An output and a place in it, near its end half of the time.
fn output(random: &mut Random, width: usize) -> (Vec<u8>, usize) {
    let length = random.below(400) as usize;
    let at = match random.below(4) {
        0 => 0,
        1 => random.below(500) as usize,
        2 => random.pick(&[usize::MAX, usize::MAX - width + 1, length, length + 1]),
        _ => (length + random.below(3) as usize).saturating_sub(width),
    };
    (random.bytes(length), at)
}

/// The output with a frame from a place on, or as it was where the frame does not fit.
fn with(output: &[u8], at: usize, frame: &[u8]) -> Vec<u8> {
    let mut after = output.to_vec();
    let room = at.checked_add(frame.len()).and_then(|end| after.get_mut(at..end));
    if let Some(room) = room {
        room.copy_from_slice(frame);
    }
    after
}

#[test]
fn acknowledgments() {
    let mut cases = Cases::of("acknowledgments");
    for _ in 0..20_000 {
        let random = &mut cases.random;
        let before = sender(random);
        let a = Acknowledged {
            internal_id: random.bytes(16).try_into().unwrap(),
            message_id: random.pick(&[1, 99_999_999_999, random.clone().below(100_000_000_000)]),
            code: random.pick(&[0, 0, 12, 38, random.clone().below(10_000) as u16]),
            time: random.bytes(6).try_into().unwrap(),
            original_sequence: random.bytes(6).try_into().unwrap(),
        };
        let stamped = Sender { outbound: before.outbound + 1, ..before };
        let message_id = (a.code == 0).then_some(a.message_id);
        let frame = aa(stamped, &a.internal_id, message_id, a.code, &a.time, &a.original_sequence);
        let (mut out, at) = output(random, frame.len());
        let after = with(&out, at, &frame);
        assert_eq!(proved::put_aa(&mut out, at, before, &a), stamped.outbound);
        assert_eq!(out, after, "{a:?} at {at}");
        cases.count();
    }
}

#[test]
fn notices_of_a_gap() {
    let mut cases = Cases::of("notices of a gap");
    for _ in 0..20_000 {
        let random = &mut cases.random;
        let before = sender(random);
        let stamped = Sender { outbound: before.outbound + 1, ..before };
        let expected = random.pick(&[1, 999_999, random.clone().below(1_000_000) as u32]);
        let received = random.pick(&[0, 999_998, random.clone().below(999_999) as u32]);
        let frame = tx(stamped, expected, received);
        let (mut out, at) = output(random, frame.len());
        let after = with(&out, at, &frame);
        let number = proved::put_tx(&mut out, at, before, expected, received);
        assert_eq!(number, stamped.outbound);
        assert_eq!(out, after, "{expected} {received} at {at}");
        cases.count();
    }
}

#[test]
fn what_is_said_in_another_length_writes_nothing() {
    let mut cases = Cases::of("said in another length");
    for length in 0..60 {
        let said = vec![b'A'; length];
        let mut out = vec![7; 400];
        if length != 36 {
            assert_eq!(proved::put_aa_said(&mut out, 0, 5, &said, 1, 0), 5);
        }
        if length != 8 {
            assert_eq!(proved::put_tx_said(&mut out, 0, 5, &said, 1, 2), 5);
        }
        assert_eq!(out, vec![7; 400]);
        cases.count();
    }
}
