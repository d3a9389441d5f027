//! Frames: tapes with noise, starts inside frames and empty bodies, walked frame by frame.

use compare::cases::Cases;
use compare::proved;
use reference::frame::{next_frame, END_OF_FRAME, START_OF_FRAME};
use reference::generator::{tape, Random};

fn noisy_tape(random: &mut Random) -> Vec<u8> {
    let mut tape = Vec::new();
    for _ in 0..random.below(12) {
        let length = random.below(30) as usize;
        match random.below(6) {
            0 => tape.extend(random.bytes(length)),
            1 => tape.extend([START_OF_FRAME, END_OF_FRAME]),
            2 => tape.push(START_OF_FRAME),
            3 => tape.push(END_OF_FRAME),
            _ => {
                tape.push(START_OF_FRAME);
                tape.extend((0..length).map(|_| random.between(32, 126) as u8));
                tape.push(END_OF_FRAME);
            }
        }
    }
    tape
}

/// Walks a whole tape with both finders, from any place on.
fn walk(cases: &mut Cases, tape: &[u8], from: usize) {
    let mut at = from;
    loop {
        let found = proved::next_frame(tape, at);
        assert_eq!(found, next_frame(tape, at), "from {at} on {tape:?}");
        assert!(found.dropped <= tape.len().saturating_sub(at));
        cases.count();
        let Some(frame) = found.frame else { break };
        at = frame.after;
    }
}

#[test]
fn noisy_tapes() {
    let mut cases = Cases::of("noisy tapes");
    for _ in 0..6_000 {
        let tape = noisy_tape(&mut cases.random);
        walk(&mut cases, &tape, 0);
        let from = cases.random.below(tape.len() as u64 + 4) as usize;
        walk(&mut cases, &tape, from);
    }
}

#[test]
fn tapes_of_few_bytes() {
    let mut cases = Cases::of("tapes of few bytes");
    for length in 0..=6 {
        for code in 0..4usize.pow(length) {
            let tape: Vec<u8> = (0..length).map(|place| (code >> (2 * place) & 3) as u8).collect();
            walk(&mut cases, &tape, 0);
        }
    }
    for at in [0, 1, 7, usize::MAX - 1, usize::MAX] {
        walk(&mut cases, b"", at);
        walk(&mut cases, b"\x02\x03", at);
    }
}

#[test]
fn tapes_of_days() {
    let mut cases = Cases::of("tapes of days");
    for _ in 0..60 {
        let seed = cases.random.number();
        walk(&mut cases, &tape(seed), 0);
    }
}
