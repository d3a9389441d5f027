//! Frames of a line: tapes with noise, starts inside frames and empty bodies, cut into reads at any place.

use compare::cases::Cases;
use reference::frame::{bodies, END_OF_FRAME, START_OF_FRAME};
use reference::generator::{tape, Random};
use rhoikandra::{frames, Line};

fn noisy_tape(random: &mut Random) -> Vec<u8> {
    let mut tape = Vec::new();
    for _ in 0..random.below(12) {
        let length = random.below(30) as usize;
        match random.below(6) {
            0 => tape.extend(random.bytes(length)),
            1 => tape.extend([START_OF_FRAME, END_OF_FRAME]),
            2 => tape.push(START_OF_FRAME),
            3 => tape.push(END_OF_FRAME),
            _ => {
                tape.push(START_OF_FRAME);
                tape.extend((0..length).map(|_| random.between(32, 126) as u8));
                tape.push(END_OF_FRAME);
            }
        }
    }
    tape
}

/// The bytes of frames with these bodies.
fn framed(bodies: &[Vec<u8>]) -> usize {
    bodies.iter().map(|body| body.len() + 2).sum()
}

/// The frames of two reads, where the second begins with the tail of the first; the bytes dropped, and the last tail.
fn two_reads(tape: &[u8], cut: usize) -> (Vec<Vec<u8>>, usize, Vec<u8>) {
    let (mut found, mut dropped, mut tail) = (Vec::new(), 0, Vec::new());
    for read in [&tape[..cut], &tape[cut..]] {
        let read = [&tail[..], read].concat();
        let before = found.len();
        let mut frames = frames(&read);
        while let Some(body) = frames.next() {
            found.push(body.to_vec());
            assert_eq!(frames.place(), frames.dropped() + framed(&found[before..]));
            assert_eq!(frames.tail(), &read[frames.place()..]);
        }
        // There is no more, however often it is asked, and what is kept is a begun frame.
        let (place, dropped_here) = (frames.place(), frames.dropped());
        assert_eq!(frames.next(), None);
        assert_eq!((frames.place(), frames.dropped()), (place, dropped_here));
        assert_eq!(place, dropped_here + framed(&found[before..]));
        dropped += dropped_here;
        tail = frames.tail().to_vec();
        assert!(tail.is_empty() || tail[0] == START_OF_FRAME);
        assert!(!tail.iter().skip(1).any(|byte| [START_OF_FRAME, END_OF_FRAME].contains(byte)));
    }
    (found, dropped, tail)
}

/// A tape cut at every place into two reads gives the frames of the tape, and every byte is counted once.
fn cut_everywhere(cases: &mut Cases, tape: &[u8]) {
    let bodies: Vec<Vec<u8>> = bodies(tape).into_iter().map(<[u8]>::to_vec).collect();
    let whole = two_reads(tape, tape.len());
    for cut in 0..=tape.len() {
        let (found, dropped, tail) = two_reads(tape, cut);
        assert_eq!(found, bodies, "cut at {cut}: {tape:?}");
        assert_eq!(dropped + framed(&found) + tail.len(), tape.len(), "cut at {cut}: {tape:?}");
        assert_eq!((found, dropped, tail), whole, "cut at {cut}: {tape:?}");
        cases.count();
    }
}

#[test]
fn cut_at_every_place() {
    let mut cases = Cases::of("tapes cut at every place");
    for length in 0..=6 {
        for code in 0..4usize.pow(length) {
            let tape: Vec<u8> = (0..length).map(|place| (code >> (2 * place) & 3) as u8).collect();
            cut_everywhere(&mut cases, &tape);
        }
    }
    for _ in 0..400 {
        let tape = noisy_tape(&mut cases.random);
        cut_everywhere(&mut cases, &tape);
    }
}

/// A line read in pieces of any length, from which frames are taken as they come or later.
fn in_pieces(cases: &mut Cases, tape: &[u8], longest: u64) {
    let (mut line, mut found) = (Line::default(), Vec::new());
    let mut read = 0;
    while read < tape.len() {
        let length = cases.random.between(1, longest) as usize;
        let end = tape.len().min(read + length);
        line.read(&tape[read..end]);
        read = end;
        let patience = cases.random.below(4);
        for _ in 0..patience {
            found.extend(line.next_body().map(<[u8]>::to_vec));
        }
        assert_eq!(line.dropped() + framed(&found) + line.kept().len(), read);
    }
    while let Some(body) = line.next_body() {
        found.push(body.to_vec());
    }
    assert_eq!(found, bodies(tape));
    let mut whole = frames(tape);
    whole.by_ref().for_each(drop);
    assert_eq!((line.dropped(), line.kept()), (whole.dropped(), whole.tail()));
    cases.count();
}

#[test]
fn cut_into_pieces() {
    let mut cases = Cases::of("tapes cut into pieces");
    for _ in 0..3_000 {
        let tape = noisy_tape(&mut cases.random);
        let longest = cases.random.pick(&[1, 3, 20, 200]);
        in_pieces(&mut cases, &tape, longest);
    }
    for _ in 0..60 {
        let tape = tape(cases.random.number());
        let longest = cases.random.pick(&[700, 1_000, 5_000, 70_000]);
        in_pieces(&mut cases, &tape, longest);
    }
}
