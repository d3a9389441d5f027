//! Frames: finds the next whole frame on a tape, from any place (01 Frames, 003).

pub const START_OF_FRAME: u8 = 0x02;
pub const END_OF_FRAME: u8 = 0x03;

/// A whole frame: its body is `tape[start..end]`, and `after` is the place behind its 03.
#[derive(Clone, Copy, Debug, PartialEq, Eq)]
pub struct Frame {
    pub start: usize,
    pub end: usize,
    pub after: usize,
}

/// What the finder gives: the frame, or none, and the count of dropped bytes.
#[derive(Clone, Copy, Debug, PartialEq, Eq)]
pub struct Found {
    pub frame: Option<Frame>,
    pub dropped: usize,
}

/// The next whole frame from a place on. The paper bounds the dropped count by the bytes left;
/// here it is exact: the bytes before the frame's 02, or all that are left where there is none.
pub fn next_frame(tape: &[u8], at: usize) -> Found {
    let mut start = None;
    for (place, byte) in tape.iter().enumerate().skip(at) {
        match (*byte, start) {
            (START_OF_FRAME, _) => start = Some(place + 1),
            (END_OF_FRAME, Some(start)) => {
                return Found {
                    frame: Some(Frame { start, end: place, after: place + 1 }),
                    dropped: start - 1 - at,
                };
            }
            _ => {}
        }
    }
    Found { frame: None, dropped: tape.len().saturating_sub(at) }
}

/// Every whole frame's body on a tape, in order.
pub fn bodies(tape: &[u8]) -> Vec<&[u8]> {
    let mut bodies = Vec::new();
    let mut at = 0;
    while let Some(frame) = next_frame(tape, at).frame {
        bodies.push(&tape[frame.start..frame.end]);
        at = frame.after;
    }
    bodies
}

#[cfg(test)]
mod tests {
    use super::*;

    fn found(tape: &[u8], at: usize) -> (Option<(usize, usize, usize)>, usize) {
        let found = next_frame(tape, at);
        (found.frame.map(|f| (f.start, f.end, f.after)), found.dropped)
    }

    #[test]
    fn the_cases_of_003() {
        // A start inside a frame drops the bytes before it.
        assert_eq!(found(b"\x02AA\x02BB\x03", 0), (Some((4, 6, 7)), 3));
        // An early end closes the frame, and the bytes after it are dropped.
        assert_eq!(found(b"\x02AA\x03BB\x03", 0), (Some((1, 3, 4)), 0));
        assert_eq!(found(b"\x02AA\x03BB\x03", 4), (None, 3));
        // Bytes between an end and the next start are dropped.
        assert_eq!(found(b"A\x03noise\x02B\x03", 0), (Some((8, 9, 10)), 7));
    }

    #[test]
    fn empty_bodies_empty_tapes_and_far_places() {
        assert_eq!(found(b"\x02\x03", 0), (Some((1, 1, 2)), 0));
        assert_eq!(found(b"", 0), (None, 0));
        assert_eq!(found(b"\x02\x03", 2), (None, 0));
        assert_eq!(found(b"\x02\x03", 3), (None, 0));
        assert_eq!(found(b"\x02\x03", usize::MAX), (None, 0));
        // The finder has no memory: from inside a frame its end is noise.
        assert_eq!(found(b"\x02AB\x03", 1), (None, 3));
    }

    #[test]
    fn dropped_bytes_and_whole_frames_add_up_to_the_tape() {
        let mut random = crate::generator::Random::from_seed(7);
        for _ in 0..2_000 {
            let length = random.below(40) as usize;
            let tape: Vec<u8> = (0..length).map(|_| random.below(6) as u8).collect();
            let (mut at, mut total) = (0, 0);
            loop {
                let found = next_frame(&tape, at);
                assert!(found.dropped <= tape.len() - at);
                total += found.dropped;
                let Some(frame) = found.frame else { break };
                assert!(!tape[frame.start..frame.end].contains(&START_OF_FRAME));
                assert!(!tape[frame.start..frame.end].contains(&END_OF_FRAME));
                total += frame.end - frame.start + 2;
                at = frame.after;
            }
            assert_eq!(total, tape.len());
        }
    }
}
