//! Sequence numbers, inbound and outbound, over whole days of numbers and lines that no day leaves.

use compare::cases::Cases;
use compare::proved;
use reference::digits::digits;
use reference::generator::Random;
use reference::sequence::{sequence_number, Inbound, Judgement};

/// A number near the line: the last one, the expected one, one beside it, or any.
fn near(random: &mut Random, line: Inbound) -> u32 {
    let last = line.received.unwrap_or(0);
    match random.below(8) {
        0 | 1 => last,
        2 | 3 => line.expected,
        4 => last.saturating_sub(1),
        5 => line.expected.saturating_add(1),
        6 => random.pick(&[0, 1, 999_997, 999_998, 999_999]),
        _ => random.below(1_000_000) as u32,
    }
    .min(999_999)
}

/// What both make of a number of six digits.
fn compare(line: Inbound, sequence: u32) -> Inbound {
    let judged = sequence_number(&digits(sequence.into())).map(|sequence| line.judge(sequence));
    let after = match judged {
        None | Some(Judgement::Duplicate) => line,
        Some(Judgement::AsExpected | Judgement::Gap) => Inbound::after(sequence),
    };
    let arrived = proved::arrive(line, sequence);
    assert_eq!(arrived.judged, judged, "{line:?} {sequence}");
    assert_eq!(arrived.after, after, "{line:?} {sequence}");
    assert_eq!(arrived.sound, line.is_sound(), "{line:?}");
    after
}

#[test]
fn days_of_numbers() {
    let mut cases = Cases::of("days of numbers");
    for _ in 0..400 {
        let mut line = Inbound::NONE_RECEIVED;
        for _ in 0..50 {
            let sequence = near(&mut cases.random, line);
            line = compare(line, sequence);
            assert!(proved::arrive(line, sequence).sound);
            cases.count();
        }
    }
}

#[test]
fn any_line() {
    let mut cases = Cases::of("any line");
    for _ in 0..20_000 {
        let random = &mut cases.random;
        let last = random.pick(&[0, 1, 5, 999_997, 999_998, 999_999, 1_000_000, u32::MAX]);
        let last = if random.percent(30) { random.below(1_000_002) as u32 } else { last };
        let beside = [last.wrapping_add(1), last, 0, 1, last.wrapping_sub(1)];
        let received = random.percent(80).then_some(last);
        let line = Inbound { received, expected: random.pick(&beside) };
        let sequence = near(random, line);
        compare(line, sequence);
        cases.count();
    }
}

/// The reference adds one to the last number used, and 43 keeps it below the highest.
#[test]
fn outbound_numbers() {
    let mut cases = Cases::of("outbound numbers");
    for last in (0..2_000).chain(998_000..=999_997) {
        assert_eq!(proved::outbound(last), (last + 1, false));
        cases.count();
    }
    for last in [999_998, 999_999, 1_000_000, u32::MAX] {
        let (_, spent) = proved::outbound(last);
        assert!(spent);
        cases.count();
    }
}
