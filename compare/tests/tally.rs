//! The tally: one cell raised, a full one left; other types, other lengths and numbers that no answer says untouched.

use compare::cases::Cases;
use compare::proved;
use reference::answer::{Answer, OPENING, SILENT};
use reference::message::Type;
use reference::tally::{raise, Tally};
use rhoikandra::numbers;

const TYPES: [Option<Type>; 5] =
    [Some(Type::On), Some(Type::Cc), Some(Type::Dk), Some(Type::Cx), None];
const ANSWERS: [Answer; 3] = [Answer::Accepted, Answer::Rejected(19), Answer::DKed(38)];

#[test]
fn tallies() {
    let mut cases = Cases::of("tallies");
    for _ in 0..20_000 {
        let random = &mut cases.random;
        let kind = random.below(5) as usize;
        let outcome = random.below(3) as usize;
        let mut before: Tally = Default::default();
        for cell in before.iter_mut().flatten() {
            *cell = random.pick(&[0, 1, 7, u32::MAX - 1, u32::MAX, random.clone().number() as u32]);
        }
        let after = TYPES[kind].map_or(before, |of| raise(before, of, ANSWERS[outcome]));
        let mut rows = before;
        proved::tally_raise(&mut rows, kind as u64, outcome as u64);
        assert_eq!(rows, after, "{before:?} {kind} {outcome}");
        cases.count();
    }
}

#[test]
fn rows_that_are_not_four_stay() {
    let mut cases = Cases::of("rows that are not four");
    for length in (0..40).filter(|length| *length != 4) {
        let mut rows = vec![[7; 3]; length];
        proved::tally_raise(&mut rows, 0, 0);
        assert_eq!(rows, vec![[7; 3]; length]);
        cases.count();
    }
}

/// Every number with every answer: what counts is what the table of numbers has, but for those that move nothing.
#[test]
fn numbers_that_no_answer_says() {
    let mut cases = Cases::of("numbers that no answer says");
    let named =
        |number| u16::try_from(number).is_ok_and(|number| numbers::meaning(number).is_some());
    let silent =
        |number| number == u64::from(OPENING) || SILENT.iter().any(|&one| u64::from(one) == number);
    for first in (0..5).chain([255, 256, 1 << 32, u64::MAX - 1, u64::MAX]) {
        for second in (0..300).chain([65_536 + 12, (1 << 32) + 12, u64::MAX]) {
            let mut rows = [[7; 3]; 4];
            proved::tally(&mut rows, b"CC", &[first, second]);
            let mut expected = [[7; 3]; 4];
            if first == 0 || first < 3 && named(second) && !silent(second) {
                expected[1][first as usize] += 1;
            }
            assert_eq!(rows, expected, "{first} {second}");
            cases.count();
        }
    }
}

#[test]
fn a_frame_call_told_in_another_length() {
    let mut cases = Cases::of("a frame call told in another length");
    for length in 0..9 {
        for told in 0..5 {
            let before = vec![[7; 3]; length];
            let mut rows = before.clone();
            proved::tally(&mut rows, b"ON", &[1, 19, 2, 38, 0][..told]);
            let counts = length == 4 && told >= 2;
            assert_eq!(rows != before, counts, "{length} rows, {told} numbers");
            assert!(!counts || rows == [[7, 8, 7], [7; 3], [7; 3], [7; 3]]);
            cases.count();
        }
    }
}
