//! Terminators: all ten thousand of four digits, random bytes, and other lengths.

use compare::cases::Cases;
use compare::{bodies, proved};
use reference::digits::digits;
use reference::terminator::{position, Position};

#[test]
fn every_terminator_of_four_digits() {
    let mut cases = Cases::of("every terminator of four digits");
    for code in 0..10_000 {
        let terminator = digits::<4>(code);
        assert_eq!(proved::position(&terminator), position(&terminator), "{code:04}");
        cases.count();
    }
}

#[test]
fn random_terminators() {
    let mut cases = Cases::of("random terminators");
    for _ in 0..20_000 {
        let mut terminator = bodies::terminator(&mut cases.random);
        let place = cases.random.below(4) as usize;
        terminator[place] = cases.random.number() as u8;
        assert_eq!(proved::position(&terminator), position(&terminator), "{terminator:?}");
        cases.count();
    }
}

#[test]
fn bytes_that_are_not_four_are_wrong() {
    let mut cases = Cases::of("bytes that are not four");
    for length in (0..40).filter(|length| *length != 4) {
        assert_eq!(proved::position(&vec![b'0'; length]), Position::Wrong);
        cases.count();
    }
}
