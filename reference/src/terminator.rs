//! Terminators: what the four bytes at a pool's end say about its lot (01 Terminators, 001 section 3).

use crate::digits::number;

/// The most millions that the terminator of one good lot gives.
pub const LOT_MILLIONS_MAX: u64 = 99;

/// Position one: an ON's pool, a CC's canceled or its replacement pool.
#[derive(Clone, Copy, Debug, PartialEq, Eq)]
pub enum PositionOne {
    Original,
    Canceled,
    Replacement,
    Wrong,
}

/// Positions two to four: in the middle or at the end of a lot of some kind.
#[derive(Clone, Copy, Debug, PartialEq, Eq)]
pub enum Position {
    GoodOrOddMiddle,
    GoodEnd { millions: u64 },
    OddEnd,
    BadMiddle,
    BadEnd,
    Wrong,
}

pub fn position_one(terminator: &[u8; 4]) -> PositionOne {
    match terminator[0] {
        b'0' => PositionOne::Original,
        b'6' => PositionOne::Canceled,
        b'7' => PositionOne::Replacement,
        _ => PositionOne::Wrong,
    }
}

/// Positions two to four decide by ranges.
pub fn position(terminator: &[u8; 4]) -> Position {
    match number(&terminator[1..]) {
        Some(0) => Position::GoodOrOddMiddle,
        Some(millions @ 1..=LOT_MILLIONS_MAX) => Position::GoodEnd { millions },
        Some(999) => Position::OddEnd,
        Some(888) => Position::BadMiddle,
        Some(889) => Position::BadEnd,
        _ => Position::Wrong,
    }
}

#[cfg(test)]
mod tests {
    use super::*;

    #[test]
    fn all_thousand_codes() {
        for code in 0..1000u64 {
            let terminator = [&b"7"[..], &crate::digits::digits::<3>(code)].concat();
            let expected = match code {
                0 => Position::GoodOrOddMiddle,
                1..=99 => Position::GoodEnd { millions: code },
                888 => Position::BadMiddle,
                889 => Position::BadEnd,
                999 => Position::OddEnd,
                _ => Position::Wrong,
            };
            assert_eq!(position(&terminator.try_into().unwrap()), expected);
        }
    }

    #[test]
    fn blanks_and_letters_are_wrong() {
        for terminator in [b"    ", b"0  1", b"000A", b"0\x0001"] {
            assert_eq!(position(terminator), Position::Wrong);
        }
        assert_eq!(position_one(b" 001"), PositionOne::Wrong);
        assert_eq!(position_one(b"9999"), PositionOne::Wrong);
    }
}
