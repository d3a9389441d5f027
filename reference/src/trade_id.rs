//! Trade ID: what the special instructions say about the trade that is meant (01 The book).

use crate::columns::SPECIAL_INSTRUCTIONS;

pub const TRADE_ID_MAX: usize = 16;
const BEGINNING: &[u8] = b"TRID=";
const END: u8 = b'=';

/// The answer of the finder: not begun, begun but not whole, or whole at a place with a length.
#[derive(Clone, Copy, Debug, PartialEq, Eq)]
pub enum TradeId {
    Absent,
    Broken,
    Whole { place: usize, length: usize },
}

/// After the first "TRID=" come 1 to 16 characters other than "=", then "=".
pub fn find(special_instructions: &[u8; SPECIAL_INSTRUCTIONS.width]) -> TradeId {
    let begun =
        special_instructions.windows(BEGINNING.len()).position(|window| window == BEGINNING);
    let Some(begun) = begun else {
        return TradeId::Absent;
    };
    let place = begun + BEGINNING.len();
    let length = special_instructions[place..].iter().position(|byte| *byte == END);
    match length {
        Some(length) if (1..=TRADE_ID_MAX).contains(&length) => TradeId::Whole { place, length },
        _ => TradeId::Broken,
    }
}

#[cfg(test)]
mod tests {
    use super::*;

    fn found(text: &str) -> TradeId {
        let mut field = [b' '; 30];
        field[..text.len()].copy_from_slice(text.as_bytes());
        find(&field)
    }

    #[test]
    fn absent_broken_and_whole() {
        assert_eq!(found(""), TradeId::Absent);
        assert_eq!(found("TRID 1"), TradeId::Absent);
        assert_eq!(found("trid=1="), TradeId::Absent);
        assert_eq!(found("TRID=1="), TradeId::Whole { place: 5, length: 1 });
        assert_eq!(found("x TRID=1234567890="), TradeId::Whole { place: 7, length: 10 });
        assert_eq!(found("TRID=1234567890123456="), TradeId::Whole { place: 5, length: 16 });
        assert_eq!(found("TRID=12345678901234567="), TradeId::Broken);
        assert_eq!(found("TRID=="), TradeId::Broken);
        assert_eq!(found("TRID=1"), TradeId::Broken);
        assert_eq!(found("                         TRID="), TradeId::Broken);
        // Blanks belong to the name; only the first beginning counts.
        assert_eq!(found("TRID= 1 ="), TradeId::Whole { place: 5, length: 3 });
        assert_eq!(found("TRID==TRID=1="), TradeId::Broken);
        assert_eq!(found("TRID=TRID=1="), TradeId::Whole { place: 5, length: 4 });
        assert_eq!(found("TRTRID=A="), TradeId::Whole { place: 7, length: 1 });
    }
}
