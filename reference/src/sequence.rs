//! Sequence: judges an inbound number and moves the inbound counter (01 The book, 003 section 2.1.21).

use crate::digits::number;

pub const SEQUENCE_MAX: u32 = 999_999;
/// The highest inbound number that check 11 lets pass.
pub const RECEIVED_MAX: u32 = SEQUENCE_MAX - 1;
pub const FIRST_EXPECTED: u32 = 1;

/// The inbound counter; "none received" is a state of its own.
#[derive(Clone, Copy, Debug, PartialEq, Eq)]
pub struct Inbound {
    pub received: Option<u32>,
    pub expected: u32,
}

#[derive(Clone, Copy, Debug, PartialEq, Eq)]
pub enum Judgement {
    AsExpected,
    Duplicate,
    Gap,
}

impl Inbound {
    pub const NONE_RECEIVED: Inbound = Inbound { received: None, expected: FIRST_EXPECTED };

    /// The counter after a number was received.
    pub fn after(sequence: u32) -> Inbound {
        Inbound { received: Some(sequence), expected: sequence.saturating_add(1) }
    }

    /// Equal to the last received is a duplicate and no gap; any other not expected is a gap.
    pub fn judge(&self, sequence: u32) -> Judgement {
        if self.received == Some(sequence) {
            Judgement::Duplicate
        } else if self.expected == sequence {
            Judgement::AsExpected
        } else {
            Judgement::Gap
        }
    }

    /// Soundness of the counter (42).
    pub fn is_sound(&self) -> bool {
        match self.received {
            None => self.expected == FIRST_EXPECTED,
            Some(received) => received <= RECEIVED_MAX && self.expected == received + 1,
        }
    }
}

/// The sequence number of a field, none where check 11 fails.
pub fn sequence_number(field: &[u8; 6]) -> Option<u32> {
    let sequence = number(field)? as u32;
    (sequence <= RECEIVED_MAX).then_some(sequence)
}

#[cfg(test)]
mod tests {
    use super::*;
    use Judgement::*;

    fn judged(numbers: &[u32]) -> Vec<Judgement> {
        let mut inbound = Inbound::NONE_RECEIVED;
        numbers
            .iter()
            .map(|sequence| {
                let judgement = inbound.judge(*sequence);
                if judgement != Duplicate {
                    inbound = Inbound::after(*sequence);
                }
                judgement
            })
            .collect()
    }

    #[test]
    fn the_examples_of_003() {
        assert_eq!(judged(&[2, 3, 2, 3]), [Gap, AsExpected, Gap, AsExpected]);
        assert_eq!(judged(&[5, 5, 5, 5]), [Gap, Duplicate, Duplicate, Duplicate]);
    }

    #[test]
    fn zero_first_is_a_gap_and_then_a_duplicate() {
        assert_eq!(judged(&[0, 0, 1, 2]), [Gap, Duplicate, AsExpected, AsExpected]);
    }

    #[test]
    fn there_is_no_roll_over() {
        assert_eq!(sequence_number(b"999999"), None);
        assert_eq!(sequence_number(b"999998"), Some(RECEIVED_MAX));
        assert_eq!(judged(&[999_998, 1, 999_998, 999_998]), [Gap, Gap, Gap, Duplicate]);
        assert_eq!(sequence_number(b"00001 "), None);
    }
}
