//! Tally: counts answers by message type; a full cell stays full (01 What goes out).

use crate::answer::Answer;
use crate::message::Type;

/// Four types (ON, CC, DK, CX) by three answers (accepted, rejected, DKed).
pub type Tally = [[u32; 3]; 4];

/// The tally with the cell of this type and answer raised by one.
pub fn raise(mut tally: Tally, message_type: Type, answer: Answer) -> Tally {
    let row = match message_type {
        Type::On => 0,
        Type::Cc => 1,
        Type::Dk => 2,
        Type::Cx => 3,
    };
    let column = match answer {
        Answer::Accepted => 0,
        Answer::Rejected(_) => 1,
        Answer::DKed(_) => 2,
    };
    tally[row][column] = tally[row][column].saturating_add(1);
    tally
}

#[cfg(test)]
mod tests {
    use super::*;

    #[test]
    fn one_cell_is_raised_and_a_full_one_stays_full() {
        let mut tally: Tally = [[u32::MAX - 1; 3]; 4];
        tally = raise(tally, Type::Dk, Answer::Rejected(37));
        assert_eq!(tally[2], [u32::MAX - 1, u32::MAX, u32::MAX - 1]);
        assert_eq!(raise(tally, Type::Dk, Answer::Rejected(30)), tally);
        assert_eq!(raise(tally, Type::On, Answer::DKed(38))[0][2], u32::MAX);
    }
}
