//! Answers: accepted, rejected with a number, or DKed with a number (01 Who causes which number).

use crate::message::Type;

/// A refusal's number, as the paper gives it.
pub type Number = u16;

#[derive(Clone, Copy, Debug, PartialEq, Eq, PartialOrd, Ord)]
pub enum Answer {
    Accepted,
    Rejected(Number),
    DKed(Number),
}

/// The code that an acknowledgment gives to an accepted message.
pub const ACCEPTED_CODE: Number = 0;
pub const OPENING: Number = 41;
pub const UNSOUND_BOOK: Number = 42;
pub const DUPLICATE_SEQUENCE: Number = 12;

/// The numbers that move nothing and write nothing.
pub const SILENT: [Number; 5] = [10, 11, 42, 43, 44];

/// The trader's numbers are DKed, but rejected on a DK; all others are rejected.
pub fn refusal(number: Number, message_type: Option<Type>) -> Answer {
    let trader = (30..=38).contains(&number);
    if trader && message_type != Some(Type::Dk) {
        Answer::DKed(number)
    } else {
        Answer::Rejected(number)
    }
}

impl Answer {
    /// The acknowledgment's code.
    pub fn code(self) -> Number {
        match self {
            Answer::Accepted => ACCEPTED_CODE,
            Answer::Rejected(number) | Answer::DKed(number) => number,
        }
    }
}

impl std::fmt::Display for Answer {
    fn fmt(&self, f: &mut std::fmt::Formatter) -> std::fmt::Result {
        match self {
            Answer::Accepted => write!(f, "accepted"),
            Answer::Rejected(number) => write!(f, "rejected {number}"),
            Answer::DKed(number) => write!(f, "DKed {number}"),
        }
    }
}
