//! What each number means, who causes it, and what to do.

use crate::Number;

/// A number of the paper: its cause, who acts on it, and what to do.
#[derive(Clone, Copy, Debug)]
pub struct Meaning {
    pub number: Number,
    pub cause: &'static str,
    pub acts: &'static str,
    pub remedy: &'static str,
}

const fn of(number: Number, cause: &'static str, acts: &'static str, remedy: &'static str) -> Meaning {
    Meaning { number, cause, acts, remedy }
}

/// The number of a frame call whose time bytes are not six. The papers have no number for it, and [`crate::Book`] lends six.
pub const TIME_REFUSED: Number = 90;

/// All numbers of the paper, in the order of the checks.
pub const ALL: [Meaning; 30] = [
    of(41, "an opening value out of range", "operator", "mend the opening's values and open again"),
    of(42, "book or table damaged since the last call", "operator", "restore the last good copy"),
    of(43, "message IDs or outbound numbers used up", "operator", "open a new book"),
    of(44, "output shorter than 217 bytes", "operator", "lend a longer output"),
    of(10, "body length is not that of 1 to 250 pools", "line", "send the frame again"),
    of(11, "sequence is not digits, or 999999", "line", "send the frame again"),
    of(12, "duplicate sequence", "line", "nothing, it was processed"),
    of(13, "message type unknown", "sender's system", "send ON, CC or DK"),
    of(14, "version is not 002", "sender's system", "send version 002"),
    of(15, "filler not blank, or Pos Dup neither X nor blank", "sender's system", "blank the fillers"),
    of(16, "par, price or GDMM not digits or out of range", "sender's system", "correct the amounts"),
    of(17, "subscriber, connection, submitter or contra unknown", "sender's system", "correct the parties"),
    of(18, "CX is not taken", "sender's system", "send a CC or DK"),
    of(19, "terminator or lot form", "sender's system", "correct the terminators"),
    of(20, "groups of a CC", "sender's system", "correct the groups"),
    of(21, "sums of a CC's groups", "sender's system", "balance each group"),
    of(22, "number of pools is not the replacement count", "sender's system", "correct the count"),
    of(23, "settlement is not a business date", "sender's system", "correct the date"),
    of(24, "reason is not digits, or 0000", "sender's system", "give a reason"),
    of(25, "DK on FSTI without a whole trade ID", "sender's system", "give the trade ID"),
    of(30, "no live pool under the target", "trader", "check the target message ID"),
    of(31, "trade ID broken, unknown, or another trade's", "trader", "check the trade ID"),
    of(32, "no trade's terms agree", "trader", "check the terms with the counterparty"),
    of(33, "GDMM is not the sum of good millions", "trader", "correct GDMM or the lots"),
    of(34, "a face not digits or out of bounds", "trader", "correct the faces"),
    of(35, "a good lot off its weight, or with too many pools", "trader", "correct the lot"),
    of(36, "a new pool's matched fields stand twice", "trader", "list each pool once"),
    of(37, "listed pools are not whole live lots of the target", "trader", "list whole live lots"),
    of(38, "open par does not hold what the message brings", "trader", "allocate no more than is open"),
    of(40, "the table is full", "operator", "open with a longer table"),
];

/// What a number means.
pub fn meaning(number: Number) -> Option<&'static Meaning> {
    ALL.iter().find(|meaning| meaning.number == number)
}
