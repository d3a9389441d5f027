//! Day: what the program daytape prints for a tape (01 Program daytape).

use crate::acknowledgment::OUTPUT_MIN;
use crate::answer::Answer;
use crate::book::PoolRecord;
use crate::frame::bodies;
use crate::frame_call::frame_call;
use crate::opening::open;
use crate::terms::{Trade, FTBA};
use crate::values::{Limits, OpeningValues};

/// The program reads this much of its input and no more: 64 KiB.
pub const TAPE_MAX: usize = 65_536;
pub const RECORDS: usize = 512;
const TIME: [u8; 6] = *b"000000";

/// The opening that the program is built with.
pub fn opening_values() -> OpeningValues {
    OpeningValues {
        trades: vec![Trade {
            id: b"T1".to_vec(),
            seller: *b"MBAA",
            buyer: *b"MBBB",
            contra: FTBA,
            cusip: *b"01F082630",
            settlement: *b"07142026",
            price: 98_500_000_000,
            par_cents: 200_000_000,
        }],
        holidays: Vec::new(),
        subscriber: *b"0123",
        connection: *b"1200",
        last_message_id: 0,
        last_outbound: 0,
        limits: Limits {
            gdmm_ceiling: 2_500,
            variance_cents_a_million: 10_000,
            pools_a_million: 3,
            least_face_dollars: 1_000,
        },
    }
}

/// The two lines for a tape: the frames accepted and all other whole frames; then the trade.
pub fn lines(input: &[u8]) -> String {
    let tape = &input[..input.len().min(TAPE_MAX)];
    let mut table = vec![PoolRecord::EMPTY; RECORDS];
    let mut book = open(&opening_values(), &mut table).expect("the program's opening is in range");
    let mut output = [0; OUTPUT_MIN];
    let mut tally = Default::default();
    let (mut accepted, mut others) = (0u32, 0u32);
    for body in bodies(tape) {
        let step = frame_call(&mut book, &mut table, &mut output, &TIME, body, tally);
        tally = step.tally;
        match step.answer {
            Answer::Accepted => accepted += 1,
            Answer::Rejected(_) | Answer::DKed(_) => others += 1,
        }
    }
    let open_par_cents = book.open_par_cents[0];
    let millions = book.standing_millions(&table, 0);
    format!("day {accepted} {others}\ntrade T1 {open_par_cents} {millions}\n")
}

#[cfg(test)]
mod tests {
    #[test]
    fn empty_input_prints_two_lines() {
        assert_eq!(super::lines(b""), "day 0 0\ntrade T1 200000000 0\n");
    }
}
