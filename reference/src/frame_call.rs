//! Frame call: answers one frame's body and leaves book, table, output and tally as the paper says.

use crate::acknowledgment::{aa, tx, Sender};
use crate::answer::{refusal, Answer, DUPLICATE_SEQUENCE, SILENT};
use crate::book::{Book, PoolRecord};
use crate::change::Change;
use crate::checks::{first_failing, Case};
use crate::message::{Message, Type};
use crate::sequence::{sequence_number, Inbound, Judgement};
use crate::tally::{raise, Tally};

/// What a call gives back. The bytes written stand at the output's start; the rest of it stays.
#[derive(Clone, Copy, Debug, PartialEq, Eq)]
pub struct Step {
    pub answer: Answer,
    pub tally: Tally,
    pub written: usize,
}

/// One frame call. The time bytes are lent and unread.
pub fn frame_call(
    book: &mut Book,
    table: &mut [PoolRecord],
    output: &mut [u8],
    time: &[u8; 6],
    body: &[u8],
    tally: Tally,
) -> Step {
    let case = Case { book, table, output_length: output.len(), body };
    let failing = first_failing(&case);
    if let Some(number) = failing.filter(|number| SILENT.contains(number)) {
        return Step { answer: Answer::Rejected(number), tally, written: 0 };
    }

    let message = Message::read(body).expect("check 10 passed");
    let message_type = message.message_type();
    let change = failing.is_none().then(|| Change::of(&case));
    let answer = failing.map_or(Answer::Accepted, |number| refusal(number, message_type));

    let mut out = Vec::new();
    if failing != Some(DUPLICATE_SEQUENCE) {
        out.extend(receive(book, &message));
    }
    let message_id = change.map(|change| change.apply(book, table));
    let sender = next_sender(book);
    let sequence = message.sequence();
    out.extend(aa(sender, &message.internal_id(), message_id, answer.code(), time, &sequence));
    output[..out.len()].copy_from_slice(&out);
    Step { answer, tally: tallied(tally, message_type, answer), written: out.len() }
}

/// Moves the inbound counter and gives the TX of a gap.
fn receive(book: &mut Book, message: &Message) -> Vec<u8> {
    let Some(sequence) = sequence_number(&message.sequence()) else {
        return Vec::new();
    };
    let before = book.inbound;
    book.inbound = Inbound::after(sequence);
    match before.judge(sequence) {
        Judgement::Gap => tx(next_sender(book), before.expected, sequence).to_vec(),
        Judgement::AsExpected | Judgement::Duplicate => Vec::new(),
    }
}

/// The next outbound number, now used, with the book's subscriber and connection.
fn next_sender(book: &mut Book) -> Sender {
    book.values.last_outbound += 1;
    Sender {
        outbound: book.values.last_outbound,
        subscriber: book.values.subscriber,
        connection: book.values.connection,
    }
}

/// Other types are not in the tally.
fn tallied(tally: Tally, message_type: Option<Type>, answer: Answer) -> Tally {
    message_type.map_or(tally, |of_message| raise(tally, of_message, answer))
}
