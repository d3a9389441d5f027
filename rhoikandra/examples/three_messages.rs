//! Opens a book, sends an ON, a CC and a DK as frames of a tape, and prints the figures after each, and how the answers were at the end.

use rhoikandra::earlier::{Book, Stepped};
use rhoikandra::{Answer, Limits, OUTPUT_LENGTH, Opening, Tally, Trade, numbers};

/// The bytes that start and end a frame.
const START: u8 = 2;
const END: u8 = 3;

/// A pool of a message: number, original face in dollars, current face in cents, terminator.
pub type Pool<'a> = (&'a str, u64, u64, &'a str);

/// The body of a message: a header and its pools, by the columns of the paper.
pub fn body(kind: &str, sequence: u32, millions: u64, target: u64, pools: &[Pool]) -> Vec<u8> {
    let submitter = if kind == "DK" { "MBBB" } else { "MBAA" };
    let new = if kind == "CC" { pools.iter().filter(|pool| pool.3.starts_with('7')).count() } else { 0 };
    let reason = if kind == "DK" { 1 } else { 0 };
    let mut text = format!(
        "{kind}{sequence:06}00201231200{submitter}FTBA01F082630 {par:011}{blank:10}{price:012}{millions:04}\
         {date:08}{date:08}{date:08}{blank:16}{blank:4}{reason:04}{target:011}{blank:15}{blank:4} {blank:30}{new:04}",
        par = 100_000_000,
        price = 98_500_000_000_u64,
        date = 7_142_026,
        blank = "",
    );
    for (number, original, current, terminator) in pools {
        text += &format!("LOT001  {number:7}{original:09}{blank:55}{current:011}{blank:32}{terminator}{blank:73}", blank = "");
    }
    text.into_bytes()
}

fn told(answer: Answer) -> String {
    match answer {
        Answer::Accepted(id) => format!("accepted under {id}"),
        Answer::Rejected(number) => format!("rejected with {number}: {}", numbers::meaning(number).unwrap().cause),
        Answer::Dked(number) => format!("DKed with {number}: {}", numbers::meaning(number).unwrap().cause),
    }
}

/// One trade of three millions.
pub fn opening() -> Opening {
    Opening {
        trades: vec![Trade {
            id: b"T1".to_vec(),
            seller: *b"MBAA",
            buyer: *b"MBBB",
            contra: *b"FTBA",
            cusip: *b"01F082630",
            settlement: 7_142_026,
            price: 98_500_000_000,
            par: 300_000_000,
        }],
        holidays: vec![],
        subscriber: *b"0123",
        connection: *b"1200",
        limits: Limits { ceiling: 2500, variance: 10_000, pools: 3, least: 1000 },
        last: 0,
        outbound: 0,
    }
}

/// The lines that the example prints.
pub fn lines() -> Vec<String> {
    let mut book = Book::of(&opening(), 64);
    book.open().expect("the opening is in range");
    // Two good lots of one million each; then one of them is replaced; then the replacement is questioned.
    let messages = [
        body("ON", 1, 2, 0, &[("AA00001", 1_000_000, 100_000_000, "0001"), ("AA00002", 1_000_000, 100_000_000, "0001")]),
        body("CC", 2, 0, 1, &[("AA00002", 1_000_000, 100_000_000, "6001"), ("AA00003", 1_000_000, 100_000_000, "7001")]),
        body("DK", 3, 0, 2, &[("AA00003", 1_000_000, 100_000_000, "0001")]),
        body("DK", 4, 0, 2, &[("AA00003", 1_000_000, 100_000_000, "0001")]),
    ];
    let tape: Vec<u8> = messages.iter().flat_map(|message| [&[START][..], message, &[END]].concat()).collect();
    let mut tally = Tally::default();
    // What goes out on the line: exactly the bytes that each call wrote.
    let mut line: Vec<u8> = Vec::new();
    let mut lines = Vec::new();
    for message in rhoikandra::frames(&tape) {
        let mut output = [0; OUTPUT_LENGTH];
        let Stepped { answer, written } = book.step(message, b"093000", &mut output);
        line.extend(&output[..written]);
        tally.count(message, answer);
        let figures = book.figures(0).expect("the book is sound");
        lines.push(format!(
            "{} {}; open par {}, standing millions {}",
            String::from_utf8_lossy(&message[..2]),
            told(answer),
            figures.open_par,
            figures.standing_millions,
        ));
    }
    let [accepted, rejected, dked] = [0, 1, 2].map(|column| tally.rows.iter().map(|row| row[column]).sum::<u32>());
    lines.push(format!("{accepted} accepted, {rejected} rejected, {dked} DKed; {} bytes sent", line.len()));
    lines
}

#[allow(dead_code)]
fn main() {
    for line in lines() {
        println!("{line}");
    }
}
