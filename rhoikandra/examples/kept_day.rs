//! Opens a book, reads an ON, a CC and a DK from a line, sends exactly what each call gives to send, saves and loads the book after each, and prints the figures, and how the answers were at the end.

use rhoikandra::columns::{GDMM, NUMBER_OF_POOLS, REASON, SEQUENCE, TARGET};
use rhoikandra::message::{Message, PoolDetail};
use rhoikandra::{numbers, Answer, Book, Limits, Line, Opening, Tally, Trade};

/// A good lot of one million in one pool.
pub fn lot(pool: &[u8; 7], terminator: &[u8; 4]) -> PoolDetail {
    PoolDetail {
        lot: *b"LOT001",
        pool: *pool,
        original: 1_000_000,
        current: 100_000_000,
        terminator: *terminator,
    }
}

fn told(answer: Answer) -> String {
    let cause = |number| numbers::meaning(number).map_or("", |meaning| meaning.cause);
    match answer {
        Answer::Accepted(id) => format!("accepted under {id}"),
        Answer::Rejected(number) => format!("rejected with {number}: {}", cause(number)),
        Answer::Dked(number) => format!("DKed with {number}: {}", cause(number)),
    }
}

/// One trade of three millions.
pub fn opening() -> Opening {
    Opening {
        trades: vec![Trade {
            id: b"T1".to_vec(),
            seller: *b"MBAA",
            buyer: *b"MBBB",
            contra: *b"FTBA",
            cusip: *b"01F082630",
            settlement: 7_142_026,
            price: 98_500_000_000,
            par: 300_000_000,
        }],
        holidays: vec![],
        subscriber: *b"0123",
        connection: *b"1200",
        limits: Limits { ceiling: 2500, variance: 10_000, pools: 3, least: 1000 },
        last: 0,
        outbound: 0,
    }
}

/// Two good lots of one million each; then one of them is replaced; then the replacement is questioned, twice.
fn messages(opening: &Opening) -> [Message; 4] {
    let on = Message::on(opening, 0).number(SEQUENCE, 1).number(GDMM, 2);
    let cc =
        Message::cc(opening, 0).number(SEQUENCE, 2).number(TARGET, 1).number(NUMBER_OF_POOLS, 1);
    let dk = Message::dk(opening, 0).number(SEQUENCE, 3).number(TARGET, 2).number(REASON, 1);
    let dk = dk.pool(&lot(b"AA00003", b"0001"));
    [
        on.pool(&lot(b"AA00001", b"0001")).pool(&lot(b"AA00002", b"0001")),
        cc.pool(&lot(b"AA00002", b"6001")).pool(&lot(b"AA00003", b"7001")),
        dk.clone(),
        dk.number(SEQUENCE, 4),
    ]
}

/// The lines that the example prints.
pub fn lines() -> Vec<String> {
    let opening = opening();
    let mut book = opening.open(64).expect("the opening is in range");
    let tape: Vec<u8> = messages(&opening).iter().flat_map(Message::frame).collect();
    let mut tally = Tally::default();
    let mut line = Line::default();
    let mut sent: Vec<u8> = Vec::new();
    let mut lines = Vec::new();
    // A read ends anywhere: what it has of a frame is kept for the next one.
    for read in tape.chunks(100) {
        line.read(read);
        while let Some(message) = line.next_body() {
            let stepped = book.step(message, b"093000");
            tally.count(message, stepped.answer);
            // The book is saved before the answer goes out, so that a program that starts again goes on from here. A desk
            // keeps what is to be sent with it, and sends it again after a restart, as README says.
            let saved = book.save();
            sent.extend(stepped.to_send());
            book = Book::load(&saved).expect("nothing changed meanwhile");
            let figures = book.figures(0).expect("the book is sound");
            lines.push(format!(
                "{} {}; open par {}, standing millions {}",
                String::from_utf8_lossy(&message[..2]),
                told(stepped.answer),
                figures.open_par,
                figures.standing_millions,
            ));
        }
    }
    let [accepted, rejected, dked] =
        [0, 1, 2].map(|column| tally.rows.iter().map(|row| row[column]).sum::<u32>());
    lines.push(format!(
        "{accepted} accepted, {rejected} rejected, {dked} DKed; {} bytes sent",
        sent.len()
    ));
    lines
}

#[allow(dead_code)]
fn main() {
    for line in lines() {
        println!("{line}");
    }
}
