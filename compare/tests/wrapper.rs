//! The wrapper for Rust programs: its example, its bytes and its table of numbers.

#[path = "../../rhoikandra/examples/three_messages.rs"]
mod three_messages;

use std::path::Path;
use std::process::{Command, Output};

use rhoikandra::earlier::Book;
use rhoikandra::{numbers, Answer, Pool, OUTPUT_LENGTH};

/// By the paper: 3 millions of par less two good lots of one million; a replacement of equal weight leaves both figures;
/// a DK gives one million back; and what is off cannot be taken off again.
#[test]
fn three_messages_and_their_figures() {
    assert_eq!(
        three_messages::lines(),
        [
            "ON accepted under 1; open par 100000000, standing millions 2",
            "CC accepted under 2; open par 100000000, standing millions 2",
            "DK accepted under 3; open par 200000000, standing millions 1",
            "DK rejected with 30: no live pool under the target; open par 200000000, standing millions 1",
            "3 accepted, 1 rejected, 0 DKed; 256 bytes sent",
        ]
    );
}

/// A program in C, built without and with the compiler's care, and run.
fn from_c(source: &str, name: &str, level: &str) -> Output {
    let top = Path::new(env!("CARGO_MANIFEST_DIR")).join("..");
    let program = Path::new(env!("CARGO_TARGET_TMPDIR")).join(format!("{name}{level}"));
    let built = Command::new("cc")
        .args(["-Wall", "-Wextra", "-Werror", level, "-o"])
        .arg(&program)
        .arg(top.join(source))
        .arg(top.join("target/staticlib/librhoikandra.a"))
        .status();
    assert!(built.expect("cargo links by cc too").success());
    Command::new(program).output().unwrap()
}

/// The same messages from C, by the header: the same figures.
#[test]
fn three_messages_from_c() {
    // The example in Rust says what a refusal means, the one in C its number alone.
    let told = three_messages::lines().join("\n").replace(": no live pool under the target", "");
    for level in ["-O0", "-O2"] {
        let printed = from_c("rhoikandra/examples/three_messages.c", "three_messages", level).stdout;
        assert_eq!(String::from_utf8(printed).unwrap().trim_end(), told);
    }
}

/// In C too an accepted opening leaves no stale byte in the memory of a table.
#[test]
fn spare_bytes_from_c() {
    for level in ["-O0", "-O2"] {
        assert!(from_c("compare/tests/spare.c", "spare", level).status.success(), "{level}");
    }
}

/// Noise before, between and after frames is dropped, an unfinished frame too; an empty body is a frame.
#[test]
fn frames_of_a_tape() {
    let tape = b"noise\x02lost\x02ON\x03\x03more\x02\x03\x02unfinished";
    assert_eq!(rhoikandra::frames(tape).collect::<Vec<_>>(), [&b"ON"[..], b""]);
    assert_eq!(rhoikandra::frames(b"").next(), None);
}

/// The two bytes of a record that are no part of it: an accepted opening leaves nothing there, of the table before it or of the
/// stack, and a frame leaves them so; a refused opening leaves them as they were; a book's bytes have none of them.
#[test]
fn spare_bytes() {
    let spent = Pool {
        message: u64::MAX,
        ordinal: u64::MAX,
        trade: u64::MAX,
        lot: [0xFF; 6],
        pool: [0xFF; 7],
        original: [0xFF; 9],
        spare: [0xFF; 2],
        current: u64::MAX,
        kind: u64::MAX,
        millions: u64::MAX,
    };
    assert_eq!(size_of::<Pool>(), 72);

    let mut opening = three_messages::opening();
    let mut book = Book::of(&opening, 64);
    book.pools.fill(spent);
    book.open().unwrap();
    assert_eq!(book.pools, [Pool::default(); 64]);
    assert!(book.pools.iter().all(|pool| pool.spare == [0; 2]));

    let message =
        three_messages::body("ON", 1, 1, 0, &[("AA00001", 1_000_000, 100_000_000, "0001")]);
    assert_eq!(book.step(&message, b"093000", &mut [0; OUTPUT_LENGTH]).answer, Answer::Accepted(1));
    assert!(book.pools.iter().all(|pool| pool.spare == [0; 2]));

    // A CC and a DK close the table up.
    let lot = |pool, terminator| (pool, 1_000_000, 100_000_000, terminator);
    let cc = three_messages::body("CC", 2, 0, 1, &[lot("AA00001", "6001"), lot("AA00002", "7001")]);
    let dk = three_messages::body("DK", 3, 0, 2, &[lot("AA00002", "0001")]);
    for (message, id) in [(cc, 2), (dk, 3)] {
        assert_eq!(book.step(&message, b"093000", &mut [0; OUTPUT_LENGTH]).answer, Answer::Accepted(id));
        assert!(book.pools.iter().all(|pool| pool.spare == [0; 2]), "message {id}");
    }

    let bytes = book.save();
    book.pools.iter_mut().for_each(|pool| pool.spare = [0xFF; 2]);
    assert_eq!(book.save(), bytes);
    assert_eq!(Book::load(&bytes), Ok(book));

    opening.trades[0].seller = opening.trades[0].buyer;
    let mut refused = Book::of(&opening, 64);
    refused.pools.fill(spent);
    assert_eq!(refused.open(), Err(41));
    assert!(refused.pools.iter().all(|pool| *pool == spent && pool.spare == spent.spare));
}

#[test]
fn every_number_has_a_meaning() {
    let all = (10..=25).chain(30..=38).chain(40..=44);
    assert!(all.clone().all(|number| numbers::meaning(number).is_some()));
    assert_eq!(all.count(), numbers::ALL.len());
}
