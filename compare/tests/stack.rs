//! How deep the calls go: on a thread whose stack is what the header states, on a book as full as a message of 250 pools lets it be.

mod built;

use std::fs;
use std::process::Command;

use compare::engine::{held, told};
use compare::full::{bodies, desk, write};
use reference::answer::Answer;

/// What the crate's first page states.
const STATED: usize = 128 * 1024;
/// What a thread takes of its stack for itself.
const THREAD_BYTES: usize = 16 * 1024;

/// The number at the end of a line.
fn number(line: &str) -> usize {
    line.rsplit(' ').next().unwrap().parse().unwrap()
}

/// The bytes that the header says a call takes at most, which it gives in KiB, of those under 1 in one for all.
fn told_of(call: &str) -> usize {
    let header = fs::read_to_string(built::top().join("rhoikandra/rhoikandra.h")).unwrap();
    let (_, stack) = header.split_once("/* The stack of a thread that calls:").unwrap();
    let (stack, _) = stack.split_once("*/").unwrap();
    let words: Vec<&str> = stack.split([' ', ',', '\n']).filter(|word| !word.is_empty()).collect();
    let at = words.iter().position(|word| *word == call);
    let kibibytes =
        at.map_or("1", |at| words[at + 1..].iter().find(|word| **word != "takes").unwrap());
    1024 * kibibytes.parse::<usize>().expect("a number of KiB")
}

#[test]
fn the_stack_that_is_stated_is_enough() {
    let desk = desk();
    let bodies = bodies(&desk);
    let (book, day) = (built::kept("full.book"), built::kept("full.tape"));
    write(&desk, &bodies, &book, &day);

    let program = built::program("cc", "compare/tests/stack.c", &["-std=c99", "-O2"]);
    let ran = Command::new(program).args([&book, &day]).output().unwrap();
    let printed = String::from_utf8(ran.stdout).unwrap();
    assert!(ran.status.success(), "{} after {printed}", ran.status);
    let lines: Vec<&str> = printed.lines().collect();
    let (answers, measured) = lines.split_at(bodies.len());
    assert_eq!(answers, bodies.iter().map(|(told, _)| *told).collect::<Vec<_>>());
    let [stated, depths @ ..] = measured else { panic!("nothing is measured") };
    assert_eq!(depths.len(), 7);
    for line in depths {
        println!("{line} bytes of stack, {stated}");
        let depth = number(line);
        assert!(0 < depth && depth + THREAD_BYTES <= number(stated), "{line}");
        let told = told_of(line.split(' ').next().unwrap());
        assert!(depth <= told, "{line}, and the header says {told}");
    }
}

/// The same from Rust, by every safe call.
#[test]
fn the_stack_that_is_stated_is_enough_for_rust() {
    let desk = desk();
    let bodies = bodies(&desk);
    let opening = compare::engine::opening(&desk.book.values);
    let book = held(&desk.book, &desk.table);
    let calls = move || {
        for (expected, body) in bodies {
            let mut book = book.clone();
            let answer = book.step(&body, b"093000").answer;
            let code = match told(answer) {
                Answer::Accepted => "0 17".to_string(),
                Answer::Rejected(number) => format!("1 {number}"),
                Answer::DKed(number) => format!("2 {number}"),
            };
            assert_eq!(format!("{} {code}", String::from_utf8_lossy(&body[..2])), expected);
            rhoikandra::Tally::default().count(&body, answer);
            assert!(book.figures(0).is_some() && book.fault().is_none());
            assert_eq!(rhoikandra::Book::load(&book.save()), Ok(book));
        }
        assert!(opening.open(4096).is_ok() && opening.fault(4096).is_none());
        assert_eq!(rhoikandra::frames(b"\x02ON\x03").count(), 1);
    };
    let thread = std::thread::Builder::new().stack_size(STATED).spawn(calls).unwrap();
    thread.join().unwrap();
}
