//! The library from C and C++, by its headers: the examples, what the header says of lengths, and saved books.

mod built;
#[path = "../../rhoikandra/examples/kept_day.rs"]
mod kept_day;

use std::fs;
use std::path::Path;
use std::process::Command;

use compare::engine::held;
use compare::full;
use reference::desk::{pool, Desk};
use rhoikandra::Book;

/// The standards that a client may build by, without and with the compiler's care.
const C: [[&str; 2]; 4] =
    [["-std=c99", "-O0"], ["-std=c99", "-O2"], ["-std=c11", "-O0"], ["-std=c11", "-O2"]];
const CPP: [[&str; 2]; 2] = [["-std=c++11", "-O2"], ["-std=c++17", "-O0"]];

/// Builds a program and runs it on words of a command line; it must end well.
fn run(compiler: &str, source: &str, flags: &[&str], words: &[&Path]) -> String {
    let ran = Command::new(built::program(compiler, source, flags)).args(words).output().unwrap();
    let errors = String::from_utf8_lossy(&ran.stderr);
    assert!(ran.status.success(), "{source} {flags:?}: {} {errors}", ran.status);
    String::from_utf8(ran.stdout).unwrap()
}

/// The same messages from C and C++, by the header: the same figures. The book is saved and loaded on the way, and Rust loads it too.
fn a_kept_day_from(compiler: &str, source: &str, builds: &[[&str; 2]]) {
    // The example in Rust says what a refusal means, the others its number alone.
    let told = kept_day::lines().join("\n").replace(": no live pool under the target", "");
    for flags in builds {
        let path = built::kept(&format!("{compiler}{}.book", flags.concat()));
        let printed = run(compiler, source, flags, &[&path]);
        assert_eq!(printed.trim_end(), told, "{flags:?}");
        let bytes = fs::read(&path).unwrap();
        assert_eq!(Book::load(&bytes).expect("a saved book").save(), bytes, "{flags:?}");
    }
}

#[test]
fn a_kept_day_from_c() {
    a_kept_day_from("cc", "rhoikandra/examples/kept_day.c", &C);
}

#[test]
fn a_kept_day_from_cpp() {
    a_kept_day_from("c++", "rhoikandra/examples/kept_day.cpp", &CPP);
}

/// By every standard of C an accepted opening leaves no stale byte in the memory of a table.
#[test]
fn spare_bytes_by_each_standard() {
    for flags in &C {
        run("cc", "compare/tests/spare.c", flags, &[]);
    }
}

/// Every length that a call does not ask for, and null pointers where the length is 0.
#[test]
fn lengths_from_c() {
    for flags in &C {
        run("cc", "compare/tests/lengths.c", flags, &[]);
    }
}

/// On memory that ends or begins where nothing can be touched, and on threads: on a full book, for lengths that are asked for and others.
#[test]
fn memory_and_threads_from_c() {
    let (book, day) = (built::kept("memory.book"), built::kept("memory.tape"));
    let desk = full::desk();
    let bodies = full::bodies(&desk);
    full::write(&desk, &bodies, &book, &day);
    for flags in &C {
        let printed = run("cc", "compare/tests/memory.c", flags, &[&book, &day]);
        assert_eq!(printed, format!("{} frames\n", bodies.len()));
    }
}

/// A book of one trade with a live pool, over a table of two records, as Rust saves it.
fn small() -> Vec<u8> {
    let mut desk = Desk::open(&reference::day::opening_values(), 2);
    let on = desk.on(0, 0, &[(pool(1, 500), b"0999")]);
    desk.send(&on);
    held(&desk.book, &desk.table).save()
}

/// A book that Rust saved is loaded in C, saved again to the same bytes, and told from every flipped bit and every truncation of it.
#[test]
fn saved_books_in_c() {
    let (saved, again) = (built::kept("small.book"), built::kept("again.book"));
    fs::write(&saved, small()).unwrap();
    let printed = run("cc", "compare/tests/saved.c", &["-std=c99", "-O2"], &[&saved, &again]);
    assert_eq!(fs::read(&again).unwrap(), small());
    let size = small().len();
    assert_eq!(printed, format!("{} flipped bits and {size} truncations refused\n", size * 8));
}

/// The calls keep nothing of their own: the archive has code and constants, and no byte that can be written. Of the system's it
/// needs two functions, which keep nothing either.
#[test]
fn no_memory_of_its_own() {
    let archive = built::top().join("target/staticlib/librhoikandra.a");
    let listed = Command::new("nm")
        .args(["--format=posix"])
        .arg(archive)
        .output()
        .expect("nm comes with cc");
    let listed = String::from_utf8(listed.stdout).unwrap();
    let symbols: Vec<(&str, &str)> = listed
        .lines()
        .filter(|line| !line.ends_with(':'))
        .filter_map(|line| Some((line.split(' ').next()?, line.split(' ').nth(1)?)))
        .collect();
    assert!(symbols.contains(&("rhoikandra_step", "T")));
    for (name, kind) in symbols {
        let fine = match kind {
            "T" | "t" | "R" | "r" => true,
            "U" => ["memcpy", "memset"].contains(&name),
            _ => false,
        };
        assert!(fine, "{name} {kind}");
    }
}
