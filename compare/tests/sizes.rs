//! The length of a table, the places of what can be too wide, the columns and the marks: the header for C, the wrapper for Rust and this
//! comparison hold the engine's own.

use std::collections::BTreeMap;
use std::path::Path;
use std::process::Command;

use rhoikandra::columns::{Column, DETAIL, HEADER};

type Numbers = BTreeMap<String, usize>;

fn text(path: &str) -> String {
    let file = Path::new(env!("CARGO_MANIFEST_DIR")).join("..").join(path);
    std::fs::read_to_string(&file).unwrap_or_else(|error| panic!("{path}: {error}"))
}

/// The constants of a source that are given as a numeral, by their names.
fn constants(path: &str) -> Numbers {
    let constant = |line: &str| {
        let line = line.strip_prefix("pub ").unwrap_or(line);
        let (name, number) = line.strip_prefix("const ")?.split_once(": usize = ")?;
        Some((name.to_string(), number.strip_suffix(';')?.parse().ok()?))
    };
    text(path).lines().filter_map(constant).collect()
}

/// The header's numbers that are written as a product of two, by their names without the library's.
fn products() -> Numbers {
    let product = |line: &str| {
        let (name, number) = line.strip_prefix("#define RHOIKANDRA_")?.split_once(" (")?;
        let (one, other) = number.strip_suffix(')')?.split_once(" * ")?;
        Some((name.to_string(), one.parse::<usize>().ok()? * other.parse::<usize>().ok()?))
    };
    text("rhoikandra/rhoikandra.h").lines().filter_map(product).collect()
}

/// The engine's constants: the places of words, and the sizes of what a book holds.
fn engine() -> Numbers {
    let crates = ["book", "trade_id", "acknowledgment", "tally", "image", "layout"];
    crates.iter().flat_map(|name| constants(&format!("crates/{name}/src/lib.rt"))).collect()
}

/// Of each name, which constants of the engine its number is the sum of.
type Sums<'a> = &'a [(&'a str, &'a [&'a str])];

/// Each number is the sum of the engine's that it is said to be, and each is said to be one.
fn hold(place: &str, numbers: &Numbers, sums: Sums) {
    let engine = engine();
    for (name, parts) in sums {
        let number = numbers.get(*name).unwrap_or_else(|| panic!("{place} has no {name}"));
        let sum: usize = parts.iter().map(|part| engine[*part]).sum();
        assert_eq!(*number, sum, "{name} of {place} against the engine's {}", parts.join(" + "));
    }
    for name in numbers.keys() {
        assert!(
            sums.iter().any(|(known, _)| known == name),
            "{name} of {place} is held against nothing"
        );
    }
}

#[test]
fn the_header_has_the_engines_table() {
    let mut products = products();
    // The stack is measured, and no number of the engine's.
    assert!(products.remove("STACK_BYTES").is_some());
    hold("rhoikandra.h", &products, &[("RECORDS_MAX", &["RECORDS_MAX"])]);
}

#[test]
fn the_wrapper_has_the_engines_sizes() {
    hold(
        "the wrapper's memory",
        &constants("rhoikandra/src/raw.rs"),
        &[("RECORDS_MAX", &["RECORDS_MAX"]), ("LIVE", &["REST", "LIVE"])],
    );
    hold(
        "the wrapper's columns",
        &constants("rhoikandra/src/columns.rs"),
        &[
            ("HEADER_WIDTH", &["HEADER_WIDTH"]),
            ("DETAIL_WIDTH", &["DETAIL_WIDTH"]),
            ("POOLS_MAX", &["POOLS_MAX"]),
        ],
    );
    hold(
        "the comparison",
        &constants("compare/src/wide.rs"),
        &[
            ("LENGTH", &["LENGTH"]),
            ("SELLER", &["SELLER"]),
            ("SETTLEMENT", &["SETTLEMENT"]),
            ("SUBSCRIBER", &["SUBSCRIBER"]),
            ("CEILING", &["CEILING"]),
            ("OUTBOUND", &["OUTBOUND"]),
        ],
    );
}

/// The engine's columns, in the order of its source: name, first byte, width.
fn engine_columns() -> Vec<(String, usize, usize)> {
    let column = |line: &str| {
        let (name, column) =
            line.strip_prefix("pub const ")?.split_once(": Column = Column { at: ")?;
        let (at, width) = column.strip_suffix(" };")?.split_once(", width: ")?;
        Some((name.to_string(), at.parse().unwrap(), width.parse().unwrap()))
    };
    text("crates/layout/src/lib.rt").lines().filter_map(column).collect()
}

/// Every column of the engine, and no other.
#[test]
fn the_wrapper_has_the_engines_columns() {
    let parts = |column: &Column| (column.name.to_string(), column.at, column.width);
    let columns: Vec<_> = HEADER.iter().chain(DETAIL).map(parts).collect();
    assert_eq!(columns, engine_columns());
    assert_eq!(text("crates/layout/src/lib.rt").matches(": Column = ").count(), columns.len());
}

/// They come from the engine's source, and not by hand.
#[test]
fn the_wrappers_columns_are_written_by_the_tool() {
    let top = Path::new(env!("CARGO_MANIFEST_DIR")).join("..");
    let told = Command::new(top.join("tools/columns")).output().expect("tools/columns");
    assert!(told.status.success());
    assert_eq!(String::from_utf8(told.stdout).unwrap(), text("rhoikandra/src/columns.rs"));
}

/// The bytes that start and end a frame.
#[test]
fn the_wrapper_has_the_engines_marks() {
    let engine = text("crates/framing/src/lib.rt");
    for (name, mark) in [("START", rhoikandra::START), ("END", rhoikandra::END)] {
        assert!(engine.lines().any(|line| line == format!("const {name}: u8 = {mark};")), "{name}");
    }
}
