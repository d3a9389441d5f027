//! The places of a book's words: the header for C, the wrapper for Rust and this comparison hold the engine's own constants.

use std::collections::BTreeMap;
use std::path::Path;

use rhoikandra::{Limits, Opening, Trade};

type Numbers = BTreeMap<String, usize>;

fn text(path: &str) -> String {
    let file = Path::new(env!("CARGO_MANIFEST_DIR")).join("..").join(path);
    std::fs::read_to_string(&file).unwrap_or_else(|error| panic!("{path}: {error}"))
}

/// The constants of a source that are given as a numeral, by their names.
fn constants(path: &str) -> Numbers {
    let constant = |line: &str| {
        let line = line.strip_prefix("pub ").unwrap_or(line);
        let (name, number) = line.strip_prefix("const ")?.split_once(": usize = ")?;
        Some((name.to_string(), number.strip_suffix(';')?.parse().ok()?))
    };
    text(path).lines().filter_map(constant).collect()
}

/// The header's numbers, by their names without the library's.
fn defines() -> Numbers {
    let define = |line: &str| {
        let (name, number) = line.strip_prefix("#define RHOIKANDRA_")?.split_once(' ')?;
        Some((name.to_string(), number.parse().ok()?))
    };
    text("rhoikandra/rhoikandra.h").lines().filter_map(define).collect()
}

/// The engine's constants: the places of words, and the sizes of what a book holds.
fn engine() -> Numbers {
    let crates = ["book", "trade_id", "acknowledgment", "tally", "image"];
    crates.iter().flat_map(|name| constants(&format!("crates/{name}/src/lib.rt"))).collect()
}

/// Of each name, which constants of the engine its number is the sum of.
type Sums<'a> = &'a [(&'a str, &'a [&'a str])];

/// Each number is the sum of the engine's that it is said to be, and each is said to be one.
fn hold(place: &str, numbers: &Numbers, sums: Sums) {
    let engine = engine();
    for (name, parts) in sums {
        let number = numbers.get(*name).unwrap_or_else(|| panic!("{place} has no {name}"));
        let sum: usize = parts.iter().map(|part| engine[*part]).sum();
        assert_eq!(*number, sum, "{name} of {place} against the engine's {}", parts.join(" + "));
    }
    for name in numbers.keys() {
        assert!(
            sums.iter().any(|(known, _)| known == name),
            "{name} of {place} is held against nothing"
        );
    }
}

#[test]
fn the_header_has_the_engines_places() {
    hold(
        "rhoikandra.h",
        &defines(),
        &[
            ("BOOK_WORDS", &["BOOK_WORDS"]),
            ("TRADE_WORDS", &["TRADE_WORDS"]),
            ("TRADE_LENGTH", &["LENGTH"]),
            ("TRADE_SELLER", &["SELLER"]),
            ("TRADE_BUYER", &["BUYER"]),
            ("TRADE_CONTRA", &["CONTRA"]),
            ("TRADE_CUSIP", &["CUSIP"]),
            ("TRADE_SETTLEMENT", &["SETTLEMENT"]),
            ("TRADE_PRICE", &["PRICE"]),
            ("TRADE_PAR", &["PAR"]),
            ("TRADE_OPEN_PAR", &["OPEN_PAR"]),
            ("COUNT", &["REST", "TRADE_COUNT"]),
            ("HOLIDAYS", &["REST", "HOLIDAYS"]),
            ("DAYS", &["REST", "HOLIDAY_COUNT"]),
            ("SUBSCRIBER", &["REST", "SUBSCRIBER"]),
            ("CONNECTION", &["REST", "CONNECTION"]),
            ("LIMITS", &["REST", "CEILING"]),
            ("LAST", &["REST", "LAST_MESSAGE_ID"]),
            ("OUTBOUND", &["REST", "OUTBOUND"]),
            ("LIVE", &["REST", "LIVE"]),
            ("OUTPUT_LENGTH", &["TX_LENGTH", "AA_LENGTH"]),
            ("TALLY_ROWS", &["TYPES"]),
        ],
    );
}

#[test]
fn the_wrapper_has_the_engines_sizes() {
    hold(
        "the wrapper",
        &constants("rhoikandra/src/lib.rs"),
        &[("BOOK_WORDS", &["BOOK_WORDS"]), ("OUTPUT_LENGTH", &["TX_LENGTH", "AA_LENGTH"])],
    );
    hold(
        "the wrapper's opening",
        &constants("rhoikandra/src/opening.rs"),
        &[
            ("TRADES_MAX", &["TRADES_MAX"]),
            ("TRADE_WORDS", &["TRADE_WORDS"]),
            ("HOLIDAYS_MAX", &["HOLIDAYS_MAX"]),
            ("ID_MAX", &["ID_LENGTH_MAX"]),
        ],
    );
    hold(
        "the comparison",
        &constants("compare/src/engine.rs"),
        &[
            ("OPEN_PAR", &["OPEN_PAR"]),
            ("TRADE_WORDS", &["TRADE_WORDS"]),
            ("TRADES_MAX", &["TRADES_MAX"]),
            ("REST", &["REST"]),
            ("HOLIDAYS", &["HOLIDAYS"]),
            ("HOLIDAYS_MAX", &["HOLIDAYS_MAX"]),
            ("RECEIVED", &["RECEIVED"]),
        ],
    );
}

/// The wrapper writes the words of an opening one after another: each part begins at its constant, and the next where it ends.
#[test]
fn the_wrapper_writes_to_the_engines_places() {
    let trade = |first: u8| Trade {
        id: vec![first; 9],
        seller: [first + 1; 4],
        buyer: [first + 2; 4],
        contra: [first + 3; 4],
        cusip: [first + 4; 9],
        settlement: u64::from(first) + 5,
        price: u64::from(first) + 6,
        par: u64::from(first) + 7,
    };
    let opening = Opening {
        trades: vec![trade(10), trade(20)],
        holidays: vec![30; 3],
        subscriber: [31; 4],
        connection: [32; 4],
        limits: Limits { ceiling: 33, variance: 34, pools: 35, least: 36 },
        last: 37,
        outbound: 38,
    };
    let (words, engine) = (opening.words(), engine());
    let holds = |base: usize, parts: &[(&str, usize, Vec<u64>)]| {
        let mut place = 0;
        for (name, width, begin) in parts {
            assert_eq!(engine[*name], place, "{name}");
            assert_eq!(words[base + place..][..begin.len()], begin[..], "the words from {name} on");
            place += width;
        }
        place
    };
    let trade_words = holds(
        engine["TRADE_WORDS"],
        &[
            ("ID", engine["ID_LENGTH_MAX"], vec![20; 9]),
            ("LENGTH", 1, vec![9]),
            ("SELLER", 4, vec![21; 4]),
            ("BUYER", 4, vec![22; 4]),
            ("CONTRA", 4, vec![23; 4]),
            ("CUSIP", 9, vec![24; 9]),
            ("SETTLEMENT", 1, vec![25]),
            ("PRICE", 1, vec![26]),
            ("PAR", 1, vec![27]),
            ("OPEN_PAR", 1, vec![27]),
        ],
    );
    assert_eq!(engine["TRADE_WORDS"], trade_words, "TRADE_WORDS");
    assert_eq!(engine["REST"], engine["TRADES_MAX"] * trade_words, "REST");
    let rest_words = holds(
        engine["REST"],
        &[
            ("TRADE_COUNT", 1, vec![2]),
            ("HOLIDAYS", engine["HOLIDAYS_MAX"], vec![30; 3]),
            ("HOLIDAY_COUNT", 1, vec![3]),
            ("SUBSCRIBER", 4, vec![31; 4]),
            ("CONNECTION", 4, vec![32; 4]),
            ("CEILING", 1, vec![33]),
            ("VARIANCE", 1, vec![34]),
            ("POOLS_A_MILLION", 1, vec![35]),
            ("LEAST", 1, vec![36]),
            ("LAST_MESSAGE_ID", 1, vec![37]),
            ("OUTBOUND", 1, vec![38]),
            ("RECEIVED", 1, vec![0]),
            ("NUMBER", 1, vec![0]),
            ("EXPECTED", 1, vec![1]),
            ("LIVE", 1, vec![0]),
        ],
    );
    assert_eq!(engine["REST_WORDS"], rest_words, "REST_WORDS");
    assert_eq!(engine["BOOK_WORDS"], engine["REST"] + rest_words, "BOOK_WORDS");
    assert_eq!(words.len(), engine["BOOK_WORDS"], "the words of an opening");
}
