//! The numbers stand in `rhoikandra/numbers.tsv`: the Rust crate, README's table and the engine's checks have the same.

use std::path::Path;

use reference::answer::{OPENING, SILENT};
use rhoikandra::numbers::{ALL, TIME_REFUSED};
use rhoikandra::Number;

fn text(path: &str) -> String {
    let file = Path::new(env!("CARGO_MANIFEST_DIR")).join("..").join(path);
    std::fs::read_to_string(&file).unwrap_or_else(|error| panic!("{path}: {error}"))
}

/// A number, its cause, who acts on it, and what to do.
type Row = (Number, [String; 3]);

fn row(cells: Vec<&str>) -> Row {
    let [number, cause, acts, remedy] = cells[..] else { panic!("four cells: {cells:?}") };
    (number.parse().unwrap(), [cause, acts, remedy].map(String::from))
}

/// The rows of the file, in its order.
fn rows() -> Vec<Row> {
    let text = text("rhoikandra/numbers.tsv");
    let rows = text.strip_prefix("number\tcause\twho acts\twhat to do\n").expect("a header");
    rows.lines().map(|line| row(line.split('\t').collect())).collect()
}

/// The crate has the paper's, and the one that is not the paper's stands after them.
#[test]
fn the_crate_has_the_numbers() {
    let mut rows = rows();
    assert_eq!(rows.pop().unwrap().0, TIME_REFUSED);
    let crates = ALL.map(|meaning| {
        (meaning.number, [meaning.cause, meaning.acts, meaning.remedy].map(String::from))
    });
    assert_eq!(rows, crates);
}

/// README sorts them.
#[test]
fn the_table_of_the_readme_has_the_numbers() {
    let readme = text("README.md");
    let (_, section) = readme.split_once("\n## The numbers\n").expect("a section of numbers");
    let (section, _) = section.split_once("\n## ").expect("a section after it");
    let cells = |line: &'_ str| line.starts_with("| ").then(|| line.trim_matches('|').to_string());
    let table: Vec<String> = section.lines().filter_map(cells).collect();
    let (header, table) = table.split_first().expect("a header");
    assert_eq!(header, " number | cause | who acts | what to do ");
    let table: Vec<Row> =
        table.iter().map(|line| row(line.split('|').map(str::trim).collect())).collect();
    let mut sorted = rows();
    sorted.sort();
    assert_eq!(table, sorted);
}

/// A check of the engine by its definition: its number, who causes it, whether it is silent.
fn checks() -> Vec<(Number, String, bool)> {
    let text = text("crates/book/specs/Checks.antt");
    let check = |line: &str| {
        let line = line.trim_start().trim_start_matches("∷ ").strip_prefix("check ")?;
        let [number, by, told, ..] = line.split(' ').collect::<Vec<_>>()[..] else { return None };
        let number = number.parse().ok()?;
        Some((number, by.strip_prefix("by.")?.to_string(), told == "silent"))
    };
    text.lines().filter_map(check).collect()
}

/// Every check has a row, in the order of the checks; only opening and the time bytes have one without a check.
#[test]
fn the_checks_have_the_numbers() {
    let rows = rows();
    let judged = rows.iter().filter(|(number, _)| ![OPENING, TIME_REFUSED].contains(number));
    let judged: Vec<(Number, String)> =
        judged.map(|(number, [_, acts, _])| (*number, acts.clone())).collect();
    let acts = |by: &str| match by {
        "Operator" => "operator",
        "Line" => "line",
        "Sender" => "sender's system",
        "Trader" => "trader",
        other => panic!("nobody acts for {other}"),
    };
    let checks = checks();
    let given: Vec<(Number, String)> =
        checks.iter().map(|(number, by, _)| (*number, acts(by).to_string())).collect();
    assert_eq!(judged, given);
    let silent = checks.iter().filter(|(.., silent)| *silent).map(|(number, ..)| *number);
    assert!(silent.clone().all(|number| SILENT.contains(&number)));
    assert_eq!(silent.count(), SILENT.len());
}

/// The engine's array of the numbers that an AA tells: those of the checks that are not silent.
#[test]
fn the_array_of_told_numbers_has_them() {
    let text = text("crates/exports_numbers/src/lib.rt");
    let (_, array) = text.split_once("const TOLD: [u64; ").expect("the array of told numbers");
    let (_, array) = array.split_once("= [").unwrap();
    let (array, _) = array.split_once("];").unwrap();
    let told: Vec<Number> =
        array.split(',').filter_map(|number| number.trim().parse().ok()).collect();
    let checks = checks().into_iter().filter(|(.., silent)| !silent);
    assert_eq!(told, checks.map(|(number, ..)| number).collect::<Vec<_>>());
}
