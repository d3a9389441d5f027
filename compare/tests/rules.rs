//! The rules of 41 and 42 stand in `rhoikandra/rules.tsv`: the Rust crate, the rules in docs and the engine's definitions have the same, in the same order.

use std::collections::BTreeMap;
use std::ops::RangeInclusive;
use std::path::Path;

use reference::rule_damage::{OF_BOOK, OF_OPENING};
use rhoikandra::rules::{rule, ALL};
use rhoikandra::Fault;

fn text(path: &str) -> String {
    let file = Path::new(env!("CARGO_MANIFEST_DIR")).join("..").join(path);
    std::fs::read_to_string(&file).unwrap_or_else(|error| panic!("{path}: {error}"))
}

/// A rule's number, what it is about, what must hold, and what to do.
type Row = (u16, [String; 3]);

/// The rows of the file, in its order.
fn rows() -> Vec<Row> {
    let text = text("rhoikandra/rules.tsv");
    let rows = text.strip_prefix("number\tabout\twhat must hold\twhat to do\n").expect("a header");
    let row = |line: &str| {
        let cells: Vec<&str> = line.split('\t').collect();
        let [number, about, holds, remedy] = cells[..] else { panic!("four cells: {line:?}") };
        (number.parse().unwrap(), [about, holds, remedy].map(String::from))
    };
    rows.lines().map(row).collect()
}

fn numbers() -> Vec<u16> {
    rows().into_iter().map(|(number, _)| number).collect()
}

#[test]
fn the_crate_has_the_rules() {
    let crates =
        ALL.map(|rule| (rule.number, [rule.about, rule.holds, rule.remedy].map(String::from)));
    assert_eq!(rows(), crates);
    let numbers = numbers();
    for number in 0..=u16::MAX {
        let found = rule(number).map(|rule| rule.number);
        assert_eq!(found, numbers.contains(&number).then_some(number));
    }
}

/// A fault is told in one line, with its place where it has one.
#[test]
fn a_fault_in_one_line() {
    for (number, [about, holds, remedy]) in rows() {
        let place = match about.as_str() {
            "words" | "book" => String::new(),
            "holiday" | "trade" | "record" => " 7".to_string(),
            other => panic!("no rule is about {other}"),
        };
        assert_eq!(
            Fault { rule: number, place: 7 }.to_string(),
            format!("rule {number}, {about}{place}: {holds}; {remedy}")
        );
    }
    let none = Fault { rule: 7, place: 3 }.to_string();
    assert_eq!(none, "rule 7, place 3: there is no such rule");
}

#[test]
fn the_reference_has_the_rules() {
    let of_words = [101];
    let all = of_words.into_iter().chain(OF_OPENING).chain(OF_BOOK);
    assert_eq!(numbers(), all.collect::<Vec<_>>());
}

/// The faults of a section's table in docs/RULES.md, each with the rule's label; a row may have those of other rows, from one to another.
fn documented(heading: &str) -> Vec<(String, Vec<u16>)> {
    let rules = text("docs/RULES.md");
    let (_, section) = rules.split_once(&format!("\n## {heading}\n")).expect("a section");
    let (section, _) = section.split_once("\n## ").expect("a section after it");
    let row = |line: &str| {
        let cells: Vec<&str> = line.strip_prefix("| **")?.split('|').map(str::trim).collect();
        let [label, _, _, _, fault, ""] = cells[..] else { panic!("five cells: {line}") };
        let faults = fault.split(" to ").map(|number| number.parse().expect("a number"));
        Some((label.trim_matches('*').to_string(), faults.collect()))
    };
    section.lines().filter_map(row).collect()
}

/// Every rule in docs has a row, and every row a rule, in one order; the rules of soundness begin with those of opening.
#[test]
fn the_documented_rules_have_the_numbers() {
    let (opening, soundness) = (documented("4 Opening"), documented("15 A sound book"));
    let (of_values, others) = soundness.split_first().expect("rows");
    let mut all = vec![101];
    all.extend(opening.iter().flat_map(|(_, faults)| faults));
    let (table, values) = (all.pop().unwrap(), &all[1..]);
    assert_eq!(of_values.1, [values[0], values[values.len() - 1]], "{}", of_values.0);
    all.extend(others.iter().flat_map(|(_, faults)| faults));
    assert_eq!(others[0].1, [table], "opening's rule of the table");
    assert_eq!(all, numbers());
    assert!(text("docs/RULES.md").contains("as the first broken rule this is 101"));
}

/// A rule's label in numbers: its section and its place there.
type Label = (u16, u16);

fn label(text: &str) -> Option<Label> {
    let (section, place) = text.strip_prefix('R')?.split_once('.')?;
    Some((section.parse().ok()?, place.parse().ok()?))
}

/// The rules and sections that a cell names, one by one or from one to another: `R1.1, R2.2 to R2.4, sections 11 to 13`.
fn pointed_at(cell: &str) -> Vec<RangeInclusive<Label>> {
    let part = |part: &str| {
        let part = part.trim();
        let sections = part.strip_prefix("sections ").or(part.strip_prefix("section "));
        let (first, last) = match sections.unwrap_or(part).split_once(" to ") {
            Some(ends) => ends,
            None => (sections.unwrap_or(part), sections.unwrap_or(part)),
        };
        let end = |text: &str, place| match sections {
            Some(_) => text.parse().ok().map(|section| (section, place)),
            None => label(text),
        };
        end(first, 0).zip(end(last, u16::MAX)).unwrap_or_else(|| panic!("no rule: {part}"))
    };
    cell.split(',').map(part).map(|(first, last)| first..=last).collect()
}

/// Every rule in docs/RULES.md is in the first cell of a row in docs/TRACE.md, and every such cell names rules that are there.
#[test]
fn every_rule_is_traced() {
    let (rules, trace) = (text("docs/RULES.md"), text("docs/TRACE.md"));
    let labels: Vec<Label> = rules.split("**").filter_map(label).collect();
    assert!(labels.len() > 100, "{} rules", labels.len());
    let mut pointed = Vec::new();
    for table in trace.split("\n| rule |").skip(1) {
        let rows = table.lines().skip(2).take_while(|line| line.starts_with('|'));
        let cells = rows.map(|row| row.split('|').nth(1).expect("a cell").trim());
        pointed.extend(cells.filter(|cell| !cell.is_empty()).flat_map(pointed_at));
    }
    for rules in &pointed {
        assert!(labels.iter().any(|label| rules.contains(label)), "{rules:?} are no rules");
    }
    for label in labels {
        assert!(pointed.iter().any(|rules| rules.contains(&label)), "{label:?} is not traced");
    }
}

/// The bodies of a file's definitions, by their names.
fn definitions(path: &str) -> BTreeMap<String, String> {
    let text = text(path);
    let mut bodies = BTreeMap::new();
    for part in text.split(" pub ").skip(1) {
        let (signature, body) = part.split_once('\n').expect("a body");
        let (name, _) = signature.split_once(" : ").expect("a type");
        let body: Vec<&str> = body.lines().filter(|line| !line.starts_with("--")).collect();
        bodies.insert(name.to_string(), body.join("\n"));
    }
    bodies
}

/// The numbers that a definition asks, in its order, those of the definitions that it names among them.
fn asked(name: &str, definitions: &BTreeMap<String, String>, numbers: &mut Vec<u16>) {
    let words = definitions[name].split(|c: char| c.is_whitespace() || "()".contains(c));
    let words: Vec<&str> = words.filter(|word| !word.is_empty()).collect();
    for (place, word) in words.iter().enumerate() {
        if *word == "test" {
            numbers.push(words[place + 1].parse().expect("a rule's number"));
        } else if *word != name && word.ends_with("_fault") {
            asked(word, definitions, numbers);
        }
    }
}

/// The engine's definitions ask the rules in the file's order, opening's a part of them.
#[test]
fn the_definitions_have_the_numbers() {
    let mut all = definitions("crates/fault/specs/Faults.antt");
    all.extend(definitions("crates/calls_words/specs/Faults.antt"));
    let of = |name: &str| {
        let mut numbers = Vec::new();
        asked(name, &all, &mut numbers);
        numbers
    };
    assert_eq!(of("book_fault_in"), numbers());
    assert_eq!(of("opening_fault_in"), [&[101], &OF_OPENING[..]].concat());
    let written = all.values().map(|body| body.matches("test ").count()).sum::<usize>();
    assert_eq!(written, numbers().len() + 1, "101 stands in both calls' definitions");
}
