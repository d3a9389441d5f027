//! Replays the sample days and tapes of the repository's `vectors/`, line by line.

use std::io::Write;
use std::path::{Path, PathBuf};
use std::process::{Command, Stdio};

use reference::day;
use reference::generator;
use reference::script;

fn vectors() -> PathBuf {
    Path::new(env!("CARGO_MANIFEST_DIR")).join("../vectors")
}

#[test]
fn every_line_of_the_days() {
    let text = std::fs::read_to_string(vectors().join("days.txt")).unwrap();
    let sample: Vec<&str> = text.lines().collect();
    let mut replayed = 0;
    for of_day in sample.split_inclusive(|line| *line == "end") {
        let day = script::read(of_day).expect("a sample day is in form");
        let lines = script::lines(&day);
        for (at, (ours, sample)) in lines.iter().zip(of_day).enumerate() {
            assert_eq!(ours, sample, "day {}, its line {at}", day.seed);
        }
        assert_eq!(lines.len(), of_day.len(), "day {}", day.seed);
        replayed += lines.len();
    }
    assert_eq!(replayed, sample.len());
    assert!(replayed > 10_000, "the sample was there to read");
}

#[test]
fn a_script_reads_back_as_its_day() {
    for seed in 0..50 {
        let day = generator::day(seed);
        let lines = script::lines(&day);
        let read = script::read(&lines.iter().map(String::as_str).collect::<Vec<_>>()).unwrap();
        assert_eq!(format!("{read:?}"), format!("{day:?}"));
    }
}

fn tapes() -> Vec<(Vec<u8>, String)> {
    let mut tapes = Vec::new();
    for entry in std::fs::read_dir(vectors()).unwrap() {
        let path = entry.unwrap().path();
        if path.extension().is_some_and(|extension| extension == "bin") {
            let printed = std::fs::read_to_string(path.with_extension("out")).unwrap();
            tapes.push((std::fs::read(&path).unwrap(), printed));
        }
    }
    assert!(tapes.len() >= 10);
    tapes
}

#[test]
fn every_tape_by_the_library() {
    for (tape, printed) in tapes() {
        assert_eq!(day::lines(&tape), printed);
    }
}

fn daytape(input: &[u8]) -> String {
    let mut child = Command::new(env!("CARGO_BIN_EXE_daytape"))
        .stdin(Stdio::piped())
        .stdout(Stdio::piped())
        .spawn()
        .unwrap();
    // A program that has read its 64 KiB may close the pipe before all is written.
    let _ = child.stdin.take().unwrap().write_all(input);
    let output = child.wait_with_output().unwrap();
    assert!(output.status.success());
    String::from_utf8(output.stdout).unwrap()
}

#[test]
fn every_tape_by_the_program() {
    for (tape, printed) in tapes() {
        assert_eq!(daytape(&tape), printed);
    }
}

#[test]
fn the_program_on_empty_input() {
    assert_eq!(daytape(b""), "day 0 0\ntrade T1 200000000 0\n");
    assert_eq!(daytape(b"\x02\x03"), "day 0 1\ntrade T1 200000000 0\n");
}

#[test]
fn the_program_reads_64_kib_and_no_more() {
    let mut tape = vec![b'.'; day::TAPE_MAX - 2];
    tape.extend_from_slice(b"\x02\x03");
    assert_eq!(daytape(&tape), "day 0 1\ntrade T1 200000000 0\n");
    tape.insert(0, b'.');
    assert_eq!(daytape(&tape), "day 0 0\ntrade T1 200000000 0\n");
}
