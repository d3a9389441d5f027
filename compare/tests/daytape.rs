//! Whole days: the proved program daytape beside the reference, on the tapes of `vectors/`, on random tapes and on damaged ones.

use std::fs;
use std::io::Write;
use std::path::{Path, PathBuf};
use std::process::{Command, Stdio};

use compare::cases::Cases;
use reference::day::{lines, TAPE_MAX};
use reference::generator::{tape, Random};

fn top() -> PathBuf {
    Path::new(env!("CARGO_MANIFEST_DIR")).join("..")
}

/// What the proved program prints for a tape.
fn printed(tape: &[u8]) -> String {
    let mut program = Command::new(top().join("target/bin/daytape"))
        .stdin(Stdio::piped())
        .stdout(Stdio::piped())
        .spawn()
        .expect("the gate builds target/bin/daytape");
    // A program that has read its 64 KiB may close the pipe.
    let _ = program.stdin.take().unwrap().write_all(tape);
    String::from_utf8(program.wait_with_output().unwrap().stdout).unwrap()
}

/// The reference looks at the first 64 KiB too.
fn expected(tape: &[u8]) -> String {
    lines(&tape[..tape.len().min(TAPE_MAX)])
}

fn damaged(tape: &mut [u8], random: &mut Random) {
    const BYTES: &[u8] = b"0123456789 67AX=\x02\x03";
    for _ in 0..random.between(1, 6) {
        let at = random.below(tape.len() as u64) as usize;
        tape[at] = BYTES[random.below(BYTES.len() as u64) as usize];
    }
}

#[test]
fn nothing_at_all() {
    assert_eq!(printed(b""), "day 0 0\ntrade T1 200000000 0\n");
}

#[test]
fn the_tapes_of_the_vectors() {
    let mut met = 0;
    for entry in fs::read_dir(top().join("vectors")).unwrap() {
        let path = entry.unwrap().path();
        if path.extension().is_some_and(|kind| kind == "bin") {
            let told = fs::read_to_string(path.with_extension("out")).unwrap();
            assert_eq!(printed(&fs::read(&path).unwrap()), told, "{path:?}");
            met += 1;
        }
    }
    assert!(met >= 10, "{met} tapes");
}

/// What README says that its first commands print.
#[test]
fn the_lines_of_the_readme() {
    let readme = fs::read_to_string(top().join("README.md")).unwrap();
    let tape = "vectors/tape-2003.bin";
    assert_eq!(readme.matches(&format!("< {tape}\n")).count(), 2);
    let lines = printed(&fs::read(top().join(tape)).unwrap());
    let shown: String = lines.lines().map(|line| format!("    {line}\n")).collect();
    assert!(readme.contains(&format!("\n\n{shown}\n")), "{shown}");
    let nothing: Vec<String> = printed(b"").lines().map(|line| format!("`{line}`")).collect();
    assert!(readme.contains(&nothing.join(" and ")), "{nothing:?}");
}

#[test]
fn random_tapes_whole_and_damaged() {
    let mut cases = Cases::of("random tapes, whole and damaged");
    let mut accepted = 0;
    for _ in 0..600 {
        let seed = cases.random.below(1 << 40);
        let mut tape = tape(seed);
        if !tape.is_empty() && cases.random.percent(50) {
            damaged(&mut tape, &mut cases.random);
        }
        let told = expected(&tape);
        assert_eq!(printed(&tape), told, "the tape of seed {seed}");
        accepted += told.split(' ').nth(1).unwrap().parse::<u64>().unwrap();
        cases.count();
    }
    assert!(accepted > 1_000, "{accepted} messages accepted");
}
