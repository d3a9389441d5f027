//! A book that is kept as README says: what a crash leaves at each step, and that no number goes out for two messages.

use std::collections::BTreeMap;
use std::fs::{self, File};
use std::io::{self, Write};
use std::path::{Path, PathBuf};

use compare::cases::Cases;
use compare::engine::{held, opening};
use reference::columns::SEQUENCE;
use reference::desk::{pool, Desk};
use reference::draft::Draft;
use rhoikandra::saved::size;
use rhoikandra::{Answer, Book};

const RECORDS: usize = 64;
const TIME: &[u8; 6] = b"093000";

/// The columns of an AA that tell its outbound number and its message ID; a TX has the first too.
const OUTBOUND: std::ops::Range<usize> = 3..9;
const MESSAGE_ID: std::ops::Range<usize> = 36..47;
const AA_BYTES: usize = 64;

/// A file with a saved book and the bytes that its last call wrote.
struct Kept(PathBuf);

impl Kept {
    fn new(name: &str, book: &Book) -> Kept {
        let folder = Path::new(env!("CARGO_TARGET_TMPDIR")).join(name);
        fs::create_dir_all(&folder).unwrap();
        let kept = Kept(folder.join("book"));
        kept.write(book, b"").and_then(|()| kept.rename()).unwrap();
        kept
    }

    fn next(&self) -> PathBuf {
        self.0.with_extension("next")
    }

    /// Step 1: into a new file, and that on the disk.
    fn write(&self, book: &Book, to_send: &[u8]) -> io::Result<()> {
        let mut file = File::create(self.next())?;
        file.write_all(&book.save())?;
        file.write_all(to_send)?;
        file.sync_all()
    }

    /// Step 2: in the place of the last one, and the folder on the disk.
    fn rename(&self) -> io::Result<()> {
        fs::rename(self.next(), &self.0)?;
        File::open(self.0.parent().unwrap())?.sync_all()
    }

    /// What a program finds that starts again: the book, and the bytes to send again.
    fn found(&self) -> (Book, Vec<u8>) {
        let mut book = fs::read(&self.0).unwrap();
        let to_send = book.split_off(size(RECORDS));
        (Book::load(&book).expect("a saved book"), to_send)
    }
}

/// A desk that takes ONs of one small pool, each with another sequence, and its book.
fn desk() -> (Desk, Book) {
    let desk = Desk::open(&reference::day::opening_values(), RECORDS);
    let book = opening(&desk.book.values).open(RECORDS).unwrap();
    assert!(book == held(&desk.book, &desk.table));
    (desk, book)
}

fn on(desk: &Desk, sequence: u64) -> Vec<u8> {
    let mut on: Draft = desk.on(0, 0, &[(pool(sequence, 500), b"0999")]);
    on.put_number(SEQUENCE, sequence);
    on.body()
}

/// The frames that bytes on the line are.
fn frames(sent: &[u8]) -> Vec<&[u8]> {
    let aa = sent.len() - AA_BYTES.min(sent.len());
    [&sent[..aa], &sent[aa..]].into_iter().filter(|frame| !frame.is_empty()).collect()
}

fn message_id(sent: &[u8]) -> &[u8] {
    &sent[sent.len() - AA_BYTES..][MESSAGE_ID]
}

/// The book is as it was before the frame, and the frame, sent again, gets what it would have got.
#[test]
fn a_crash_before_the_rename() {
    let (desk, before) = desk();
    let kept = Kept::new("crash_before", &before);
    let mut book = before.clone();
    let stepped = book.step(&on(&desk, 1), TIME);
    kept.write(&book, stepped.to_send()).unwrap();

    let (mut found, to_send) = kept.found();
    assert!(found == before && to_send.is_empty());
    assert_eq!(found.step(&on(&desk, 1), TIME), stepped);
    assert!(found == book);
}

/// The book has moved, and the bytes that were not sent are there; the same frame again gets 12 and no message ID.
#[test]
fn a_crash_after_the_rename() {
    let (desk, before) = desk();
    let kept = Kept::new("crash_after", &before);
    let mut book = before.clone();
    let stepped = book.step(&on(&desk, 1), TIME);
    kept.write(&book, stepped.to_send()).unwrap();
    kept.rename().unwrap();

    let (mut found, to_send) = kept.found();
    assert!(found == book && to_send == stepped.to_send());
    assert_eq!(message_id(&to_send), b"00000000001");
    let again = found.step(&on(&desk, 1), TIME);
    assert_eq!(again.answer, Answer::Rejected(12));
    assert_eq!(message_id(again.to_send()), [b' '; 11]);
    assert_eq!(found.step(&on(&desk, 2), TIME).answer, Answer::Accepted(2));
}

/// An older frame that comes again is a gap, which a TX tells, and is processed again.
#[test]
fn only_the_number_received_last_is_a_duplicate() {
    let (desk, mut book) = desk();
    for sequence in [1, 2] {
        let stepped = book.step(&on(&desk, sequence), TIME);
        assert_eq!(
            (stepped.answer, stepped.to_send().len()),
            (Answer::Accepted(sequence), AA_BYTES)
        );
    }
    let stepped = book.step(&on(&desk, 1), TIME);
    assert_eq!(stepped.answer, Answer::Accepted(3));
    assert_eq!(frames(stepped.to_send()).len(), 2);
    assert_eq!(book.live_pools().len(), 3);
}

/// Where a program ends while it works at a frame.
#[derive(Clone, Copy)]
enum Crash {
    Called,
    Written,
    Renamed,
    Sent,
}

/// Days with crashes at any step: whoever has no AA sends again, and no number goes out for two messages.
#[test]
fn no_number_goes_out_twice() {
    let mut cases = Cases::of("frames with crashes");
    for _ in 0..20 {
        let (desk, mut book) = desk();
        let kept = Kept::new("crashes", &book);
        let mut numbers: BTreeMap<Vec<u8>, Vec<u8>> = BTreeMap::new();
        let mut ids = numbers.clone();
        let mut send = |sent: &[u8]| {
            for frame in frames(sent) {
                let other = numbers.insert(frame[OUTBOUND].to_vec(), frame.to_vec());
                assert!(
                    other.is_none_or(|other| other == frame),
                    "an outbound number for two frames"
                );
                if frame.len() == AA_BYTES && frame[MESSAGE_ID] != [b' '; 11] {
                    let other = ids.insert(frame[MESSAGE_ID].to_vec(), frame.to_vec());
                    assert!(
                        other.is_none_or(|other| other == frame),
                        "a message ID for two messages"
                    );
                }
            }
        };
        for sequence in 1..=12 {
            // Sometimes one is left out, and is a gap.
            let sequence = if cases.random.percent(10) { sequence + 100 } else { sequence };
            loop {
                let crash = cases.random.pick(&[
                    None,
                    Some(Crash::Called),
                    Some(Crash::Written),
                    Some(Crash::Renamed),
                    Some(Crash::Sent),
                ]);
                let stepped = book.step(&on(&desk, sequence), TIME);
                cases.count();
                if !matches!(crash, Some(Crash::Called)) {
                    kept.write(&book, stepped.to_send()).unwrap();
                }
                if !matches!(crash, Some(Crash::Called | Crash::Written)) {
                    kept.rename().unwrap();
                }
                if matches!(crash, None | Some(Crash::Sent)) {
                    send(stepped.to_send());
                }
                if crash.is_none() {
                    break;
                }
                let (found, to_send) = kept.found();
                send(&to_send);
                book = found;
                if matches!(crash, Some(Crash::Renamed | Crash::Sent)) {
                    break;
                }
            }
        }
        assert_eq!(ids.len(), book.live_pools().len(), "each accepted message has told its ID");
    }
}
