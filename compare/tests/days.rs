//! Whole days through the exported engine and the reference: every answer, every output byte, every record, every counter
//! and the tally.

use std::collections::BTreeMap;
use std::path::Path;

use compare::cases::Cases;
use compare::engine::{fill_opened, fill_past, told, words, words_after};
use compare::earlier::{self as rhoikandra, held, same_table, Tally};
use reference::answer::{Answer, Number, OPENING, SILENT, UNSOUND_BOOK};
use reference::book::{Book, PoolRecord};
use reference::damage::{scribble, sound_book, Lent, BOOK_DAMAGES, OPENING_DAMAGES};
use reference::desk::{pool, Desk};
use reference::draft::DraftPool;
use reference::frame_call::frame_call;
use reference::generator::{day, Day, Random};
use reference::history::History;
use reference::opening::CENTS_MAX;
use reference::pool_detail::MatchedFields;
use reference::script;

/// How often each code was met, 0 for accepted, and how often a full cell of the tally stayed full.
#[derive(Debug, Default)]
struct Met {
    codes: BTreeMap<Number, u64>,
    full: u64,
}

impl Met {
    fn times(&self, code: Number) -> u64 {
        self.codes.get(&code).copied().unwrap_or(0)
    }
}

const FRAMES: u64 = 200_000;
const LONGER: &str = "COMPARE_FRAMES";
/// Every number that a frame can get from a sound book, and 0 for accepted.
const CODES: [Number; 29] = [
    0, 10, 11, 12, 13, 14, 15, 16, 17, 18, 19, 20, 21, 22, 23, 24, 25, 30, 31, 32, 33, 34, 35, 36,
    37, 38, 40, 43, 44,
];

/// A tally to begin with: mostly empty, else with cells full or nearly so.
fn any_tally(random: &mut Random) -> Tally {
    let mut tally = Tally::default();
    if random.percent(30) {
        for cell in tally.rows.iter_mut().flatten() {
            *cell = random.pick(&[0, 7, u32::MAX - 3, u32::MAX - 1, u32::MAX]);
        }
    }
    tally
}

/// Puts one call to both, from the same state, and compares all that it leaves.
fn both(
    client: &mut rhoikandra::Book,
    book: &mut Book,
    table: &mut [PoolRecord],
    tally: &mut Tally,
    random: &mut Random,
    call: (&[u8; 6], usize, &[u8]),
    met: &mut Met,
) {
    let (time, length, body) = call;
    let mut out = random.bytes(length);
    let mut output = out.clone();
    // What stands past the trades and the holidays is no call's to ask.
    if random.percent(5) {
        fill_past(&mut client.words, &book.values, || random.number());
    }
    let before_words = client.words.clone();
    let rhoikandra::Stepped { answer: said, written } =
        client.step_by(random.number(), body, time, &mut out);
    let answer = told(said);
    let before = tally.rows;
    tally.count(body, said);
    let step = frame_call(book, table, &mut output, time, body, before);
    assert_eq!(answer, step.answer);
    assert_eq!(tally.rows, step.tally, "the tallies differ after {answer:?}");
    let of_four = [b"ON", b"CC", b"DK", b"CX"].iter().any(|kind| body.starts_with(*kind));
    if SILENT.contains(&answer.code()) || !of_four {
        assert_eq!(tally.rows, before, "{answer:?} is not in the tally");
    } else if tally.rows == before {
        assert!(
            before.iter().flatten().any(|cell| *cell == u32::MAX),
            "{answer:?} is in the tally"
        );
        met.full += 1;
    }
    if answer == Answer::Accepted {
        assert_eq!(said, rhoikandra::Answer::Accepted(book.values.last_message_id));
    }
    assert_eq!(out, output);
    let own = match SILENT.contains(&answer.code()) {
        true => 0,
        false if output[1..].starts_with(b"TX") => 217,
        false => 64,
    };
    assert_eq!(written, own, "the bytes to send after {answer:?}");
    let silent = SILENT.contains(&answer.code());
    assert_eq!(client.words, words_after(book, &before_words, answer, silent));
    assert!(same_table(client, table), "the tables differ after {answer:?}");
    *met.codes.entry(answer.code()).or_default() += 1;
}

/// A day from its opening to its figures.
fn whole(day: &Day, cases: &mut Cases, met: &mut Met) {
    let mut table = vec![PoolRecord::EMPTY; day.records];
    let mut book = reference::opening::open(&day.opening, &mut table).expect("an opening in range");
    // Opening sets open pars, line and live pools itself, whatever the words say of them, and zeroes what stands past the counts, and the table.
    let used = cases.random.percent(30);
    let lent: Vec<PoolRecord> = table
        .iter()
        .map(|&record| if used { any_record(&mut cases.random) } else { record })
        .collect();
    let mut client = held(&book, &lent);
    if cases.random.percent(30) {
        fill_past(&mut client.words, &day.opening, || cases.random.number());
        fill_opened(&mut client.words, || cases.random.number());
    }
    assert_eq!(client.open(), Ok(()), "the day of seed {}", day.seed);
    assert_eq!(client.words, words(&book));
    assert!(same_table(&client, &table), "the table is zeros after opening");
    let mut tally = any_tally(&mut cases.random);
    for call in &day.calls {
        // A book that was written down and read again is the same book.
        if cases.random.percent(2) {
            client = rhoikandra::Book::load(&client.save()).expect("a saved book");
        }
        let lent = (&call.time, call.output_length, &call.body[..]);
        both(&mut client, &mut book, &mut table, &mut tally, &mut cases.random, lent, met);
        cases.count();
    }
    for trade in 0..day.opening.trades.len() + 2 {
        let figures = client.figures(trade);
        assert_eq!(figures.is_some(), trade < day.opening.trades.len());
        if let Some(figures) = figures {
            assert_eq!(figures.open_par, book.open_par_cents[trade]);
            assert_eq!(
                u128::from(figures.standing_millions),
                book.standing_millions(&table, trade)
            );
        }
    }
}

/// The reference's own tests hold it to every line of these days.
#[test]
fn the_days_of_the_vectors() {
    let mut cases = Cases::of("the days of the vectors");
    let path = Path::new(env!("CARGO_MANIFEST_DIR")).join("../vectors/days.txt");
    let text = std::fs::read_to_string(path).unwrap();
    let lines: Vec<&str> = text.lines().collect();
    let mut met = Met::default();
    for of_day in lines.split_inclusive(|line| *line == "end") {
        whole(&script::read(of_day).expect("a sample day is in form"), &mut cases, &mut met);
    }
    assert!(met.codes.values().sum::<u64>() > 500, "{met:?}");
}

#[test]
fn random_days() {
    let mut cases = Cases::of("random days");
    let frames = std::env::var(LONGER).map_or(FRAMES, |n| n.parse().expect("a number of frames"));
    let mut met = Met::default();
    let mut count = 0;
    while count < frames {
        let day = day(cases.random.below(1 << 40));
        whole(&day, &mut cases, &mut met);
        count += day.calls.len() as u64;
    }
    println!("met in random days: {met:?}");
    for code in CODES {
        assert!(met.times(code) >= 50, "{code} was met too seldom: {met:?}");
    }
    assert!(met.full >= 50, "full cells were met too seldom: {met:?}");
}

/// The rows of a call that is made on few of them: the live pools and the pools of its message.
const FEW_ROWS: u64 = 512;

/// Live pools and pools of a message whose sum lies on either side of the few rows, on tables that hold them just so or not.
#[test]
fn on_either_side_of_few_rows() {
    let mut cases = Cases::of("either side of few rows");
    let mut met = Met::default();
    let mut values = reference::day::opening_values();
    values.trades[0].par_cents = CENTS_MAX;
    for brings in [1, 2, 100, 250] {
        for sum in FEW_ROWS - 2..=FEW_ROWS + 2 {
            for records in [sum - 1, sum, sum + 1, 4096] {
                let mut desk = Desk::open(&values, records as usize);
                let mut next = 0;
                let mut pools = |count: u64| {
                    next += count;
                    (next - count..next).map(|number| pool(number, 100)).collect::<Vec<_>>()
                };
                let ends = |pools: Vec<DraftPool>| {
                    pools.into_iter().map(|pool| (pool, b"0999")).collect::<Vec<_>>()
                };
                for left in [250, 250, (sum - brings).saturating_sub(500)] {
                    let count = left.min(sum - brings - desk.book.live_count as u64);
                    if count > 0 {
                        assert_eq!(
                            desk.send(&desk.on(0, 0, &ends(pools(count)))),
                            Answer::Accepted
                        );
                    }
                }
                assert_eq!(desk.book.live_count as u64, sum - brings);
                let new = pools(brings);
                let bodies = [
                    desk.on(0, 0, &ends(new.clone())).body(),
                    desk.dk(0, 1, &[pool(0, 100), pool(7, 100)]).body(),
                    desk.cc(0, 1, &[(pool(3, 100), b"6999"), (new[0].clone(), b"7999")]).body(),
                ];
                for body in &bodies {
                    let (mut book, mut table) = (desk.book.clone(), desk.table.clone());
                    let mut client = held(&book, &table);
                    let mut tally = any_tally(&mut cases.random);
                    let call = (b"093000", 217, &body[..]);
                    both(
                        &mut client,
                        &mut book,
                        &mut table,
                        &mut tally,
                        &mut cases.random,
                        call,
                        &mut met,
                    );
                    cases.count();
                }
            }
        }
    }
    assert!(met.times(0) > 200 && met.times(40) > 15 && met.codes.len() == 2, "{met:?}");
}

/// An ON, a DK and a CC that the sound book takes.
fn on_the_sound_book() -> Vec<Vec<u8>> {
    let (book, table) = sound_book();
    let history = History::new(&book.values);
    let desk = Desk { book, table, history, tally: Default::default(), wrote: Vec::new() };
    let live = |place: usize| {
        let PoolRecord { matched, current_face_cents, .. } = desk.table[place];
        DraftPool { matched, current_face_cents }
    };
    vec![
        desk.on(0, 0, &[(pool(9, 5), b"0999")]).body(),
        desk.dk(0, 1, &[live(3), live(4)]).body(),
        desk.cc(0, 1, &[(live(2), b"6002"), (pool(9, 200_000_000), b"7002")]).body(),
    ]
}

#[test]
fn damaged_books() {
    let mut cases = Cases::of("damaged books");
    let mut met = Met::default();
    for _ in 0..20 {
        let calls = day(cases.random.below(1 << 40)).calls;
        for (name, damage) in BOOK_DAMAGES {
            let body = cases.random.pick(&calls).body;
            let (mut book, mut table) = sound_book();
            damage(&mut book, &mut table);
            let mut client = held(&book, &table);
            let before = client.clone();
            let mut out = cases.random.bytes(217);
            let kept = out.clone();
            let answer = client.step(&body, b"000000", &mut out).answer;
            assert_eq!(told(answer), Answer::Rejected(UNSOUND_BOOK), "{name}");
            assert_eq!(client.figures(0), None, "{name}");
            assert!(client == before && out == kept, "{name}: something moved");
            cases.count();
        }
    }
    let bodies: Vec<Vec<u8>> = (0..40)
        .flat_map(|_| day(cases.random.below(1 << 40)).calls)
        .map(|call| call.body)
        .chain(on_the_sound_book().into_iter().cycle().take(1_000))
        .collect();
    for _ in 0..4_000 {
        let body = cases.random.pick(&bodies);
        let (mut book, mut table) = sound_book();
        for _ in 0..cases.random.between(1, 2) {
            scribble(&mut cases.random, &mut book, &mut table);
        }
        let mut client = held(&book, &table);
        let mut tally = any_tally(&mut cases.random);
        let call = (b"235959", 217, &body[..]);
        both(&mut client, &mut book, &mut table, &mut tally, &mut cases.random, call, &mut met);
        cases.count();
    }
    println!("met on scribbled books: {met:?}");
    assert!(met.times(UNSOUND_BOOK) > 1_000 && met.times(0) > 50 && met.codes.len() > 5, "{met:?}");
}

/// Whatever the seed, a call answers and leaves the same.
#[test]
fn any_seed() {
    let mut cases = Cases::of("any seed");
    let (book, table) = sound_book();
    let before = held(&book, &table);
    for body in on_the_sound_book() {
        let (mut after, mut wrote) = (before.clone(), [0; 217]);
        let answer = after.step_by(0, &body, b"093000", &mut wrote);
        for _ in 0..1_000 {
            let seed = cases.random.number();
            let (mut client, mut out) = (before.clone(), [0; 217]);
            assert_eq!(client.step_by(seed, &body, b"093000", &mut out), answer, "seed {seed}");
            assert!(client == after && out == wrote, "seed {seed}");
            assert_eq!(client.figures_by(seed, 0), after.figures_by(0, 0), "seed {seed}");
            cases.count();
        }
    }
}

/// One number or one byte that is not 0, in any record after the live ones.
#[test]
fn one_place_after_the_live_pools() {
    let mut cases = Cases::of("one place after the live pools");
    let body = day(7).calls[0].body.clone();
    let (book, table) = sound_book();
    for record in book.live_count..table.len() {
        for place in 0..28 {
            let mut client = held(&book, &table);
            let (bit, byte) = (1 << cases.random.below(64), 1 << cases.random.below(8));
            let pool = &mut client.pools[record];
            match place {
                0 => pool.message = bit,
                1 => pool.ordinal = bit,
                2 => pool.trade = bit,
                3 => pool.current = bit,
                4 => pool.kind = bit,
                5 => pool.millions = bit,
                6..=11 => pool.lot[place - 6] = byte,
                12..=18 => pool.pool[place - 12] = byte,
                _ => pool.original[place - 19] = byte,
            }
            let before = client.clone();
            let mut out = cases.random.bytes(217);
            let answer = told(client.step(&body, b"000000", &mut out).answer);
            assert_eq!(answer, Answer::Rejected(UNSOUND_BOOK), "record {record}, place {place}");
            assert!(client == before);
            cases.count();
        }
    }
}

#[test]
fn images_that_are_no_book() {
    let mut cases = Cases::of("images that are no book");
    let body = day(7).calls[0].body.clone();
    let (book, table) = sound_book();
    for _ in 0..3_000 {
        let mut client = held(&book, &table);
        // Whether a number was received, and which.
        let received = client.words.len() - 4;
        match cases.random.below(6) {
            0 => client.words.truncate(cases.random.below(rhoikandra::BOOK_WORDS as u64) as usize),
            1 => client.words.push(0),
            2 => client.words[received..][..2].copy_from_slice(&[0, cases.random.between(1, 9)]),
            3 => client.words[received..][..2].copy_from_slice(&[cases.random.between(2, 9), 0]),
            4 => client.words[received + 1] = 1 << cases.random.between(32, 63),
            _ => {
                let byte = cases.random.below(16) as usize;
                client.words[byte] =
                    256 + cases.random.pick(&[0, 0, 1]) * (cases.random.number() / 2);
            }
        }
        let before = client.clone();
        let mut out = cases.random.bytes(217);
        let kept = out.clone();
        assert_eq!(
            told(client.step(&body, b"000000", &mut out).answer),
            Answer::Rejected(UNSOUND_BOOK)
        );
        assert!(client == before && out == kept);
        cases.count();
    }
}

/// A record with anything in it.
fn any_record(random: &mut Random) -> PoolRecord {
    PoolRecord {
        message_id: random.number(),
        ordinal: random.below(5),
        trade: random.below(3) as usize,
        matched: MatchedFields {
            lot_id: random.text(),
            pool_number: random.text(),
            original_face: random.text(),
        },
        current_face_cents: random.number(),
        kind: random.below(5) as u32,
        lot_millions: random.below(200),
    }
}

#[test]
fn damaged_openings() {
    let mut cases = Cases::of("damaged openings");
    for _ in 0..20 {
        for (name, damage) in OPENING_DAMAGES {
            let (book, _) = sound_book();
            let mut lent = Lent { values: book.values, records: cases.random.below(200) as usize };
            damage(&mut lent);
            let mut table: Vec<PoolRecord> =
                (0..lent.records).map(|_| any_record(&mut cases.random)).collect();
            let shown = Book { values: lent.values.clone(), open_par_cents: Vec::new(), ..book };
            let mut client = held(&shown, &table);
            let before = client.clone();
            assert_eq!(
                reference::opening::open(&lent.values, &mut table).err(),
                Some(OPENING),
                "{name}"
            );
            assert_eq!(client.open(), Err(OPENING), "{name}");
            assert!(client == before, "{name}: something moved");
            assert!(same_table(&client, &table), "{name}: the reference moved something");
            cases.count();
        }
    }
}
