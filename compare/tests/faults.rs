//! The first broken rule of openings and books, and its place: the engine and the reference name the same, and name one just where 41 and 42 refuse.

use std::collections::BTreeMap;

use compare::cases::Cases;
use compare::engine::{fill_opened, fill_past, opening, raw, told};
use compare::wide::{wide, Wide};
use reference::answer::{Answer, OPENING, UNSOUND_BOOK};
use reference::book::{Book, PoolRecord};
use reference::damage::{scribble, sound_book, Lent, BOOK_DAMAGES, OPENING_DAMAGES};
use reference::fault::{first_of_book, first_of_opening};
use reference::frame_call::frame_call;
use reference::generator::{day, Random};
use reference::opening::{HOLIDAYS_MAX, TABLE_MAX, TRADES_MAX};
use reference::rule_damage::{break_rule, break_several, places, sized, Size, OF_BOOK, OF_OPENING};
use reference::values::OpeningValues;
use rhoikandra::{Fault, Raw, BOOK_WORDS};

/// How often each rule was named, 0 for none.
type Met = BTreeMap<u16, u64>;

/// The rule of words that lend nothing to opening, or are no book's.
const WORDS: u16 = 101;

fn named(fault: Option<Fault>) -> Option<(u16, usize)> {
    fault.map(|Fault { rule, place }| (rule, place))
}

/// Asks both of an opening. The engine is asked through the safe door, and of words that have anything where nothing is asked.
fn of_opening(
    random: &mut Random,
    values: &OpeningValues,
    records: usize,
    met: &mut Met,
) -> Option<(u16, usize)> {
    let lent = opening(values);
    let fault = named(lent.fault(records));
    assert_eq!(fault, first_of_opening(values, records));
    if fault.is_none_or(|(rule, _)| ![102, 103].contains(&rule)) {
        let mut raw = Raw::of(&lent, 0);
        fill_past(&mut raw.words, values, || random.number());
        fill_opened(&mut raw.words, || random.number());
        let before = raw.clone();
        assert_eq!(named(raw.opening_fault(records)), fault);
        assert!(raw == before, "nothing is written");
    }
    let opened = lent.open(records);
    assert_eq!(opened.err(), fault.map(|_| OPENING), "{fault:?}");
    *met.entry(fault.map_or(0, |(rule, _)| rule)).or_default() += 1;
    fault
}

/// Asks both of a book and its table.
fn of_book(
    random: &mut Random,
    book: &Book,
    table: &[PoolRecord],
    met: &mut Met,
) -> Option<(u16, usize)> {
    let mut raw = raw(book, table);
    let values = &book.values;
    if values.trades.len() <= TRADES_MAX && values.holidays.len() <= HOLIDAYS_MAX {
        fill_past(&mut raw.words, values, || random.number());
    }
    let mut client = rhoikandra::Book::from_raw(raw);
    let before = client.clone();
    let fault = named(client.fault());
    assert_eq!(fault, first_of_book(book, table));
    let answer = told(client.step(b"", b"000000").answer);
    assert_eq!(answer == Answer::Rejected(UNSOUND_BOOK), fault.is_some(), "{answer:?} {fault:?}");
    assert!(client == before, "nothing is written");
    if fault.is_some() {
        assert_eq!(client.figures(0), None);
    }
    *met.entry(fault.map_or(0, |(rule, _)| rule)).or_default() += 1;
    fault
}

/// Each rule at the first and the last of its places in a book as full as can be, and anywhere in others: opening's rules in openings and in books.
#[test]
fn each_rule_at_its_places() {
    let mut cases = Cases::of("each rule at its places");
    let mut met = Met::new();
    for rule in OF_OPENING.into_iter().chain(OF_BOOK) {
        for turn in 0..100 {
            let random = &mut cases.random;
            let size = match turn {
                0..4 if rule == 160 => Size::full(TABLE_MAX - random.pick(&[1, 2, TABLE_MAX])),
                0..4 => Size::full(TABLE_MAX),
                _ => Size::any(random),
            };
            let (mut book, mut table) = sized(random, size);
            let (first, count) = places(rule, &book, &table);
            let place = match turn {
                0 | 4 => first,
                1 | 5 => first + count - 1,
                _ => first + random.below(count as u64) as usize,
            };
            break_rule(random, rule, place, &mut book, &mut table);
            assert_eq!(of_book(random, &book, &table, &mut met), Some((rule, place)));
            if OF_OPENING.contains(&rule) {
                let records = match rule {
                    141 => random.pick(&[table.len(), TABLE_MAX + 1, usize::MAX]),
                    _ => table.len(),
                };
                let fault = of_opening(random, &book.values, records, &mut met);
                assert_eq!(fault, Some((rule, place)));
            }
            cases.count();
        }
    }
    println!("rules named: {met:?}");
    for rule in OF_OPENING.into_iter().chain(OF_BOOK) {
        assert!(met[&rule] >= 50, "{rule} was named too seldom: {met:?}");
    }
}

/// A book as full as can be, and one that is all but empty, with nothing wrong in them.
#[test]
fn full_and_empty_books() {
    let mut cases = Cases::of("full and empty books");
    let mut met = Met::new();
    for live in [0, 1, 2, TABLE_MAX - 1, TABLE_MAX] {
        let (book, table) = sized(&mut cases.random, Size::full(live));
        assert_eq!(of_book(&mut cases.random, &book, &table, &mut met), None);
        assert_eq!(of_opening(&mut cases.random, &book.values, TABLE_MAX, &mut met), None);
        let small = Size { trades: 1, holidays: 0, live: live.min(2), records: live.min(2) };
        let (book, table) = sized(&mut cases.random, small);
        assert_eq!(of_book(&mut cases.random, &book, &table, &mut met), None);
        cases.count();
    }
    let (mut book, _) = sound_book();
    book.values.trades.clear();
    book.open_par_cents.clear();
    book.live_count = 0;
    assert_eq!(of_book(&mut cases.random, &book, &[], &mut met), None);
    assert_eq!(of_opening(&mut cases.random, &book.values, 0, &mut met), None);
}

#[test]
fn damaged_openings_and_books() {
    let mut cases = Cases::of("faults of damaged openings and books");
    let mut met = Met::new();
    for _ in 0..50 {
        for (name, damage) in OPENING_DAMAGES {
            let values = sound_book().0.values;
            let mut lent = Lent { values, records: cases.random.below(200) as usize };
            damage(&mut lent);
            let fault = of_opening(&mut cases.random, &lent.values, lent.records, &mut met);
            assert!(fault.is_some(), "{name}");
            cases.count();
        }
        for (name, damage) in BOOK_DAMAGES {
            let (mut book, mut table) = sound_book();
            damage(&mut book, &mut table);
            assert!(of_book(&mut cases.random, &book, &table, &mut met).is_some(), "{name}");
            cases.count();
        }
    }
    println!("rules named: {met:?}");
}

/// Several rules broken at once, and some at several places: of a book and its opening; damages and scribbles together too.
#[test]
fn several_rules_at_once() {
    let mut cases = Cases::of("several rules at once");
    let mut met = Met::new();
    for _ in 0..20_000 {
        let random = &mut cases.random;
        let size = Size::any(random);
        let (mut book, mut table) = sized(random, size);
        break_several(random, &mut book, &mut table);
        of_book(random, &book, &table, &mut met);
        of_opening(random, &book.values, table.len(), &mut met);
        cases.count();
    }
    for _ in 0..10_000 {
        let random = &mut cases.random;
        let (mut book, mut table) = sound_book();
        let (_, damage) = random.pick(&BOOK_DAMAGES);
        damage(&mut book, &mut table);
        for _ in 0..random.between(0, 2) {
            scribble(random, &mut book, &mut table);
        }
        if random.percent(50) {
            let mut lent = Lent { values: book.values, records: table.len() };
            random.pick(&OPENING_DAMAGES).1(&mut lent);
            book.values = lent.values;
        }
        of_book(random, &book, &table, &mut met);
        cases.count();
    }
    println!("rules named: {met:?}");
    assert!(met.len() > 30, "{met:?}");
}

#[test]
fn scribbles() {
    let mut cases = Cases::of("faults of scribbled books");
    let mut met = Met::new();
    for _ in 0..20_000 {
        let random = &mut cases.random;
        let (mut book, mut table) = match random.percent(50) {
            true => sound_book(),
            false => {
                let size = Size::any(random);
                sized(random, size)
            }
        };
        for _ in 0..random.between(1, 4) {
            scribble(random, &mut book, &mut table);
        }
        of_book(random, &book, &table, &mut met);
        of_opening(random, &book.values, table.len(), &mut met);
        cases.count();
    }
    println!("rules named: {met:?}");
    assert!(met[&0] > 1_000 && met.len() > 15, "{met:?}");
}

/// Random days: no rule is broken at opening, on the way or at the end; then the book is scribbled on.
#[test]
fn books_of_random_days() {
    let mut cases = Cases::of("faults of random days");
    let (mut met, mut scribbled) = (Met::new(), Met::new());
    for _ in 0..300 {
        let day = day(cases.random.below(1 << 40));
        let random = &mut cases.random;
        assert_eq!(of_opening(random, &day.opening, day.records, &mut met), None);
        let mut table = vec![PoolRecord::EMPTY; day.records];
        let mut book = reference::opening::open(&day.opening, &mut table).expect("in range");
        for call in &day.calls {
            let room = &mut vec![0; call.output_length];
            frame_call(&mut book, &mut table, room, &call.time, &call.body, Default::default());
            if random.percent(5) {
                assert_eq!(of_book(random, &book, &table, &mut met), None, "day {}", day.seed);
            }
        }
        assert_eq!(of_book(random, &book, &table, &mut met), None, "day {}", day.seed);
        for _ in 0..5 {
            scribble(random, &mut book, &mut table);
            of_book(random, &book, &table, &mut scribbled);
        }
        cases.count();
    }
    println!("rules named on scribbled days: {scribbled:?}");
    assert_eq!(met.len(), 1);
}

/// Words that are no book's are named before any other rule, and words too wide where opening asks nothing are not named to it.
#[test]
fn words_that_are_no_books() {
    let mut cases = Cases::of("words that are no book's");
    let mut counts = [0; 6];
    for turn in 0..6_000 {
        let random = &mut cases.random;
        let size = Size::any(random);
        let (mut book, mut table) = sized(random, size);
        let Wide { bytes, numbers, of_line } = wide(&book.values);
        if random.percent(50) {
            // Not a rule that changes how many trades and holidays count.
            let rule = random.pick(&[104, 105, 112, 121, 127, 130, 142, 151, 156, 159, 160, 161]);
            let (first, count) = places(rule, &book, &table);
            let place = first + random.below(count as u64) as usize;
            break_rule(random, rule, place, &mut book, &mut table);
        }
        let opening_before = first_of_opening(&book.values, table.len());
        let mut raw = raw(&book, &table);
        let words = &mut raw.words;
        let kind = turn % counts.len();
        match kind {
            0 => words.truncate(random.below(BOOK_WORDS as u64) as usize),
            1 => words.resize(BOOK_WORDS + random.between(1, 9) as usize, 0),
            2 => words[random.pick(&bytes)] = 256 + random.pick(&[0, 0, 1]) * (random.number() / 2),
            3 => words[random.pick(&numbers)] = 1 << random.between(32, 63),
            4 => words[random.pick(&of_line)] = 1 << random.between(32, 63),
            _ => {
                let received = random.pick(&[[0, 1], [0, 999_999], [2, 0], [2, 1], [u64::MAX, 1]]);
                words[of_line[0]..][..2].copy_from_slice(&received);
            }
        }
        let of_opening = if kind < 4 { Some((WORDS, 0)) } else { opening_before };
        assert_eq!(named(raw.opening_fault(table.len())), of_opening, "kind {kind}");
        assert_eq!(named(raw.book_fault()), Some((WORDS, 0)), "kind {kind}");
        let mut client = rhoikandra::Book::from_raw(raw.clone());
        let answer = told(client.step(b"", b"000000").answer);
        assert_eq!(answer, Answer::Rejected(UNSOUND_BOOK));
        assert_eq!(raw.open().err(), of_opening.map(|_| OPENING));
        counts[kind] += 1;
        cases.count();
    }
    assert!(counts.iter().all(|count| *count >= 50), "{counts:?}");
}

/// A byte of 255 and a number of 32 bits are not too wide: another rule is named, or none.
#[test]
fn words_that_are_just_not_too_wide() {
    let mut cases = Cases::of("words just not too wide");
    let (book, table) = sized(&mut cases.random, Size::full(9));
    let Wide { bytes, numbers, of_line } = wide(&book.values);
    let most = [(bytes, 255), (numbers, u64::from(u32::MAX)), (of_line[1..].to_vec(), 9)];
    for (places, word) in most {
        for place in places {
            let mut raw = raw(&book, &table);
            raw.words[place] = word;
            for fault in [raw.opening_fault(table.len()), raw.book_fault()] {
                assert!(named(fault).is_none_or(|(rule, _)| rule != WORDS), "word {place}");
            }
            raw.words[place] = 1 << 32;
            assert_eq!(named(raw.book_fault()), Some((WORDS, 0)), "word {place}");
            cases.count();
        }
    }
}
