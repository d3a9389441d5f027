//! The first broken rule: it is named just where 41 and 42 refuse, and each rule is named at each of its places.

use std::collections::BTreeSet;

use reference::book::{Book, PoolRecord};
use reference::damage::{scribble, sound_book, Lent, BOOK_DAMAGES, OPENING_DAMAGES};
use reference::fault::{first_of_book, first_of_opening};
use reference::generator::{day, Random};
use reference::opening::{in_range, open, TABLE_MAX};
use reference::rule_damage::{break_rule, break_several, places, sized, Size, OF_BOOK, OF_OPENING};
use reference::soundness::is_sound;

/// Whether a rule is named just where the book is unsound, and one of opening's just where opening refuses.
fn named(book: &Book, table: &[PoolRecord]) -> Option<(u16, usize)> {
    let of_opening = first_of_opening(&book.values, table.len());
    assert_eq!(of_opening.is_none(), in_range(&book.values, table.len()));
    let of_book = first_of_book(book, table);
    assert_eq!(of_book.is_none(), is_sound(book, table), "{of_book:?}");
    assert!(of_opening.is_none() || of_book == of_opening, "opening's rules come first");
    of_book
}

#[test]
fn the_damages_by_their_names() {
    let mut rules = BTreeSet::new();
    for (name, damage) in OPENING_DAMAGES {
        let mut lent = Lent { values: sound_book().0.values, records: 12 };
        assert_eq!(first_of_opening(&lent.values, lent.records), None);
        damage(&mut lent);
        let (rule, _) = first_of_opening(&lent.values, lent.records).expect(name);
        assert!(!in_range(&lent.values, lent.records));
        rules.insert(rule);
    }
    assert!(rules.iter().eq(&OF_OPENING), "every rule of 41 is broken by some damage: {rules:?}");
    let mut rules = BTreeSet::new();
    for (name, damage) in BOOK_DAMAGES {
        let (mut book, mut table) = sound_book();
        assert_eq!(named(&book, &table), None);
        damage(&mut book, &mut table);
        rules.insert(named(&book, &table).expect(name).0);
    }
    for rule in OF_BOOK {
        assert!(rules.contains(&rule), "{rule} is broken by no damage");
    }
}

#[test]
fn each_rule_at_its_places() {
    let mut random = Random::from_seed(41);
    for rule in OF_OPENING.into_iter().chain(OF_BOOK) {
        for turn in 0..60 {
            let size = match turn {
                0 | 1 => Size::full(TABLE_MAX - 1),
                _ => Size::any(&mut random),
            };
            let (mut book, mut table) = sized(&mut random, size);
            let (first, count) = places(rule, &book, &table);
            let place = match turn {
                0 => first,
                1 => first + count - 1,
                _ => first + random.below(count as u64) as usize,
            };
            assert!(turn > 10 || named(&book, &table).is_none(), "the book was sound");
            break_rule(&mut random, rule, place, &mut book, &mut table);
            assert_eq!(named(&book, &table), Some((rule, place)));
        }
    }
}

#[test]
fn several_rules_at_once() {
    let mut random = Random::from_seed(40);
    let mut rules = BTreeSet::new();
    for _ in 0..20_000 {
        let size = Size::any(&mut random);
        let (mut book, mut table) = sized(&mut random, size);
        break_several(&mut random, &mut book, &mut table);
        rules.extend(named(&book, &table));
    }
    assert!(rules.len() > 200, "{} rules and places", rules.len());
}

#[test]
fn scribbles() {
    let mut random = Random::from_seed(42);
    let (mut broken, mut sound) = (0, 0);
    for _ in 0..20_000 {
        let (mut book, mut table) = sound_book();
        for _ in 0..random.between(1, 3) {
            scribble(&mut random, &mut book, &mut table);
        }
        match named(&book, &table) {
            Some(_) => broken += 1,
            None => sound += 1,
        }
    }
    assert!(broken > 5_000 && sound > 500, "{broken} {sound}");
}

#[test]
fn days_name_nothing() {
    for seed in 0..200 {
        let day = day(seed);
        let mut table = vec![PoolRecord::EMPTY; day.records];
        let mut book = open(&day.opening, &mut table).unwrap();
        for call in &day.calls {
            let room = &mut vec![0; call.output_length];
            let (time, body) = (&call.time, &call.body);
            reference::frame_call::frame_call(&mut book, &mut table, room, time, body, [[0; 3]; 4]);
        }
        assert_eq!(named(&book, &table), None, "seed {seed}");
    }
}
