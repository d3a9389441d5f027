//! Dates: every day from 1990 to 2099, days that are none, and any eight bytes, with random holidays.

use compare::cases::Cases;
use compare::proved;
use reference::calendar::{business_date, date, days_of_month, FIRST_YEAR, LAST_YEAR};
use reference::digits::{digits, number};
use reference::generator::Random;

fn mmddyyyy(month: u64, day: u64, year: u64) -> [u8; 8] {
    digits(month * 1_000_000 + day * 10_000 + year)
}

fn random_date(random: &mut Random) -> [u8; 8] {
    let year = random.between(FIRST_YEAR, LAST_YEAR);
    let month = random.between(1, 12);
    mmddyyyy(month, random.between(1, days_of_month(year, month)), year)
}

/// Compares one text, with these holidays, by way of the reader of digits.
fn compare(text: &[u8; 8], holidays: &[[u8; 8]]) {
    let numbers: Vec<u32> = holidays.iter().map(|text| number(text).unwrap() as u32).collect();
    let read = proved::number(text, 0, 8);
    assert_eq!(read, number(text), "{text:?}");
    let (is_date, business) = read.map_or((false, false), |n| proved::date(n, &numbers));
    assert_eq!(is_date, date(text).is_some(), "{text:?}");
    assert_eq!(business, business_date(text, holidays), "{text:?} with {holidays:?}");
}

#[test]
fn every_date_and_the_days_beside_it() {
    let mut cases = Cases::of("every date and the days beside it");
    for year in FIRST_YEAR - 1..=LAST_YEAR + 1 {
        for month in 1..=12 {
            for day in 0..=32 {
                let text = mmddyyyy(month, day, year);
                let mut holidays: Vec<[u8; 8]> =
                    (0..cases.random.below(4)).map(|_| random_date(&mut cases.random)).collect();
                if date(&text).is_some() && cases.random.percent(20) {
                    holidays.push(text);
                    cases.random.shuffle(&mut holidays);
                }
                compare(&text, &holidays);
                cases.count();
            }
        }
    }
}

#[test]
fn numbers_that_are_no_date() {
    let mut cases = Cases::of("numbers that are no date");
    for _ in 0..20_000 {
        let random = &mut cases.random;
        let text = match random.below(4) {
            0 => digits(random.below(100_000_000)),
            1 => {
                mmddyyyy(random.between(13, 99), random.between(1, 31), random.between(1990, 2099))
            }
            2 => mmddyyyy(random.between(1, 12), random.between(1, 31), random.below(10_000)),
            _ => mmddyyyy(random.below(20), random.below(40), random.between(1985, 2105)),
        };
        compare(&text, &[]);
        cases.count();
    }
}

#[test]
fn any_eight_bytes() {
    let mut cases = Cases::of("any eight bytes");
    for _ in 0..10_000 {
        let mut text = random_date(&mut cases.random);
        for _ in 0..cases.random.below(3) {
            let place = cases.random.below(8) as usize;
            text[place] = cases.random.number() as u8;
        }
        compare(&text, &[]);
        cases.count();
    }
}
