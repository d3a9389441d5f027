//! Calendar: which eight bytes are a date, and which dates are business dates (01 The book).

use crate::digits::number;

pub const FIRST_YEAR: u64 = 1990;
pub const LAST_YEAR: u64 = 2099;

#[derive(Clone, Copy, Debug, PartialEq, Eq)]
pub struct Date {
    pub year: u64,
    pub month: u64,
    pub day: u64,
}

fn is_leap(year: u64) -> bool {
    year % 4 == 0 && (year % 100 != 0 || year % 400 == 0)
}

/// The days of a month; 0 where there is no such month.
pub fn days_of_month(year: u64, month: u64) -> u64 {
    match month {
        1 | 3 | 5 | 7 | 8 | 10 | 12 => 31,
        4 | 6 | 9 | 11 => 30,
        2 if is_leap(year) => 29,
        2 => 28,
        _ => 0,
    }
}

/// The Gregorian date from 1990 to 2099 that mmddyyyy gives, if it gives one.
pub fn date(mmddyyyy: &[u8; 8]) -> Option<Date> {
    let month = number(&mmddyyyy[..2])?;
    let day = number(&mmddyyyy[2..4])?;
    let year = number(&mmddyyyy[4..])?;
    let in_years = (FIRST_YEAR..=LAST_YEAR).contains(&year);
    let in_month = (1..=days_of_month(year, month)).contains(&day);
    (in_years && in_month).then_some(Date { year, month, day })
}

/// Monday is 0, counted from January 1, 1990, which was a Monday.
pub fn weekday(date: Date) -> u64 {
    let years: u64 =
        (FIRST_YEAR..date.year).map(|year| if is_leap(year) { 366 } else { 365 }).sum();
    let months: u64 = (1..date.month).map(|month| days_of_month(date.year, month)).sum();
    (years + months + date.day - 1) % 7
}

/// A date, Monday to Friday, that is no listed holiday.
pub fn business_date(mmddyyyy: &[u8; 8], holidays: &[[u8; 8]]) -> bool {
    const SATURDAY: u64 = 5;
    date(mmddyyyy).is_some_and(|date| weekday(date) < SATURDAY) && !holidays.contains(mmddyyyy)
}

#[cfg(test)]
mod tests {
    use super::*;

    #[test]
    fn days_of_the_proof_table() {
        assert!(business_date(b"02292028", &[]));
        assert!(!business_date(b"02292026", &[]));
        assert!(!business_date(b"07042026", &[]));
    }

    #[test]
    fn edges() {
        assert!(business_date(b"01011990", &[]), "a Monday");
        assert!(business_date(b"12312099", &[]), "a Thursday");
        for text in [
            b"12311989",
            b"01012100",
            b"00102026",
            b"13102026",
            b"04312026",
            b"07002026",
            b"0714202 ",
            b" 7142026",
            b"        ",
            b"02302028",
        ] {
            assert_eq!(date(text), None);
        }
        assert!(business_date(b"02292000", &[]), "a Tuesday in a leap century");
        assert!(business_date(b"07142026", &[*b"07152026"]));
        assert!(!business_date(b"07142026", &[*b"07152026", *b"07142026"]));
    }

    #[test]
    fn the_week_never_breaks() {
        let mut expected = 0;
        for year in FIRST_YEAR..=LAST_YEAR {
            for month in 1..=12 {
                for day in 1..=days_of_month(year, month) {
                    assert_eq!(weekday(Date { year, month, day }), expected);
                    expected = (expected + 1) % 7;
                }
            }
        }
    }
}
