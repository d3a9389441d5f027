//! The rules of opening (41) and of a sound book (42), by the numbers that name them.

use std::fmt;

/// A rule: what it is about (`words`, `book`, `holiday`, `trade` or `record`), what must hold, and what to do where it does not.
#[derive(Clone, Copy, Debug)]
pub struct Rule {
    pub number: u16,
    pub about: &'static str,
    pub holds: &'static str,
    pub remedy: &'static str,
}

const fn of(number: u16, about: &'static str, holds: &'static str, remedy: &'static str) -> Rule {
    Rule { number, about, holds, remedy }
}

/// All rules, in the order in which they are asked.
pub const ALL: [Rule; 36] = [
    of(101, "words", "they are 2,740, and none is too wide for the byte or the number that it stands for", "write the words as the header says; once opened, restore the last good copy"),
    of(102, "book", "it has at most 64 trades", "open with fewer trades; once opened, restore the last good copy"),
    of(103, "book", "it has at most 32 holidays", "open with fewer holidays; once opened, restore the last good copy"),
    of(104, "holiday", "it is a date from 1990 to 2099", "correct the holiday; once opened, restore the last good copy"),
    of(105, "book", "its subscriber is four characters of codes 33 to 126", "correct the subscriber; once opened, restore the last good copy"),
    of(106, "book", "its connection is four characters of codes 33 to 126", "correct the connection; once opened, restore the last good copy"),
    of(107, "book", "its GDMM ceiling is at most 9,999", "lower the ceiling; once opened, restore the last good copy"),
    of(108, "book", "its variance is at most 1,000,000 cents a million", "lower the variance; once opened, restore the last good copy"),
    of(109, "book", "its pools a million are 1 to 250", "correct the pools a million; once opened, restore the last good copy"),
    of(110, "book", "its least face is 1 to 50,000,000 dollars", "correct the least face; once opened, restore the last good copy"),
    of(111, "book", "its last message ID is at most 99,999,999,999", "correct the last message ID; once opened, restore the last good copy"),
    of(112, "book", "its last outbound number is at most 999,999", "correct the last outbound number; once opened, restore the last good copy"),
    of(121, "trade", "its ID is 1 to 16 characters of codes 33 to 126, none of them \"=\"", "correct the ID; once opened, restore the last good copy"),
    of(122, "trade", "its seller is four characters of codes 33 to 126", "correct the seller; once opened, restore the last good copy"),
    of(123, "trade", "its buyer is four characters of codes 33 to 126", "correct the buyer; once opened, restore the last good copy"),
    of(124, "trade", "its seller is not its buyer", "correct the seller or the buyer; once opened, restore the last good copy"),
    of(125, "trade", "its contra is FTBA or FSTI", "correct the contra; once opened, restore the last good copy"),
    of(126, "trade", "its CUSIP is nine characters of codes 33 to 126", "correct the CUSIP; once opened, restore the last good copy"),
    of(127, "trade", "its settlement is a business date", "correct the settlement or the holidays; once opened, restore the last good copy"),
    of(128, "trade", "its price is above 0 and has at most twelve digits", "correct the price; once opened, restore the last good copy"),
    of(129, "trade", "its par is above 0 and has at most eleven digits", "correct the par; once opened, restore the last good copy"),
    of(130, "trade", "no later trade has its ID", "give each trade an ID of its own; once opened, restore the last good copy"),
    of(141, "book", "its table has at most 4,096 records", "lend a shorter table; once opened, restore the last good copy"),
    of(142, "book", "its expected number is one more than the received one, at most 999,998, or 1 where none was received", "restore the last good copy"),
    of(143, "book", "its live pools are no more than its table's records", "restore the last good copy"),
    of(151, "record", "its trade is one of the book's", "restore the last good copy"),
    of(152, "record", "its message ID is from 1 to the last used", "restore the last good copy"),
    of(153, "record", "its ordinal is at least 1", "restore the last good copy"),
    of(154, "record", "its current face has at most eleven digits", "restore the last good copy"),
    of(155, "record", "it is of a good lot of 1 to 99 millions, or of an odd or bad one of none", "restore the last good copy"),
    of(156, "record", "its message ID is not below that of the record before it, nor within a message its ordinal", "restore the last good copy"),
    of(157, "record", "its trade is that of the record before it, if its message is", "restore the last good copy"),
    of(158, "record", "its kind and millions are those of the record before it, if its lot is", "restore the last good copy"),
    of(159, "record", "no later record of its message has its matched fields", "restore the last good copy"),
    of(160, "record", "it is zeros, for it stands after the live ones", "restore the last good copy"),
    of(161, "trade", "its open par and the weight of its live lots add up to its par", "restore the last good copy"),
];

/// The rule of a number.
pub fn rule(number: u16) -> Option<&'static Rule> {
    ALL.iter().find(|rule| rule.number == number)
}

/// The first rule that is broken, and the place of the holiday, trade or record that it is about, counted from 0. Holidays and
/// trades are counted in opening order, records from the table's start; a rule about the words or the book has place 0.
///
/// ```
/// let fault = rhoikandra::Fault { rule: 127, place: 3 };
/// assert_eq!(
///     fault.to_string(),
///     "rule 127, trade 3: its settlement is a business date; \
///      correct the settlement or the holidays; once opened, restore the last good copy"
/// );
/// ```
#[derive(Clone, Copy, Debug, PartialEq, Eq)]
pub struct Fault {
    pub rule: u16,
    pub place: usize,
}

impl Fault {
    /// From the two numbers that the engine writes.
    pub(crate) fn from_named(named: [u64; 2]) -> Option<Fault> {
        let [rule, place] = named;
        (rule != 0).then_some(Fault { rule: rule as u16, place: place as usize })
    }
}

impl fmt::Display for Fault {
    fn fmt(&self, f: &mut fmt::Formatter) -> fmt::Result {
        let Fault { rule: number, place } = self;
        match rule(*number) {
            Some(Rule { about: about @ ("words" | "book"), holds, remedy, .. }) => {
                write!(f, "rule {number}, {about}: {holds}; {remedy}")
            }
            Some(Rule { about, holds, remedy, .. }) => {
                write!(f, "rule {number}, {about} {place}: {holds}; {remedy}")
            }
            None => write!(f, "rule {number}, place {place}: there is no such rule"),
        }
    }
}

impl std::error::Error for Fault {}
