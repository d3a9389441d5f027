//! Fault: which rule of opening (41) or of soundness (42) is broken first, and which trade, holiday or record it is about.

use crate::book::{kind_code, live_lots, live_weight_cents, Book, PoolRecord};
use crate::calendar::{business_date, date};
use crate::opening::*;
use crate::sequence::SEQUENCE_MAX;
use crate::terminator::LOT_MILLIONS_MAX;
use crate::terms::{Trade, FSTI, FTBA};
use crate::trade_id::TRADE_ID_MAX;
use crate::values::OpeningValues;

/// A rule's number, and the place of the trade, holiday or record, counted from 0; 0 for a rule that stands alone.
pub type Fault = (u16, usize);

/// A rule of what stands in a book: its number, and its test.
type Rule<Within, Of> = (u16, fn(&Within, &Of) -> bool);

/// The rules that stand before the trades', in two parts with the holidays between them.
const COUNTS: [Rule<(), OpeningValues>; 2] = [
    (102, |_, values| values.trades.len() <= TRADES_MAX),
    (103, |_, values| values.holidays.len() <= HOLIDAYS_MAX),
];

const HOLIDAY: [Rule<(), [u8; 8]>; 1] = [(104, |_, holiday| date(holiday).is_some())];

const VALUES: [Rule<(), OpeningValues>; 8] = [
    (105, |_, values| is_text(&values.subscriber)),
    (106, |_, values| is_text(&values.connection)),
    (107, |_, values| values.limits.gdmm_ceiling <= GDMM_CEILING_MAX),
    (108, |_, values| values.limits.variance_cents_a_million <= VARIANCE_CENTS_MAX),
    (109, |_, values| (1..=POOLS_A_MILLION_MAX).contains(&values.limits.pools_a_million)),
    (110, |_, values| (1..=FACE_DOLLARS_MAX).contains(&values.limits.least_face_dollars)),
    (111, |_, values| values.last_message_id <= MESSAGE_ID_MAX),
    (112, |_, values| values.last_outbound <= SEQUENCE_MAX),
];

/// A trade is asked all of these before the next one is asked any.
const TRADE: [Rule<OpeningValues, Trade>; 9] = [
    (121, |_, trade| {
        let length_fits = (1..=TRADE_ID_MAX).contains(&trade.id.len());
        length_fits && is_text(&trade.id) && !trade.id.contains(&b'=')
    }),
    (122, |_, trade| is_text(&trade.seller)),
    (123, |_, trade| is_text(&trade.buyer)),
    (124, |_, trade| trade.seller != trade.buyer),
    (125, |_, trade| [FTBA, FSTI].contains(&trade.contra)),
    (126, |_, trade| is_text(&trade.cusip)),
    (127, |values, trade| business_date(&trade.settlement, &values.holidays)),
    (128, |_, trade| (1..=PRICE_MAX).contains(&trade.price)),
    (129, |_, trade| (1..=CENTS_MAX).contains(&trade.par_cents)),
];

/// A trade and those after it: the first of two that have one ID is named.
const NAMES: [Rule<(), [Trade]>; 1] =
    [(130, |_, trades| trades[1..].iter().all(|later| later.id != trades[0].id))];

const TABLE: [Rule<(), usize>; 1] = [(141, |_, records| *records <= TABLE_MAX)];

const COUNTERS: [Rule<[PoolRecord], Book>; 2] =
    [(142, |_, book| book.inbound.is_sound()), (143, |table, book| book.live_count <= table.len())];

/// A live record is asked all of these before the next one is asked any.
const RECORD: [Rule<Book, PoolRecord>; 5] = [
    (151, |book, pool| pool.trade < book.values.trades.len()),
    (152, |book, pool| (1..=book.values.last_message_id).contains(&pool.message_id)),
    (153, |_, pool| pool.ordinal > 0),
    (154, |_, pool| pool.current_face_cents <= CENTS_MAX),
    (155, |_, pool| match pool.kind {
        kind_code::GOOD => (1..=LOT_MILLIONS_MAX).contains(&pool.lot_millions),
        kind_code::ODD | kind_code::BAD => pool.lot_millions == 0,
        _ => false,
    }),
];

/// Two neighbors: the later one is named.
const NEIGHBORS: [Rule<(), [PoolRecord]>; 3] = [
    (156, |_, pair| {
        let [one, next] = [&pair[0], &pair[1]];
        (one.message_id, one.ordinal) <= (next.message_id, next.ordinal)
    }),
    (157, |_, pair| pair[0].message_id != pair[1].message_id || pair[0].trade == pair[1].trade),
    (158, |_, pair| {
        let of_lot = |pool: &PoolRecord| (pool.kind, pool.lot_millions);
        !pair[0].same_lot(&pair[1]) || of_lot(&pair[0]) == of_lot(&pair[1])
    }),
];

/// A live record and those after it: the first of two that are the same pool is named.
const ONCE: [Rule<(), [PoolRecord]>; 1] = [(159, |_, pools| {
    let pool = pools[0];
    let same =
        |later: &PoolRecord| later.message_id == pool.message_id && later.matched == pool.matched;
    !pools[1..].iter().any(same)
})];

const EMPTY: [Rule<(), PoolRecord>; 1] = [(160, |_, pool| *pool == PoolRecord::EMPTY)];

/// A trade's open par, its par and the weight of its live lots; none where the book has no such open par or no such trade.
type Pars = Option<(u64, u64, u128)>;

const OPEN_PAR: [Rule<(), Pars>; 1] = [(161, |_, pars| {
    pars.is_some_and(|(open, par, weight)| u128::from(open) + weight == u128::from(par))
})];

/// The first of several that breaks a rule, and the first rule that it breaks.
fn first<'a, Within: ?Sized, Of: ?Sized + 'a>(
    rules: &[Rule<Within, Of>],
    within: &Within,
    several: impl IntoIterator<Item = &'a Of>,
) -> Option<Fault> {
    several.into_iter().enumerate().find_map(|(place, one)| {
        let broken = rules.iter().find(|(_, holds)| !holds(within, one));
        broken.map(|(number, _)| (*number, place))
    })
}

/// Each of several with those after it.
fn tails<T>(several: &[T]) -> impl Iterator<Item = &[T]> {
    (0..several.len()).map(|place| &several[place..])
}

fn from(base: usize) -> impl Fn(Fault) -> Fault {
    move |(number, place)| (number, base + place)
}

/// The first rule of 41 that is broken.
pub fn first_of_opening(values: &OpeningValues, table_length: usize) -> Option<Fault> {
    first(&COUNTS, &(), [values])
        .or_else(|| first(&HOLIDAY, &(), &values.holidays))
        .or_else(|| first(&VALUES, &(), [values]))
        .or_else(|| first(&TRADE, values, &values.trades))
        .or_else(|| first(&NAMES, &(), tails(&values.trades)))
        .or_else(|| first(&TABLE, &(), [&table_length]))
}

/// The first rule of 42 that is broken.
pub fn first_of_book(book: &Book, table: &[PoolRecord]) -> Option<Fault> {
    let live = book.live(table);
    first_of_opening(&book.values, table.len())
        .or_else(|| first(&COUNTERS, table, [book]))
        .or_else(|| first(&RECORD, book, live))
        .or_else(|| first(&NEIGHBORS, &(), live.windows(2)).map(from(1)))
        .or_else(|| first(&ONCE, &(), tails(live)))
        .or_else(|| first(&EMPTY, &(), &table[live.len()..]).map(from(live.len())))
        .or_else(|| first(&OPEN_PAR, &(), &pars(book, live)))
}

fn pars(book: &Book, live: &[PoolRecord]) -> Vec<Pars> {
    let (trades, open) = (&book.values.trades, &book.open_par_cents);
    let weight = |trade: usize| {
        let lots = live_lots(live).filter(|lot| lot[0].trade == trade);
        lots.map(live_weight_cents).sum()
    };
    (0..trades.len().max(open.len()))
        .map(|trade| Some((*open.get(trade)?, trades.get(trade)?.par_cents, weight(trade))))
        .collect()
}
