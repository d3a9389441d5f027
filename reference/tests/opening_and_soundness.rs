//! Breaks each clause of 41 and of 42, one at a time.

use reference::answer::{Answer, OPENING, UNSOUND_BOOK};
use reference::book::{Book, PoolRecord};
use reference::columns::*;
use reference::damage::{scribble, sound_book, Lent, BOOK_DAMAGES, OPENING_DAMAGES};
use reference::day;
use reference::draft::{Draft, DraftLot, DraftPool};
use reference::frame_call::frame_call;
use reference::generator::Random;
use reference::lots::Kind;
use reference::opening::{open, CENTS_MAX, MESSAGE_ID_MAX, PRICE_MAX, TABLE_MAX};
use reference::pool_detail::MatchedFields;
use reference::soundness::{first_broken, is_sound, FACTS};
use reference::terms::{Trade, FSTI};
use reference::values::OpeningValues;

const MILLION: u64 = 100_000_000;

fn values() -> OpeningValues {
    let mut values = day::opening_values();
    let first = Trade { par_cents: 20 * MILLION, ..values.trades[0].clone() };
    let second = Trade { id: b"T2".to_vec(), contra: FSTI, ..first.clone() };
    values.trades = vec![first, second];
    values.holidays = vec![*b"12252026"];
    values
}

fn pool(number: u64, current_face_cents: u64) -> DraftPool {
    let matched = MatchedFields {
        lot_id: *b"1A    ",
        pool_number: reference::digits::digits(number),
        original_face: *b"000500000",
    };
    DraftPool { matched, current_face_cents }
}

/// A book with a message of three lots on the first trade and one of a lot on the second.
fn book_with_pools() -> (Book, Vec<PoolRecord>) {
    let mut table = vec![PoolRecord { kind: 7, ..PoolRecord::EMPTY }; 12];
    let mut book = open(&values(), &mut table).unwrap();
    assert_eq!(table, [PoolRecord::EMPTY; 12], "an accepted opening zeroes the table");
    let good = |pools| DraftLot { kind: Kind::Good, millions: 2, pools };
    let lots = [
        good(vec![pool(1, MILLION), pool(2, MILLION)]),
        good(vec![pool(3, 2 * MILLION)]),
        DraftLot { kind: Kind::Odd, millions: 0, pools: vec![pool(4, 1), pool(5, 2)] },
    ];
    put_on(&mut book, &mut table, 1, 0, &lots);
    put_on(&mut book, &mut table, 2, 1, &lots[2..]);
    assert_eq!(book.live_count, 7);
    (book, table)
}

fn put_on(
    book: &mut Book,
    table: &mut [PoolRecord],
    sequence: u64,
    trade: usize,
    lots: &[DraftLot],
) {
    let body = on(book, sequence, trade, lots).body();
    let step = frame_call(book, table, &mut [0; 217], b"000000", &body, Default::default());
    assert_eq!(step.answer, Answer::Accepted);
}

fn on(book: &Book, sequence: u64, trade: usize, lots: &[DraftLot]) -> Draft {
    let trade = &book.values.trades[trade];
    let mut draft = Draft::new(b"ON");
    draft.put_number(SEQUENCE, sequence);
    draft.put(SUBSCRIBER, &book.values.subscriber);
    draft.put(CONNECTION, &book.values.connection);
    draft.put(SUBMITTER, &trade.seller);
    draft.put(CONTRA, &trade.contra);
    draft.put(CUSIP, &trade.cusip);
    draft.put_number(PRICE, trade.price);
    draft.put(SETTLEMENT, &trade.settlement);
    draft.put(SPECIAL_INSTRUCTIONS, &[b"TRID=", &trade.id[..], b"="].concat());
    draft.put_number(GDMM, lots.iter().map(|lot| lot.millions).sum());
    for lot in lots {
        draft.add_lot(lot, b'0');
    }
    draft
}

#[test]
fn each_clause_of_41() {
    for (name, damage) in OPENING_DAMAGES {
        let mut lent = Lent { values: values(), records: 12 };
        damage(&mut lent);
        let used = PoolRecord { message_id: 9, ..PoolRecord::EMPTY };
        let mut table = vec![used; lent.records];
        assert_eq!(open(&lent.values, &mut table), Err(OPENING), "{name}");
        assert!(table.iter().all(|pool| *pool == used), "{name}: all lent memory stays");
    }
}

#[test]
fn openings_at_the_edges_are_accepted() {
    let mut empty = values();
    empty.trades.clear();
    empty.holidays.clear();
    assert!(open(&empty, &mut []).is_ok());

    let mut wide = values();
    wide.trades[0].par_cents = CENTS_MAX;
    wide.trades[0].price = PRICE_MAX;
    wide.trades[1].par_cents = 1;
    wide.trades[1].price = 1;
    wide.trades[1].id = b"!~!~!~!~!~!~!~!~".to_vec();
    wide.last_message_id = MESSAGE_ID_MAX;
    wide.last_outbound = 999_999;
    wide.holidays = vec![*b"07042026"; 32];
    assert!(open(&wide, &mut vec![PoolRecord::EMPTY; TABLE_MAX]).is_ok());

    let mut many = values();
    let trade = many.trades[0].clone();
    many.trades = (0..64).map(|n| Trade { id: vec![b'0' + n], ..trade.clone() }).collect();
    many.trades.retain(|trade| trade.id != b"=");
    many.trades.push(Trade { id: b"last".to_vec(), ..trade });
    assert_eq!(many.trades.len(), 64);
    assert!(open(&many, &mut []).is_ok());
}

#[test]
fn each_clause_of_42() {
    let (sound_book, sound_table) = sound_book();
    assert_eq!(first_broken(&sound_book, &sound_table), None);
    let mut broken_facts = std::collections::BTreeSet::new();
    for (name, damage) in BOOK_DAMAGES {
        let (mut book, mut table) = (sound_book.clone(), sound_table.clone());
        damage(&mut book, &mut table);
        let broken = FACTS.iter().filter(|(_, holds)| !holds(&book, &table));
        let broken: Vec<&str> = broken.map(|(fact, _)| *fact).collect();
        assert_eq!(broken.len(), 1, "{name} breaks one fact alone: {broken:?}");
        broken_facts.extend(broken);

        // The call answers 42 before all else and leaves every byte.
        let (book_before, table_before) = (book.clone(), table.clone());
        let tally = [[7; 3]; 4];
        let step = frame_call(&mut book, &mut table, &mut [], b"000000", b"", tally);
        assert_eq!(step.answer, Answer::Rejected(UNSOUND_BOOK), "{name}");
        assert_eq!((step.tally, step.written), (tally, 0));
        assert_eq!((book, table), (book_before, table_before), "{name}");
    }
    assert_eq!(broken_facts.len(), FACTS.len(), "every fact is broken by some damage");
}

#[test]
fn what_42_does_not_ask_is_sound() {
    let (mut book, mut table) = book_with_pools();
    for pool in &mut table[..5] {
        pool.ordinal += 7;
    }
    assert!(is_sound(&book, &table), "ordinals may skip");
    table[0].matched.pool_number = [0xff; 7];
    assert!(is_sound(&book, &table), "matched fields may be any bytes");
    table[0].current_face_cents = CENTS_MAX;
    assert!(is_sound(&book, &table), "a good lot weighs its millions");
    table[5].matched = table[0].matched;
    assert!(is_sound(&book, &table), "matched fields may stand under two messages");
    book.values.last_message_id = MESSAGE_ID_MAX;
    assert!(is_sound(&book, &table), "the highest last ID is sound, and then 43");
}

#[test]
fn weights_over_par_are_unsound() {
    let (mut book, mut table) = book_with_pools();
    table[2].lot_millions = 99;
    book.open_par_cents[0] = 0;
    assert_eq!(first_broken(&book, &table), Some("open par is par less its lots' weights"));
}

#[test]
fn a_call_ends_on_any_book() {
    let (sound_book, sound_table) = book_with_pools();
    let lots = [DraftLot { kind: Kind::Odd, millions: 0, pools: vec![pool(9, 5)] }];
    let body = on(&sound_book, 3, 0, &lots).body();
    let mut random = Random::from_seed(42);
    let (mut refused, mut accepted) = (0, 0);
    for _ in 0..20_000 {
        let (mut book, mut table) = (sound_book.clone(), sound_table.clone());
        for _ in 0..random.between(1, 2) {
            scribble(&mut random, &mut book, &mut table);
        }
        let sound = is_sound(&book, &table);
        let output = &mut [0; 217];
        let step = frame_call(&mut book, &mut table, output, b"000000", &body, Default::default());
        assert_eq!(step.answer == Answer::Rejected(UNSOUND_BOOK), !sound);
        if sound {
            assert!(is_sound(&book, &table), "a sound book stays sound");
        }
        refused += u32::from(!sound);
        accepted += u32::from(step.answer == Answer::Accepted);
    }
    assert!(refused > 5_000 && accepted > 500, "{refused} {accepted}");
}
