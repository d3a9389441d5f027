//! The wrapper for Rust programs as they use it: the example that keeps its book, and the bytes of a book that messages of the builder move.

#[path = "../../rhoikandra/examples/kept_day.rs"]
mod kept_day;

use rhoikandra::columns::{GDMM, NUMBER_OF_POOLS, REASON, SEQUENCE, TARGET};
use rhoikandra::message::Message;
use rhoikandra::{Answer, Book, Pool, Raw};

/// By the paper: 3 millions of par less two good lots of one million; a replacement of equal weight leaves both figures;
/// a DK gives one million back; and what is off cannot be taken off again.
#[test]
fn a_kept_day_and_its_figures() {
    assert_eq!(
        kept_day::lines(),
        [
            "ON accepted under 1; open par 100000000, standing millions 2",
            "CC accepted under 2; open par 100000000, standing millions 2",
            "DK accepted under 3; open par 200000000, standing millions 1",
            "DK rejected with 30: no live pool under the target; open par 200000000, standing millions 1",
            "3 accepted, 1 rejected, 0 DKed; 256 bytes sent",
        ]
    );
}

/// The two bytes of a record that are no part of it: an accepted opening leaves nothing there, of the table before it or of the
/// stack, and a frame leaves them so; a refused opening leaves them as they were; a book's bytes have none of them.
#[test]
fn spare_bytes() {
    let spent = Pool {
        message: u64::MAX,
        ordinal: u64::MAX,
        trade: u64::MAX,
        lot: [0xFF; 6],
        pool: [0xFF; 7],
        original: [0xFF; 9],
        spare: [0xFF; 2],
        current: u64::MAX,
        kind: u64::MAX,
        millions: u64::MAX,
    };
    assert_eq!(size_of::<Pool>(), 72);

    let mut opening = kept_day::opening();
    let mut raw = Raw::of(&opening, 64);
    raw.pools.fill(spent);
    raw.open().unwrap();
    assert_eq!(raw.pools, [Pool::default(); 64]);
    assert!(raw.pools.iter().all(|pool| pool.spare == [0; 2]));
    let mut book = Book::from_raw(raw);

    // A CC and a DK close the table up.
    let lot = kept_day::lot;
    let on = Message::on(&opening, 0).number(GDMM, 1).pool(&lot(b"AA00001", b"0001"));
    let cc = Message::cc(&opening, 0).number(TARGET, 1).number(NUMBER_OF_POOLS, 1);
    let cc = cc.pool(&lot(b"AA00001", b"6001")).pool(&lot(b"AA00002", b"7001"));
    let dk = Message::dk(&opening, 0).number(TARGET, 2).number(REASON, 1);
    let dk = dk.pool(&lot(b"AA00002", b"0001"));
    for (message, id) in [(on, 1), (cc, 2), (dk, 3)] {
        let body = message.number(SEQUENCE, id).body();
        assert_eq!(book.step(&body, b"093000").answer, Answer::Accepted(id));
        assert!(book.raw().pools.iter().all(|pool| pool.spare == [0; 2]), "message {id}");
    }

    let bytes = book.save();
    book.raw_mut().pools.iter_mut().for_each(|pool| pool.spare = [0xFF; 2]);
    assert_eq!(book.save(), bytes);
    assert_eq!(Book::load(&bytes), Ok(book));

    opening.trades[0].seller = opening.trades[0].buyer;
    let mut refused = Raw::of(&opening, 64);
    refused.pools.fill(spent);
    assert_eq!(refused.open(), Err(41));
    assert!(refused.pools.iter().all(|pool| *pool == spent && pool.spare == spent.spare));
}

/// Where a client filled them, a frame call moves none of them with a record: an accepted ON leaves zeros in the records that it
/// stores, an accepted CC or DK in all that were live too, and every frame leaves the others as they were.
#[test]
fn spare_bytes_that_a_client_filled() {
    let opening = kept_day::opening();
    let mut book = opening.open(8).unwrap();

    let lot = kept_day::lot;
    let on = Message::on(&opening, 0).number(GDMM, 2);
    let on = on.pool(&lot(b"AA00001", b"0001")).pool(&lot(b"AA00002", b"0001"));
    let cc = Message::cc(&opening, 0).number(TARGET, 1).number(NUMBER_OF_POOLS, 1);
    let cc = cc.pool(&lot(b"AA00001", b"6001")).pool(&lot(b"AA00003", b"7001"));
    let dk = Message::dk(&opening, 0).number(TARGET, 2).number(REASON, 1);
    let dk = dk.pool(&lot(b"AA00003", b"0001"));
    // The CC moves the pool that stays to the front and stores the new one behind it; the DK leaves that pool there, and the second
    // DK finds nothing.
    let calls = [
        (on, Answer::Accepted(1), 0..2),
        (cc, Answer::Accepted(2), 0..2),
        (dk.clone(), Answer::Accepted(3), 0..2),
        (dk, Answer::Rejected(30), 0..0),
    ];
    for (sequence, (message, answer, written)) in (1..).zip(calls) {
        let filled = |place: usize| [place as u8 + 1; 2];
        for (place, pool) in book.raw_mut().pools.iter_mut().enumerate() {
            pool.spare = filled(place);
        }
        let body = message.number(SEQUENCE, sequence).body();
        assert_eq!(book.step(&body, b"093000").answer, answer);
        for (place, pool) in book.raw().pools.iter().enumerate() {
            let expected = if written.contains(&place) { [0; 2] } else { filled(place) };
            assert_eq!(pool.spare, expected, "record {place} after {answer:?}");
        }
    }
}
