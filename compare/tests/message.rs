//! The message builder beside the reference's draft: the same bodies; and what does not fit is told.

use std::panic::{catch_unwind, set_hook, take_hook, AssertUnwindSafe};

use compare::cases::Cases;
use compare::engine::opening;
use reference::digits::digits;
use reference::draft::{Draft, DraftPool};
use reference::generator::Random;
use reference::pool_detail::MatchedFields;
use rhoikandra::columns::{CURRENT_FACE, DETAIL, HEADER, INTERNAL_ID, ORIGINAL_FACE};
use rhoikandra::message::{Message, PoolDetail, FRAME_MAX};

fn pool(random: &mut Random) -> PoolDetail {
    PoolDetail {
        lot: random.text(),
        pool: random.text(),
        original: random.below(1_000_000_000),
        current: random.below(100_000_000_000),
        terminator: random.text(),
    }
}

fn drafted(pool: &PoolDetail) -> DraftPool {
    let matched = MatchedFields {
        lot_id: pool.lot,
        pool_number: pool.pool,
        original_face: digits(pool.original),
    };
    DraftPool { matched, current_face_cents: pool.current }
}

fn on() -> Message {
    Message::on(&opening(&reference::day::opening_values()), 0)
}

/// Every column of the header with bytes or a number, and pools up to as many as a message has.
#[test]
fn bodies_and_frames() {
    let mut cases = Cases::of("built messages");
    for turn in 0..500 {
        let random = &mut cases.random;
        let (mut message, mut draft) = (on(), Draft::new(b"ON"));
        for (column, drafted) in HEADER.iter().zip(reference::columns::HEADER) {
            if column.width < 20 && random.percent(50) {
                let number = random.below(10_u64.pow(column.width as u32));
                message = message.number(*column, number);
                draft.put_number(drafted, number);
            } else {
                let length = random.below(column.width as u64 + 1);
                let bytes: Vec<u8> = (0..length).map(|_| random.between(32, 126) as u8).collect();
                message = message.text(*column, &bytes);
                draft.put(drafted, &bytes);
            }
        }
        for _ in 0..if turn == 0 { 250 } else { random.below(5) } {
            let pool = pool(random);
            message = message.pool(&pool);
            draft.add_pool(&drafted(&pool), &pool.terminator);
        }
        assert_eq!(message.body(), draft.body());
        let frame = message.frame();
        assert_eq!(rhoikandra::frames(&frame).collect::<Vec<_>>(), [draft.body()]);
        assert!(frame.len() <= FRAME_MAX && (frame.len() == FRAME_MAX) == (turn == 0));
        cases.count();
    }
}

/// What a builder says that panics; nothing is printed.
fn panicked<T>(build: impl FnOnce() -> T) -> String {
    let hook = take_hook();
    set_hook(Box::new(|_| {}));
    let built = catch_unwind(AssertUnwindSafe(build));
    set_hook(hook);
    let said = built.err().expect("it panics");
    let text = said.downcast_ref::<&str>().map(|text| text.to_string());
    text.or_else(|| said.downcast_ref::<String>().cloned()).expect("a text")
}

/// Just what fits is taken, and one digit or byte more panics with the column's name.
#[test]
fn what_does_not_fit() {
    let said = |name: &str, width: usize, said: String| {
        let room = format!("{name} has room for {width} bytes, and not for {}", width + 1);
        assert_eq!(said, room);
    };
    for column in HEADER {
        let (name, width) = (column.name, column.width);
        let _ = on().text(*column, &vec![b'A'; width]);
        said(name, width, panicked(|| on().text(*column, &vec![b'A'; width + 1])));
        if width < 20 {
            let wide = 10_u64.pow(width as u32);
            let _ = on().number(*column, wide - 1);
            said(name, width, panicked(|| on().number(*column, wide)));
        }
    }
    let fits = PoolDetail {
        lot: *b"LOT001",
        pool: *b"AA00001",
        original: 999_999_999,
        current: 99_999_999_999,
        terminator: *b"0001",
    };
    let _ = on().pool(&fits);
    let original = PoolDetail { original: fits.original + 1, ..fits };
    said(ORIGINAL_FACE.name, 9, panicked(|| on().pool(&original)));
    let current = PoolDetail { current: fits.current + 1, ..fits };
    said(CURRENT_FACE.name, 11, panicked(|| on().pool(&current)));
    for column in DETAIL {
        let said = panicked(|| on().text(*column, b""));
        assert_eq!(said, format!("{} is no column of the header", column.name));
    }
    for mark in [rhoikandra::START, rhoikandra::END] {
        let marked = on().text(INTERNAL_ID, &[mark]);
        assert_eq!(marked.body()[INTERNAL_ID.at], mark);
        assert_eq!(panicked(|| marked.frame()), "the body has a mark of a frame in it");
    }
}
