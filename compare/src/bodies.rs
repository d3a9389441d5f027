//! Bodies: random messages, most well formed, some damaged, for the leaves that read a body.

use reference::columns::{
    CURRENT_FACE, DETAIL_WIDTH, HEADER_WIDTH, ORIGINAL_FACE, POOLS_MAX, TERMINATOR,
};
use reference::digits::digits;
use reference::draft::{Draft, DraftLot, DraftPool};
use reference::generator::Random;
use reference::lots::{Kind, CENTS_A_MILLION};
use reference::pool_detail::MatchedFields;

const ORIGINAL: u8 = b'0';
const CANCELED: u8 = b'6';
const REPLACEMENT: u8 = b'7';

/// A random body of an ON or a CC. About two in three have lots and groups in form.
pub fn body(random: &mut Random) -> Vec<u8> {
    let cc = random.percent(60);
    let mut draft = Draft::new(if cc { b"CC" } else { b"ON" });
    for _ in 0..groups_count(random) {
        if cc {
            add_group(random, &mut draft);
        } else {
            let lot = lot(random);
            draft.add_lot(&lot, ORIGINAL);
        }
    }
    if random.percent(95) {
        draft.details.truncate(POOLS_MAX);
    }
    if random.percent(30) {
        damage(random, &mut draft);
    }
    let mut body = draft.body();
    if random.percent(4) {
        cut_or_stretch(random, &mut body);
    }
    body
}

fn groups_count(random: &mut Random) -> u64 {
    match random.below(40) {
        0 => 60,
        1..=3 => random.between(8, 20),
        _ => random.between(1, 5),
    }
}

/// A group of a CC: a good one mostly balanced, an odd or bad one mostly of one lot each.
fn add_group(random: &mut Random, draft: &mut Draft) {
    let kind = random.pick(&[Kind::Good, Kind::Good, Kind::Odd, Kind::Bad]);
    if kind != Kind::Good {
        let (canceled, replacement) = if random.percent(90) {
            (1, 1)
        } else {
            random.pick(&[(2, 1), (1, 2), (0, 1), (1, 0)])
        };
        add_lots(random, draft, kind, CANCELED, canceled);
        add_lots(random, draft, kind, REPLACEMENT, replacement);
        return;
    }
    let canceled = parts(random, 12);
    let mut replacement = canceled.clone();
    match random.below(8) {
        0 => replacement = parts(random, 12),
        1 => replacement.iter_mut().for_each(|millions| *millions = 1),
        2 => replacement = vec![canceled.iter().sum()],
        _ => random.shuffle(&mut replacement),
    }
    for (position_one, run) in [(CANCELED, canceled), (REPLACEMENT, replacement)] {
        for millions in run {
            let lot = lot_of(random, Kind::Good, millions);
            draft.add_lot(&lot, position_one);
        }
    }
}

/// One to four numbers of millions.
fn parts(random: &mut Random, highest: u64) -> Vec<u64> {
    (0..random.between(1, 4)).map(|_| random.between(1, highest)).collect()
}

fn add_lots(random: &mut Random, draft: &mut Draft, kind: Kind, position_one: u8, count: u64) {
    for _ in 0..count {
        let lot = lot_of(random, kind, 0);
        draft.add_lot(&lot, position_one);
    }
}

fn lot(random: &mut Random) -> DraftLot {
    let kind = random.pick(&[Kind::Good, Kind::Good, Kind::Odd, Kind::Bad]);
    let millions = random.pick(&[1, 1, 2, 3, 50, 99]);
    lot_of(random, kind, millions)
}

/// A lot whose current faces, where it is good, sum to about its weight.
fn lot_of(random: &mut Random, kind: Kind, millions: u64) -> DraftLot {
    let pools = match random.below(30) {
        0 => random.between(6, 40),
        1..=3 => 4,
        _ => random.between(1, 3),
    };
    let weight_cents = millions * CENTS_A_MILLION;
    let mut left_cents =
        weight_cents + random.pick(&[0, 0, 0, 10_000, 10_001, 1_000_000]) * millions;
    left_cents -= random.pick(&[0, 0, 0, 10_000, 10_001, 1_000_000]) * millions;
    let pools = (1..=pools)
        .map(|pool| {
            let cents = if kind != Kind::Good {
                random.pick(&[0, 1, 99_999_999_999, 123_456_789])
            } else if pool == pools {
                left_cents
            } else {
                random.below(left_cents / 2 + 1)
            };
            left_cents -= cents.min(left_cents);
            draft_pool(random, cents)
        })
        .collect();
    DraftLot { kind, millions: if kind == Kind::Good { millions } else { 0 }, pools }
}

fn draft_pool(random: &mut Random, current_face_cents: u64) -> DraftPool {
    let dollars = match random.below(100) {
        0 => random.below(1_000_000_000),
        1 => random.pick(&[0, 1, 999, 50_000_001]),
        _ => random.pick(&[1_000, 1_001, 25_000, 1_000_000, 50_000_000]),
    };
    let matched = MatchedFields {
        lot_id: random.text(),
        pool_number: random.text(),
        original_face: digits(dollars),
    };
    DraftPool { matched, current_face_cents }
}

/// One fault, or a few: terminators, faces, details out of order.
fn damage(random: &mut Random, draft: &mut Draft) {
    for _ in 0..random.between(1, 3) {
        let count = draft.details.len();
        if count == 0 {
            return;
        }
        let at = random.below(count as u64) as usize;
        match random.below(8) {
            0..=2 => {
                let terminator = terminator(random);
                draft.put_detail(at, TERMINATOR, &terminator);
            }
            3 => {
                let place = TERMINATOR.first + random.below(4) as usize;
                draft.details[at][place] = random.pick(b"0123456789 A\x00\xff");
            }
            4 => draft.details.swap(at, random.below(count as u64) as usize),
            5 => drop(draft.details.remove(at)),
            6 => {
                let column = random.pick(&[CURRENT_FACE, ORIGINAL_FACE]);
                let place = column.first + random.below(column.width as u64) as usize;
                draft.details[at][place] = random.pick(b" -A/:\x00\xff");
            }
            _ => random.shuffle(&mut draft.details),
        }
    }
}

/// A terminator: mostly one that the paper knows, sometimes one beside it.
pub fn terminator(random: &mut Random) -> [u8; 4] {
    let code = match random.below(10) {
        0..=2 => 0,
        3..=4 => random.between(1, 99),
        5 => random.pick(&[100, 887, 890, 998, 500]),
        6 => 888,
        7 => 889,
        8 => 999,
        _ => random.below(1_000),
    };
    let [two, three, four] = digits::<3>(code);
    [random.pick(b"0006677677 5819A"), two, three, four]
}

/// A length that check 10 refuses, or another number of whole details.
fn cut_or_stretch(random: &mut Random, body: &mut Vec<u8>) {
    let length = match random.below(6) {
        0 => random.below(HEADER_WIDTH as u64 + 1) as usize,
        1 => HEADER_WIDTH + random.pick(&[250, 251, 252, 300]) * DETAIL_WIDTH,
        2 => body.len() - 1,
        3 => body.len() + 1,
        4 => 0,
        _ => random.below(60_000) as usize,
    };
    body.resize(length, b'0');
}
