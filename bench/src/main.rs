//! Times the proved engine and the reference on the same calls, in turn, and the reading of the same table that is the floor
//! of a call, and prints the microseconds of a frame and the ratio of reference to engine.

mod floor;

use std::hint::black_box;
use std::time::{Duration, Instant};

use compare::engine::{held, told};
use reference::answer::Answer;
use reference::book::{Book, PoolRecord};
use reference::damage::{scribble, sound_book, BOOK_DAMAGES};
use reference::desk::{pool, Desk};
use reference::draft::DraftPool;
use reference::frame_call::frame_call;
use reference::generator::Random;
use reference::opening::{CENTS_MAX, TABLE_MAX};
use reference::soundness::FACTS;

const OUTPUT: usize = 217;
const POOLS: u64 = 250;
const TRADES_MAX: usize = 64;
const FACE_CENTS: u64 = 100;

/// A desk with so many live pools, brought by messages of 250: each is one odd lot.
fn desk(live: u64) -> Desk {
    desk_of((0..live).step_by(POOLS as usize).map(|first| odd_lot(first, POOLS, b'0')))
}

/// A desk that accepted these messages.
fn desk_of(messages: impl Iterator<Item = Vec<(DraftPool, [u8; 4])>>) -> Desk {
    let mut values = reference::day::opening_values();
    values.trades[0].par_cents = CENTS_MAX;
    let mut desk = Desk::open(&values, TABLE_MAX);
    for pools in messages {
        assert_eq!(desk.send(&desk.on(0, 0, &lent(&pools))), Answer::Accepted);
    }
    desk
}

/// The pools of one odd lot.
fn odd_lot(first: u64, count: u64, position_one: u8) -> Vec<(DraftPool, [u8; 4])> {
    lot_of((0..count).map(|i| pool(first + i, FACE_CENTS)).collect(), position_one)
}

fn lot_of(pools: Vec<DraftPool>, position_one: u8) -> Vec<(DraftPool, [u8; 4])> {
    let last = pools.len() - 1;
    let terminator = |i| {
        if i == last {
            [position_one, b'9', b'9', b'9']
        } else {
            [position_one, b'0', b'0', b'0']
        }
    };
    pools.into_iter().enumerate().map(|(i, pool)| (pool, terminator(i))).collect()
}

/// The numbers that the engine spreads rows by under a seed: the arithmetic of `rows_keys`.
fn spread(seed: u64) -> [u64; 6] {
    let mixed = |n: u64| {
        let x = seed.wrapping_add(n.wrapping_mul(0x9e37_79b9_7f4a_7c15));
        let a = (x ^ (x >> 30)).wrapping_mul(0xbf58_476d_1ce4_e5b9);
        let b = (a ^ (a >> 27)).wrapping_mul(0x94d0_49bb_1331_11eb);
        b ^ (b >> 31)
    };
    let [a, b, c] = [1, 2, 3].map(mixed);
    let low = |x| x % (1 << 29);
    [low(a), a >> 35, low(b), b >> 35, low(c), c >> 35]
}

/// The bucket of a pool's matched fields by such numbers.
fn bucket(spread: &[u64; 6], pool: &DraftPool) -> u64 {
    let fields = &pool.matched;
    let mut row = [0; 24];
    row[..6].copy_from_slice(&fields.lot_id);
    row[6..13].copy_from_slice(&fields.pool_number);
    row[13..22].copy_from_slice(&fields.original_face);
    let halves = row.chunks_exact(4).map(|four| u64::from(u32::from_le_bytes(four.try_into().unwrap())));
    spread.iter().zip(halves).map(|(by, half)| by * half).sum::<u64>() % 4_294_967_311 % 4_096
}

/// A desk with 3,750 live pools whose fields share one bucket under a seed, in messages of 250.
fn desk_chosen_against(seed: u64) -> Desk {
    let spread = spread(seed);
    let sharing = |lot: u8| {
        let pools = (0..10_000_000).map(move |number| {
            let mut pool = pool(number, FACE_CENTS);
            pool.matched.lot_id[1] = lot;
            pool
        });
        let pools: Vec<DraftPool> = pools.filter(|pool| bucket(&spread, pool) == 0).collect();
        pools.chunks_exact(POOLS as usize).map(|pools| lot_of(pools.to_vec(), b'0')).collect::<Vec<_>>()
    };
    desk_of([b'A', b'B'].into_iter().flat_map(sharing).take(15))
}

fn lent(pools: &[(DraftPool, [u8; 4])]) -> Vec<(DraftPool, &[u8; 4])> {
    pools.iter().map(|(pool, terminator)| (pool.clone(), terminator)).collect()
}

/// A desk with as many trades as a book holds, no two with the same terms, and no live pools.
fn desk_of_trades() -> Desk {
    let mut values = reference::day::opening_values();
    let one = values.trades[0].clone();
    let numbered = |i: usize| {
        let mut trade = one.clone();
        trade.id = format!("TRADE-{i:02}").into_bytes();
        trade.cusip[7..].copy_from_slice(format!("{i:02}").as_bytes());
        trade
    };
    values.trades = (0..TRADES_MAX).map(numbered).collect();
    Desk::open(&values, TABLE_MAX)
}

/// Makes a book what another is, in its own place.
fn set_back(client: &mut rhoikandra::Book, before: &rhoikandra::Book) {
    client.raw_mut().words.copy_from_slice(&before.raw().words);
    client.raw_mut().pools.copy_from_slice(&before.raw().pools);
}

/// Whether the floor finds a book's table sound.
fn floor_finds(book: &rhoikandra::Book) -> bool {
    floor::sound(&book.raw().words, &book.raw().pools)
}

/// The facts of soundness that the floor does not read: those of the values and of the line.
const UNREAD: [&str; 2] = ["opening's rules", "inbound counter"];

/// On a book, damaged or not, the engine and the floor find the same, but for what the floor does not read.
fn hold_floor(name: &str, book: &Book, table: &[PoolRecord]) {
    let client = held(book, table);
    let unread = FACTS.iter().filter(|(fact, _)| UNREAD.contains(fact)).all(|(_, holds)| holds(book, table));
    assert_eq!(client.figures(0).is_some(), unread && floor_finds(&client), "{name}");
}

/// The same of a sound book, of one for each clause of 42, and of many with a random value in a random field.
fn hold_floor_on_damaged() {
    let (book, table) = sound_book();
    assert!(floor_finds(&held(&book, &table)));
    hold_floor("a sound book", &book, &table);
    for (name, damage) in BOOK_DAMAGES {
        let (mut book, mut table) = sound_book();
        damage(&mut book, &mut table);
        hold_floor(name, &book, &table);
    }
    let mut random = Random::from_seed(42);
    for _ in 0..20_000 {
        let (mut book, mut table) = sound_book();
        scribble(&mut random, &mut book, &mut table);
        hold_floor("a random value in a random field", &book, &table);
    }
}

/// The least that a call on each body took, in seconds.
struct Least(Vec<f64>);

impl Least {
    fn of(bodies: usize) -> Least {
        Least(vec![f64::INFINITY; bodies])
    }

    fn take(&mut self, body: usize, took: Duration) {
        self.0[body] = self.0[body].min(took.as_secs_f64());
    }

    /// The microseconds of a frame, each body counted once.
    fn micros(&self) -> f64 {
        self.0.iter().sum::<f64>() * 1e6 / self.0.len() as f64
    }
}

/// Puts each body to the same book, round after round, by both in turn, and reads its table; the book is set back in its place
/// between them, untimed. Of each body the quickest call counts: what else the machine does only adds to the others.
fn time(name: &str, desk: &Desk, bodies: &[Vec<u8>], rounds: usize) -> f64 {
    time_by(name, desk, bodies, rounds, rhoikandra::Book::step_into)
}

/// The same for one way to call the engine; gives the engine's microseconds.
fn time_by(
    name: &str,
    desk: &Desk,
    bodies: &[Vec<u8>],
    rounds: usize,
    call: impl Fn(&mut rhoikandra::Book, &[u8], &[u8; 6], &mut [u8]) -> rhoikandra::Said,
) -> f64 {
    let before = held(&desk.book, &desk.table);
    let mut client = before.clone();
    let (mut book, mut table) = (desk.book.clone(), desk.table.clone());
    let [mut engine, mut reference, mut floor] = [(); 3].map(|()| Least::of(bodies.len()));
    hold_floor(name, &book, &table);
    let mut answers = Vec::new();
    for turn in 0..rounds * bodies.len() {
        let at = turn % bodies.len();
        let body = &bodies[at];
        let mut output = [0; OUTPUT];

        set_back(&mut client, &before);
        let began = Instant::now();
        let answer = black_box(call(&mut client, black_box(body), b"000000", &mut output));
        engine.take(at, began.elapsed());

        book.clone_from(&desk.book);
        table.copy_from_slice(&desk.table);
        let began = Instant::now();
        let step =
            black_box(frame_call(&mut book, &mut table, &mut output, b"000000", black_box(body), Default::default()));
        reference.take(at, began.elapsed());

        set_back(&mut client, &before);
        let began = Instant::now();
        let sound = black_box(floor_finds(black_box(&client)));
        floor.take(at, began.elapsed());

        assert!(sound, "{name}");
        assert_eq!(told(answer.answer), step.answer, "{name}");
        if !answers.contains(&step.answer) {
            answers.push(step.answer);
        }
    }
    println!(
        "{name:<52} {:>9.2} {:>9.2} {:>9.2} {:>7.2}   {:>9.0} frames/s   {}",
        engine.micros(),
        reference.micros(),
        floor.micros(),
        reference.micros() / engine.micros(),
        1e6 / engine.micros(),
        answers.iter().map(|answer| answer.to_string()).collect::<Vec<_>>().join(", "),
    );
    engine.micros()
}

fn main() {
    hold_floor_on_damaged();
    println!("{:<52} {:>9} {:>9} {:>9} {:>7}", "microseconds a frame", "engine", "reference", "floor", "ratio");

    let empty = desk(0);
    let small: Vec<Vec<u8>> = (1..=3).map(|n| empty.on(0, 0, &lent(&odd_lot(0, n, b'0'))).body()).collect();
    time("ON of 1 to 3 pools, no live pools", &empty, &small, 3000);

    let mut random = Random::from_seed(2026);
    let storm: Vec<Vec<u8>> = (0..500)
        .map(|_| {
            let mut body = small[random.below(3) as usize].clone();
            match random.below(4) {
                0 => body.truncate(random.below(body.len() as u64) as usize),
                1 => body = random.bytes(386),
                _ => {
                    let at = random.below(187) as usize;
                    body[at] = random.number() as u8;
                }
            }
            body
        })
        .collect();
    time("malformed frames, no live pools", &empty, &storm, 30);

    let trades = desk_of_trades();
    let last = trades.on(TRADES_MAX - 1, 0, &lent(&odd_lot(9_000, 1, b'0'))).body();
    time("ON of 1 pool to the last of 64 trades", &trades, &[last], 3000);

    for live in [0, 500, 1000, 2000, 4000] {
        let desk = desk(live);
        let on = desk.on(0, 0, &lent(&odd_lot(9_000, 1, b'0'))).body();
        time(&format!("ON of 1 pool, {live} live pools"), &desk, &[on], 3000);
    }

    let usual = desk(3750);
    let chosen = desk_chosen_against(0);
    let on = [usual.on(0, 0, &lent(&odd_lot(9_000, 1, b'0'))).body()];
    let usual = time("ON of 1 pool, 3,750 live pools", &usual, &on, 1000);
    let unknown = time("the same, fields chosen against seed 0", &chosen, &on, 1000);
    time_by("the same by seed 0", &chosen, &on, 100, |book, body, time, output| book.step_by(0, body, time, output));
    assert!(unknown <= 2.0 * usual, "fields chosen against another seed made a call slow");

    let full = desk(4000);
    let target = 8;
    let first = (target - 1) * POOLS;
    let on = full.on(0, 0, &lent(&odd_lot(9_000, POOLS, b'0'))).body();
    time("ON of 250 pools, 4,000 live pools (40)", &full, &[on], 400);
    let on = desk(3750).on(0, 0, &lent(&odd_lot(9_000, POOLS, b'0'))).body();
    time("ON of 250 pools, 3,750 live pools", &desk(3750), &[on], 400);
    let mut pools = odd_lot(first, POOLS, b'0').into_iter().map(|(pool, _)| pool).collect::<Vec<_>>();
    time("DK of 250 pools in order, 4,000 live pools", &full, &[full.dk(0, target, &pools).body()], 400);
    random.shuffle(&mut pools);
    time("DK of 250 pools in any order, 4,000 live pools", &full, &[full.dk(0, target, &pools).body()], 400);

    let (desk, cc) = single_lots();
    time("CC of 125 pools for 125, 4,000 live pools", &desk, &[desk.cc(0, target, &lent(&cc)).body()], 400);
}

/// A desk with 4,000 live pools, where message 8 brought good lots of one pool and one million each, and a CC that replaces 125 of them.
fn single_lots() -> (Desk, Vec<(DraftPool, [u8; 4])>) {
    const MILLION_CENTS: u64 = 100_000_000;
    let mut values = reference::day::opening_values();
    values.trades[0].par_cents = CENTS_MAX;
    let mut desk = Desk::open(&values, TABLE_MAX);
    for message in 0..16 {
        let first = message * POOLS;
        let pools: Vec<(DraftPool, [u8; 4])> = if message == 7 {
            (0..POOLS).map(|i| (pool(first + i, MILLION_CENTS), *b"0001")).collect()
        } else {
            odd_lot(first, POOLS, b'0')
        };
        let millions = if message == 7 { POOLS } else { 0 };
        assert_eq!(desk.send(&desk.on(0, millions, &lent(&pools))), Answer::Accepted);
    }
    let first = 7 * POOLS;
    let canceled = (0..125).map(|i| (pool(first + i, MILLION_CENTS), *b"6001"));
    let new = (0..125).map(|i| (pool(9_000 + i, MILLION_CENTS), *b"7001"));
    let cc = canceled.zip(new).flat_map(|(old, new)| [old, new]).collect();
    (desk, cc)
}
