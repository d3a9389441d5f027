//! The floor: what 42 asks of a table, in plain Rust, as quick as the machine lets it be. It decides nothing: it shows how
//! much of a call is the reading of its table, and how far the engine has to go. It asks nothing of the values and the line.

use rhoikandra::Pool;

/// The places of a book's words: those of a trade's par and open par among its own, and those after the trades.
const TRADE_WORDS: usize = 42;
const PAR: usize = 40;
const OPEN_PAR: usize = 41;
const TRADES: usize = 2688;
const LAST_MESSAGE: usize = 2734;
const LIVE: usize = 2739;

const TRADES_MAX: usize = 64;
const RECORDS_MAX: usize = 4_096;
const CENTS_MAX: u64 = 99_999_999_999;
const MILLION_CENTS: u64 = 100_000_000;
const MILLIONS_MAX: u64 = 99;
const GOOD: u64 = 1;
const ODD: u64 = 2;
const BAD: u64 = 3;

/// The slots that matched fields are spread over: twice the records, so that a free one is always near.
const SLOTS_BITS: u32 = 13;
const SLOTS: usize = 1 << SLOTS_BITS;

/// The matched fields and the two spare bytes after them, as they lie, in three numbers.
#[inline(always)]
fn bytes(pool: &Pool) -> [u64; 3] {
    let Pool { lot: l, pool: p, original: o, spare: s, .. } = pool;
    [
        u64::from_le_bytes([l[0], l[1], l[2], l[3], l[4], l[5], p[0], p[1]]),
        u64::from_le_bytes([p[2], p[3], p[4], p[5], p[6], o[0], o[1], o[2]]),
        u64::from_le_bytes([o[3], o[4], o[5], o[6], o[7], o[8], s[0], s[1]]),
    ]
}

/// What of the third number is no spare byte.
const FIELDS: u64 = (1 << 48) - 1;

/// The matched fields alone.
#[inline(always)]
fn key(pool: &Pool) -> [u64; 3] {
    let [a, b, c] = bytes(pool);
    [a, b, c & FIELDS]
}

/// A record as it lies, in nine numbers.
#[inline(always)]
fn numbers(pool: &Pool) -> [u64; 9] {
    let [a, b, c] = bytes(pool);
    [pool.message, pool.ordinal, pool.trade, a, b, c, pool.current, pool.kind, pool.millions]
}

/// Whether all records are zeros: they are joined bit by bit, two at a time, and the join is tested once.
fn blank(pools: &[Pool]) -> bool {
    let (pairs, odd) = pools.as_chunks::<2>();
    let mut joined = [0; 18];
    for [one, two] in pairs {
        let (one, two) = (numbers(one), numbers(two));
        for i in 0..9 {
            joined[i] |= one[i];
            joined[9 + i] |= two[i];
        }
    }
    let odd = odd.first().map_or([0; 9], numbers);
    (0..9).all(|i| (joined[i] | joined[9 + i] | odd[i]) & if i == 5 { FIELDS } else { u64::MAX } == 0)
}

/// The slot where the search for a key begins. It has no seed: no sender's pools come here.
#[inline(always)]
fn slot(key: &[u64; 3]) -> usize {
    let by = [0x9e37_79b9_7f4a_7c15, 0xbf58_476d_1ce4_e5b9, 0x94d0_49bb_1331_11eb];
    let sum = key.iter().zip(by).fold(0u64, |sum, (part, by)| sum.wrapping_add(part.wrapping_mul(by)));
    (sum >> (u64::BITS - SLOTS_BITS)) as usize
}

/// Whether a table is what 42 asks for: no longer than a table can be, the live records within it, each of them in range and
/// in order, matched fields once under a message, weights that make up par with open par, and zeros after the live ones.
pub fn sound(words: &[u64], pools: &[Pool]) -> bool {
    let live = words[LIVE];
    if pools.len() > RECORDS_MAX || live > pools.len() as u64 {
        return false;
    }
    let (live, rest) = pools.split_at(live as usize);
    let (trades, last) = (words[TRADES], words[LAST_MESSAGE]);
    let mut weights = [0; TRADES_MAX];
    let pars = words.chunks_exact(TRADE_WORDS).map(|trade| (trade[PAR], trade[OPEN_PAR])).take(trades as usize);
    blank(rest)
        && (live.is_empty() || live_sound(live, trades, last, &mut weights))
        && pars.zip(weights).all(|((par, open), weight)| open.checked_add(weight) == Some(par))
}

/// The same of the live records; adds up what the lots of each trade weigh.
fn live_sound(live: &[Pool], trades: u64, last: u64, weights: &mut [u64; TRADES_MAX]) -> bool {
    // In a slot the number of a record, from 1. Those before the message at hand are as good as none.
    let mut slots = [0u16; SLOTS];
    let mut before = &Pool::default();
    let mut first = 0;
    let mut fine = live.first().is_none_or(|pool| starts_lot(pool, trades, last));
    for (at, pool) in live.iter().enumerate() {
        let same_message = pool.message == before.message;
        let same_lot = same_message & (pool.ordinal == before.ordinal);
        fine &= pool.current <= CENTS_MAX;
        if same_lot {
            fine &= (pool.trade == before.trade) & (pool.kind == before.kind) & (pool.millions == before.millions);
        } else {
            fine &= starts_lot(pool, trades, last) & (pool.message >= before.message);
            fine &= !same_message | ((pool.ordinal > before.ordinal) & (pool.trade == before.trade));
            first = if same_message { first } else { at };
        }
        let good = pool.kind == GOOD;
        let of_lot = if same_lot { 0 } else { pool.millions.wrapping_mul(MILLION_CENTS) };
        let sum = &mut weights[pool.trade as usize % TRADES_MAX];
        *sum = sum.wrapping_add(if good { of_lot } else { pool.current });

        let fields = key(pool);
        let mut place = slot(&fields);
        while usize::from(slots[place]) > first {
            fine &= key(&live[usize::from(slots[place]) - 1]) != fields;
            place = (place + 1) % SLOTS;
        }
        slots[place] = at as u16 + 1;
        before = pool;
    }
    fine
}

/// What is asked of a lot's first record by itself; the others agree with it.
#[inline(always)]
fn starts_lot(pool: &Pool, trades: u64, last: u64) -> bool {
    let kind = if pool.kind == GOOD {
        (1..=MILLIONS_MAX).contains(&pool.millions)
    } else {
        (ODD..=BAD).contains(&pool.kind) & (pool.millions == 0)
    };
    (pool.trade < trades) & (1..=last).contains(&pool.message) & (pool.ordinal > 0) & kind
}
