//! Runs seeded days and asks demand 3 after every message, and that every number is met often.

use std::collections::BTreeMap;

use reference::acknowledgment::{AA_WIDTH, OUTPUT_MIN};
use reference::answer::{Answer, SILENT, UNSOUND_BOOK};
use reference::book::{Book, PoolRecord};
use reference::claims::{demand_3, Claims};
use reference::columns::{CONTRA, TARGET};
use reference::damage::scribble;
use reference::frame_call::frame_call;
use reference::generator::{day, tape, Day, Random, CAUSED};
use reference::history::History;
use reference::lots::Kind;
use reference::message::{Message, Type};
use reference::opening::open;
use reference::soundness::first_broken;
use reference::tally::Tally;
use reference::terms::{agree, FSTI};

type Met = BTreeMap<(String, Answer), u32>;

/// How often a situation that a day should hold came up.
type Situations = BTreeMap<&'static str, u32>;

/// Runs a day, asserts what every call leaves, and counts the answers by type.
fn run(day: &Day, met: &mut Met, situations: &mut Situations) {
    let seed = day.seed;
    let mut random = Random::from_seed(!seed);
    let mut types_by_id = BTreeMap::new();
    let mut table = vec![PoolRecord::EMPTY; day.records];
    let mut book = open(&day.opening, &mut table).expect("the day opens");
    let mut history = History::new(&day.opening);
    let mut tally = Tally::default();
    for (at, call) in day.calls.iter().enumerate() {
        let (book_before, table_before) = (book.clone(), table.clone());
        let mut output = vec![0x5a; call.output_length];
        let step = frame_call(&mut book, &mut table, &mut output, &call.time, &call.body, tally);
        let accepted = step.answer == Answer::Accepted;
        tally = step.tally;
        history.feed(&call.body, accepted);

        let claims = demand_3(&history, &book, &table);
        assert_eq!(claims, Claims::ALL_HOLD, "seed {seed}, call {at}");
        assert_eq!(first_broken(&book, &table), None, "seed {seed}, call {at}");
        assert_eq!(history.last_message_id(), book.values.last_message_id);
        assert!(output[step.written..].iter().all(|byte| *byte == 0x5a));
        if !accepted {
            assert_eq!(table, table_before, "seed {seed}, call {at}");
            assert_eq!(book.open_par_cents, book_before.open_par_cents);
            assert_eq!(book.live_count, book_before.live_count);
        }
        let silent = SILENT.contains(&step.answer.code());
        assert_eq!(step.written == 0, silent);
        if silent {
            assert_eq!(book, book_before);
        }
        let message = Message::read(&call.body);
        let message_type = message.and_then(|message| message.message_type());
        if let (true, Some(message)) = (accepted, message) {
            types_by_id.insert(book.values.last_message_id, message_type);
            for situation in seen(&message, &types_by_id, &book, &table) {
                *situations.entry(situation).or_default() += 1;
            }
        }
        if step.written > AA_WIDTH {
            *situations.entry("gap").or_default() += 1;
        }
        if random.percent(10) && !damaged_is_sound(&mut random, &book, &table, &call.body) {
            *met.entry(("damaged".to_string(), Answer::Rejected(UNSOUND_BOOK))).or_default() += 1;
        }
        *met.entry((format!("{message_type:?}"), step.answer)).or_default() += 1;
    }
}

/// The situations that an accepted message shows.
fn seen(
    message: &Message,
    types_by_id: &BTreeMap<u64, Option<Type>>,
    book: &Book,
    table: &[PoolRecord],
) -> Vec<&'static str> {
    let target = message.number(TARGET).and_then(|id| types_by_id.get(&id).copied().flatten());
    let groups = message.groups().unwrap_or_default();
    let lots = message.new_lots().unwrap_or_default();
    let on_without_id = message.message_type() == Some(Type::On) && message.trade_name().is_none();
    let placed = book.live(table).last().map(|pool| pool.trade);
    let first = book.values.trades.iter().position(|trade| agree(message, trade));
    let all = [
        ("CC on CC", message.message_type() == Some(Type::Cc) && target == Some(Type::Cc)),
        ("DK on CC", message.message_type() == Some(Type::Dk) && target == Some(Type::Cc)),
        ("DK on ON", message.message_type() == Some(Type::Dk) && target == Some(Type::On)),
        ("CC of several groups", groups.len() > 1),
        (
            "CC with kinds that differ",
            groups.iter().any(|g| g.canceled[0].kind != groups[0].canceled[0].kind),
        ),
        (
            "CC with several lots in a run",
            groups.iter().any(|g| g.canceled.len() > 1 && g.replacement.len() > 1),
        ),
        ("good lot", lots.iter().any(|lot| lot.kind == Kind::Good)),
        ("odd lot", lots.iter().any(|lot| lot.kind == Kind::Odd)),
        ("bad lot", lots.iter().any(|lot| lot.kind == Kind::Bad)),
        ("lot of weight 0", lots.iter().any(|lot| lot.weight_cents(&message.details()) == Some(0))),
        ("ON passing over a full trade", on_without_id && placed != first),
        ("against FSTI", message.field(CONTRA) == FSTI),
        ("table full", book.live_count == table.len()),
        ("more than 3,800 live pools", book.live_count > 3_800),
        ("trade fully allocated", book.open_par_cents.contains(&0)),
    ];
    all.into_iter().filter(|(_, holds)| *holds).map(|(name, _)| name).collect()
}

/// Damages a copy of the book; whether the copy is still sound. An unsound one is refused.
fn damaged_is_sound(random: &mut Random, book: &Book, table: &[PoolRecord], body: &[u8]) -> bool {
    let (mut book, mut table) = (book.clone(), table.to_vec());
    scribble(random, &mut book, &mut table);
    let sound = first_broken(&book, &table).is_none();
    let (book_before, table_before) = (book.clone(), table.clone());
    let output = &mut [0; OUTPUT_MIN];
    let step = frame_call(&mut book, &mut table, output, b"000000", body, Tally::default());
    assert_eq!(step.answer == Answer::Rejected(UNSOUND_BOOK), !sound);
    if !sound {
        assert_eq!((book, table), (book_before, table_before));
        assert_eq!(*output, [0; OUTPUT_MIN]);
    }
    sound
}

#[test]
fn demand_3_holds_after_every_message_and_every_number_is_met() {
    let (mut met, mut situations) = (Met::new(), Situations::new());
    for seed in 0..1_500 {
        run(&day(seed), &mut met, &mut situations);
    }
    let of = |number| {
        let counts = met.iter().filter(|((_, answer), _)| answer.code() == number);
        counts.map(|(_, count)| *count).sum::<u32>()
    };
    println!("accepted {}", of(0));
    for number in CAUSED.into_iter().chain([UNSOUND_BOOK]) {
        println!("{number} {}", of(number));
        assert!(of(number) >= 100, "{number} was met {} times", of(number));
    }
    for ((message_type, answer), count) in &met {
        println!("{message_type} {answer}: {count}");
    }
    for (situation, count) in &situations {
        println!("{situation}: {count}");
        assert!(*count >= 100, "{situation} came up {count} times");
    }
    assert_eq!(situations.len(), 16, "{situations:?}");
    for message_type in [Type::On, Type::Cc, Type::Dk] {
        let accepted = met[&(format!("{:?}", Some(message_type)), Answer::Accepted)];
        assert!(accepted >= 5_000, "{message_type:?} was accepted {accepted} times");
    }
}

#[test]
fn a_seed_gives_one_day() {
    for seed in 0..20 {
        assert_eq!(format!("{:?}", day(seed)), format!("{:?}", day(seed)));
        assert_eq!(tape(seed), tape(seed));
    }
}

#[test]
fn tapes_have_accepted_frames_and_others() {
    let mut both = 0;
    for seed in 0..200 {
        let lines = reference::day::lines(&tape(seed));
        let fields: Vec<&str> = lines.split_whitespace().collect();
        both += u32::from(fields[1] != "0" && fields[2] != "0");
    }
    assert!(both > 100);
}
