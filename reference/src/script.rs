//! Script: a day and all that its calls leave, in the line forms of `vectors/README.md`.

use crate::book::{Book, PoolRecord};
use crate::frame_call::frame_call;
use crate::generator::{Call, Day};
use crate::opening::open;
use crate::terms::Trade;
use crate::values::{Limits, OpeningValues};

/// The lines of a day: its opening, its frames with what each leaves, and its end.
pub fn lines(day: &Day) -> Vec<String> {
    let mut table = vec![PoolRecord::EMPTY; day.records];
    let mut book = open(&day.opening, &mut table).expect("a day's opening is in range");
    let mut lines = opening_lines(day);
    for call in &day.calls {
        lines.push(format!("frame {} {} {}", hex(&call.time), call.output_length, hex(&call.body)));
        let mut output = vec![0; call.output_length];
        let tally = Default::default();
        let step = frame_call(&mut book, &mut table, &mut output, &call.time, &call.body, tally);
        lines.push(format!("answer {}", step.answer));
        lines.push(format!("wrote {}", hex(&output[..step.written])));
        lines.extend(book_lines(&book));
    }
    let trades = 0..book.values.trades.len();
    lines.push(line("millions", trades.map(|trade| book.standing_millions(&table, trade))));
    lines.extend(book.live(&table).iter().map(pool_line));
    lines.push("end".to_string());
    lines
}

fn opening_lines(day: &Day) -> Vec<String> {
    let OpeningValues { limits, .. } = day.opening;
    let numbers = [
        day.opening.last_message_id,
        u64::from(day.opening.last_outbound),
        limits.gdmm_ceiling,
        limits.variance_cents_a_million,
        limits.pools_a_million,
        limits.least_face_dollars,
        day.records as u64,
    ];
    let (subscriber, connection) = (hex(&day.opening.subscriber), hex(&day.opening.connection));
    let mut lines = vec![format!("day {}", day.seed)];
    lines.push(line(&format!("open {subscriber} {connection}"), numbers.into_iter()));
    let holidays = day.opening.holidays.iter();
    lines.extend(holidays.map(|holiday| format!("holiday {}", String::from_utf8_lossy(holiday))));
    for trade in &day.opening.trades {
        let fields = [
            hex(&trade.id),
            hex(&trade.seller),
            hex(&trade.buyer),
            hex(&trade.contra),
            hex(&trade.cusip),
            String::from_utf8_lossy(&trade.settlement).into_owned(),
            trade.price.to_string(),
            trade.par_cents.to_string(),
        ];
        lines.push(line("trade", fields.into_iter()));
    }
    lines
}

fn book_lines(book: &Book) -> [String; 3] {
    let received = book.inbound.received.map_or("none".to_string(), |number| number.to_string());
    let numbers = [
        u64::from(book.inbound.expected),
        u64::from(book.values.last_outbound),
        book.values.last_message_id,
    ];
    [
        line(&format!("counters {received}"), numbers.into_iter()),
        line("par", book.open_par_cents.iter()),
        format!("live {}", book.live_count),
    ]
}

fn pool_line(pool: &PoolRecord) -> String {
    let fields = [
        pool.message_id.to_string(),
        pool.ordinal.to_string(),
        pool.trade.to_string(),
        hex(&pool.matched.lot_id),
        hex(&pool.matched.pool_number),
        hex(&pool.matched.original_face),
        pool.current_face_cents.to_string(),
        pool.kind.to_string(),
        pool.lot_millions.to_string(),
    ];
    line("pool", fields.into_iter())
}

fn line<T: ToString>(start: &str, fields: impl Iterator<Item = T>) -> String {
    fields.fold(start.to_string(), |line, field| line + " " + &field.to_string())
}

fn hex(bytes: &[u8]) -> String {
    match bytes {
        [] => "-".to_string(),
        _ => bytes.iter().map(|byte| format!("{byte:02x}")).collect(),
    }
}

/// Reads the opening and the calls of a day's lines; none where they are not in form.
pub fn read(lines: &[&str]) -> Option<Day> {
    let mut day = None;
    let mut seed = 0;
    for line in lines {
        let fields: Vec<&str> = line.split(' ').collect();
        match fields[0] {
            "day" => seed = fields.get(1)?.parse().ok()?,
            "open" => day = Some(read_open(seed, &fields[1..])?),
            "holiday" => {
                let holiday = fields.get(1)?.as_bytes().try_into().ok()?;
                day.as_mut()?.opening.holidays.push(holiday);
            }
            "trade" => day.as_mut()?.opening.trades.push(read_trade(&fields[1..])?),
            "frame" => day.as_mut()?.calls.push(read_call(&fields[1..])?),
            _ => {}
        }
    }
    day
}

fn read_open(seed: u64, fields: &[&str]) -> Option<Day> {
    let number = |at: usize| fields.get(at)?.parse::<u64>().ok();
    let opening = OpeningValues {
        trades: Vec::new(),
        holidays: Vec::new(),
        subscriber: array(fields.first()?)?,
        connection: array(fields.get(1)?)?,
        last_message_id: number(2)?,
        last_outbound: number(3)?.try_into().ok()?,
        limits: Limits {
            gdmm_ceiling: number(4)?,
            variance_cents_a_million: number(5)?,
            pools_a_million: number(6)?,
            least_face_dollars: number(7)?,
        },
    };
    Some(Day { seed, opening, records: number(8)? as usize, calls: Vec::new() })
}

fn read_trade(fields: &[&str]) -> Option<Trade> {
    let [id, seller, buyer, contra, cusip, settlement, price, par] = fields else {
        return None;
    };
    Some(Trade {
        id: bytes(id)?,
        seller: array(seller)?,
        buyer: array(buyer)?,
        contra: array(contra)?,
        cusip: array(cusip)?,
        settlement: settlement.as_bytes().try_into().ok()?,
        price: price.parse().ok()?,
        par_cents: par.parse().ok()?,
    })
}

fn read_call(fields: &[&str]) -> Option<Call> {
    let [time, output_length, body] = fields else {
        return None;
    };
    Some(Call {
        time: array(time)?,
        output_length: output_length.parse().ok()?,
        body: bytes(body)?,
    })
}

fn array<const WIDTH: usize>(hex: &str) -> Option<[u8; WIDTH]> {
    bytes(hex)?.try_into().ok()
}

fn bytes(hex: &str) -> Option<Vec<u8>> {
    if hex == "-" {
        return Some(Vec::new());
    }
    let pairs = (0..hex.len()).step_by(2);
    pairs.map(|at| u8::from_str_radix(hex.get(at..at + 2)?, 16).ok()).collect()
}
