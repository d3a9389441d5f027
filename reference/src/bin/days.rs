//! Days: prints the seeded days from one seed up to another, in the line forms of the vectors.

use std::io::{self, Write};

use reference::generator::day;
use reference::script::lines;

fn main() -> io::Result<()> {
    let mut seeds = std::env::args().skip(1).map(|seed| seed.parse::<u64>());
    let (Some(Ok(first)), Some(Ok(last)), None) = (seeds.next(), seeds.next(), seeds.next()) else {
        return Err(io::Error::other("usage: days FIRST_SEED LAST_SEED"));
    };
    let mut out = io::BufWriter::new(io::stdout().lock());
    for seed in first..=last {
        for line in lines(&day(seed)) {
            writeln!(out, "{line}")?;
        }
    }
    out.flush()
}
