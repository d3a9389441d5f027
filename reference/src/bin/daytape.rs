//! Daytape: reads a tape from standard input and prints the day and the trade.

use std::io::{self, Read, Write};

use reference::day::{lines, TAPE_MAX};

fn main() -> io::Result<()> {
    let mut tape = Vec::new();
    io::stdin().lock().take(TAPE_MAX as u64).read_to_end(&mut tape)?;
    io::stdout().lock().write_all(lines(&tape).as_bytes())
}
