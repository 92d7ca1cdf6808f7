//! Prints the report on standard input.

use plain::report::{MAX_INPUT, report_on};
use std::io::{Read, Write};

fn main() -> std::io::Result<()> {
    let mut input = Vec::new();
    std::io::stdin().take(MAX_INPUT as u64 + 1).read_to_end(&mut input)?;
    std::io::stdout().write_all(report_on(&input).as_bytes())
}
