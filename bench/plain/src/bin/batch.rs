//! Prints the report on each of many inputs, each up to a line `----`.

use plain::report::{lines, report_on};
use std::io::{BufWriter, Read, Write};

fn main() -> std::io::Result<()> {
    let mut text = Vec::new();
    std::io::stdin().read_to_end(&mut text)?;
    let mut out = BufWriter::new(std::io::stdout().lock());
    let (mut begin, mut at) = (0, 0);
    for line in lines(&text) {
        if line == b"----" {
            out.write_all(report_on(&text[begin..at]).as_bytes())?;
            begin = at + line.len() + 1;
        }
        at += line.len() + 1;
    }
    out.flush()
}
