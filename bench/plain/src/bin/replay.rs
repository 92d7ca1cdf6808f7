//! Prints the answers to a script of session commands.

use plain::script::replay;
use std::io::{Read, Write};

fn main() -> std::io::Result<()> {
    let mut script = Vec::new();
    std::io::stdin().read_to_end(&mut script)?;
    std::io::stdout().write_all(replay(&script).as_bytes())
}
