//! Measures the proved crates beside plain Rust, on the same inputs in the same process.

mod programs;
mod proved;
mod timing;
mod unproved;

use programs::{ROUND, branches, full, in_a_row, nested, straight};
use timing::{both, row};

const STEPS: u32 = 100_000;

fn reading(what: &str, text: &str) {
    let text = text.as_bytes();
    row(what, both(|| proved::read(text).into(), || unproved::read(text).into()));
}

/// What reading the program costs is taken off.
fn certifying(what: &str, text: &str) {
    let text = text.as_bytes();
    let once = both(|| proved::certify(text, 1) as u64, || unproved::certify(text, 1) as u64);
    let more = both(|| proved::certify(text, 5) as u64, || unproved::certify(text, 5) as u64);
    row(what, ((more.0 - once.0) / 4.0, (more.1 - once.1) / 4.0));
}

fn running(what: &str, text: &str) {
    let text = text.as_bytes();
    let steps = both(|| proved::steps(text, STEPS).into(), || unproved::steps(text, STEPS).into());
    row(&format!("100,000 steps of a certified run, {what}"), steps);
    let dry = both(|| proved::dry(text, STEPS).into(), || unproved::dry(text, STEPS).into());
    row(&format!("a dry run of 100,000 steps, {what}"), dry);
}

fn main() {
    let examples: Vec<(String, String)> = std::env::args()
        .skip(1)
        .map(|path| {
            (path.rsplit('/').next().unwrap_or(&path).to_owned(), std::fs::read_to_string(&path).expect("an example"))
        })
        .collect();
    println!("| what | proved, µs | plain, µs | proved / plain |\n|---|---|---|---|");
    reading("read 128 long lines", &full());
    reading("read 128 short lines", &straight(128));
    for (name, text) in &examples {
        certifying(&format!("certify {name}"), text);
    }
    certifying("certify 128 long lines in 16 loops", &full());
    running("a loop of six lines", ROUND);
    for lines in [16, 32, 64, 128] {
        certifying(&format!("certify {lines} lines, no block"), &straight(lines));
    }
    for count in [1, 2, 4, 8, 16] {
        certifying(&format!("certify 128 lines, {count} loops in a row"), &in_a_row(count, 128));
    }
    for count in [1, 2, 4, 8, 16] {
        certifying(&format!("certify 128 lines, {count} branches in a row"), &branches(count, 128));
    }
    for depth in [1, 2, 4, 8, 16] {
        certifying(&format!("certify 128 lines, loops {depth} deep"), &nested(depth, 128));
    }
}
