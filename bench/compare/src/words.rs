//! Numbers, terms, values and conditions, as a program may write them.

use crate::random::Random;

/// Numbers at which something changes.
const EDGES: [i64; 18] = [
    0, 1, 2, 499, 500, 3_162, 3_163, 79_999, 80_000, 80_001, 1_250_000, 1_250_001, 2_499_999, 2_500_000, 2_500_001,
    9_999_999, 10_000_000, 10_000_000,
];

pub fn magnitude(random: &mut Random) -> i64 {
    match random.below(6) {
        0 => random.pick(&EDGES),
        1 => random.between(0, 10_000_000),
        2 => random.between(0, 5_000),
        _ => random.between(0, 12),
    }
}

pub fn blanks(random: &mut Random) -> &'static str {
    random.pick(&["", "", "", "", " ", "  "])
}

/// The parts with blanks round them, now and then in small letters.
pub fn spaced(random: &mut Random, parts: &[String]) -> String {
    let mut text = blanks(random).to_owned();
    for part in parts {
        let small = random.one_in(6);
        text.push_str(&if small { part.to_ascii_lowercase() } else { part.clone() });
        text.push_str(blanks(random));
    }
    text
}

pub fn digits(random: &mut Random, n: i64) -> String {
    if random.one_in(12) {
        let width = random.below(9);
        return format!("{n:0width$}");
    }
    n.to_string()
}

/// `#` and one of the parameters.
pub fn parameter(random: &mut Random, parts: &mut Vec<String>) {
    let p = random.between(1, 6);
    parts.push("#".to_owned());
    parts.push(digits(random, p));
}

pub fn term(random: &mut Random, parts: &mut Vec<String>) {
    if random.below(2) == 0 {
        return parameter(random, parts);
    }
    match random.below(8) {
        0 => parts.push("+".to_owned()),
        1 | 2 => parts.push("-".to_owned()),
        _ => {}
    }
    let n = magnitude(random);
    parts.push(digits(random, n));
}

pub fn value(random: &mut Random, parts: &mut Vec<String>) {
    if random.one_in(3) {
        return term(random, parts);
    }
    parts.push("[".to_owned());
    term(random, parts);
    parts.push(random.pick(&["+", "-", "*"]).to_owned());
    term(random, parts);
    parts.push("]".to_owned());
}

pub fn condition(random: &mut Random, parts: &mut Vec<String>) {
    parts.push("[".to_owned());
    term(random, parts);
    parts.push(random.pick(&["EQ", "NE", "LT", "LE", "GT", "GE"]).to_owned());
    term(random, parts);
    parts.push("]".to_owned());
}
