//! Inputs of `preflight`: range lines and a program.

use crate::damage::damage;
use crate::programs::program;
use crate::random::Random;
use crate::words::magnitude;

/// What parts the inputs of a batch.
pub const MARKER: &[u8] = b"----";

pub fn range(random: &mut Random) -> (i64, i64) {
    let lo = magnitude(random) * random.pick(&[-1, 1, 1, 1]);
    match random.below(5) {
        0 => (lo, lo),
        1 => (lo, lo + magnitude(random) - 2),
        _ => (lo.min(9_999_990), (lo + random.between(0, 9)).min(10_000_000)),
    }
}

fn range_line(random: &mut Random) -> String {
    let (lo, hi) = range(random);
    let p = random.between(1, 6);
    if !random.one_in(40) {
        return format!("?{p} {lo} {hi}");
    }
    match random.below(7) {
        0 => format!("?{} {lo} {hi}", random.pick(&[0, 7, 8, 9])),
        1 => format!("?{p} {hi} {lo}"),
        2 => format!("?{p}  {lo} {hi}"),
        3 => format!("?{p} {lo} {hi} "),
        4 => format!("?{p} +{lo} {hi}"),
        5 => format!("?{p} {lo:09} {hi}"),
        _ => format!("?{p} {lo} 10000001"),
    }
}

fn lengthen(random: &mut Random, lines: &mut Vec<Vec<u8>>) {
    let wanted = random.between(32_766, 32_770) as usize;
    let length = |lines: &[Vec<u8>]| lines.iter().map(|line| line.len() + 1).sum::<usize>();
    while length(lines) < wanted {
        let missing = (wanted - length(lines) - 1).min(120);
        lines.insert(0, format!("?1 0 {:0>1$}", 5, missing.saturating_sub(5).clamp(1, 8)).into_bytes());
    }
}

/// The lines of an input; half of the inputs are damaged.
pub fn input(random: &mut Random) -> Vec<Vec<u8>> {
    let ranges = random.pick(&[0, 1, 2, 4, 6]);
    let mut lines: Vec<Vec<u8>> = (0..ranges).map(|_| range_line(random).into_bytes()).collect();
    lines.extend(program(random).into_iter().map(String::into_bytes));
    for _ in 0..random.pick(&[0, 0, 0, 1, 1, 2]) {
        damage(random, &mut lines);
    }
    if random.one_in(3_000) {
        lengthen(random, &mut lines);
    }
    lines.retain(|line| line != MARKER);
    lines
}
