//! Programs made from the grammar: settings, moves, counted loops, other loops and branches.

use crate::random::Random;
use crate::words::{condition, digits, magnitude, parameter, spaced, value};

pub struct Maker<'a> {
    pub random: &'a mut Random,
    pub lines: Vec<String>,
    /// The parameter that the innermost counted loop counts.
    counter: i64,
}

/// A place that the gantry of the examples has, for each axis.
const PLACES: [(&str, i64, i64); 4] = [("X", 0, 2_500_000), ("Y", 0, 1_250_000), ("Z", -80_000, 0), ("U", 0, 0)];

impl Maker<'_> {
    fn push(&mut self, parts: &[String]) {
        let line = spaced(self.random, parts);
        self.lines.push(line);
    }

    fn write(&mut self, words: &str) {
        let parts: Vec<String> = words.split(' ').map(str::to_owned).collect();
        self.push(&parts);
    }

    fn setting(&mut self) {
        let mut parts = Vec::new();
        parameter(self.random, &mut parts);
        parts.push("=".to_owned());
        value(self.random, &mut parts);
        self.push(&parts);
    }

    fn axis_value(&mut self, lo: i64, hi: i64, parts: &mut Vec<String>) {
        match self.random.below(4) {
            0 => value(self.random, parts),
            1 | 2 => {
                let p = if self.random.one_in(3) { self.random.between(1, 6) } else { self.counter };
                let factor = self.random.pick(&[1, 10, 500, 1_000, 100_000]);
                let words = format!("[ # {p} * {factor} ]");
                parts.extend(words.split(' ').map(str::to_owned));
            }
            _ => {
                let n = self.random.between(lo, hi);
                if n < 0 {
                    parts.push("-".to_owned());
                }
                parts.push(digits(self.random, n.abs()));
            }
        }
    }

    fn motion(&mut self) {
        let g = self.random.between(0, 1);
        let mut parts = vec!["G".to_owned(), digits(self.random, g)];
        let mut axes = PLACES.to_vec();
        for _ in 0..self.random.between(1, 4) {
            let (axis, lo, hi) = axes.remove(self.random.below(axes.len()));
            parts.push(axis.to_owned());
            self.axis_value(lo, hi, &mut parts);
        }
        self.push(&parts);
    }

    fn open(&mut self, label: i64, word: &str) {
        let mut parts = vec!["O".to_owned(), digits(self.random, label), word.to_owned()];
        condition(self.random, &mut parts);
        self.push(&parts);
    }

    fn branch(&mut self, depth: usize) {
        let label = self.random.between(1, 9_999);
        self.open(label, "IF");
        self.body(depth);
        self.write(&format!("O {label} ENDIF"));
    }

    fn any_loop(&mut self, depth: usize) {
        let label = self.random.between(1, 9_999);
        self.open(label, "WHILE");
        self.body(depth);
        self.write(&format!("O {label} ENDWHILE"));
    }

    fn counted_loop(&mut self, depth: usize) {
        let label = self.random.between(1, 9_999);
        let p = self.random.between(1, 6);
        let (from, to) = (self.random.between(0, 4), magnitude(self.random).min(3_000));
        let step = self.random.between(1, 3);
        let (start, relation, sign, bound) = match self.random.below(4) {
            0 => (to, "GT", '-', from),
            1 => (from, "LE", '+', to),
            2 => (from, "NE", '+', from + step * self.random.between(0, 9)),
            _ => (from, "LT", '+', to),
        };
        self.write(&format!("# {p} = {start}"));
        self.write(&format!("O {label} WHILE [ # {p} {relation} {bound} ]"));
        let outer = std::mem::replace(&mut self.counter, p);
        self.body(depth);
        self.counter = outer;
        self.write(&format!("# {p} = [ # {p} {sign} {step} ]"));
        self.write(&format!("O {label} ENDWHILE"));
    }

    /// Some lines, with blocks in one another up to the depth.
    pub fn body(&mut self, depth: usize) {
        for _ in 0..self.random.between(1, 4) {
            let kinds = if depth > 0 { 8 } else { 5 };
            match self.random.below(kinds) {
                0 => self.lines.push(" ".repeat(self.random.below(3))),
                1 | 2 => self.setting(),
                3 | 4 => self.motion(),
                5 => self.branch(depth - 1),
                6 => self.any_loop(depth - 1),
                _ => self.counted_loop(depth - 1),
            }
        }
    }
}

/// The lines of a program.
pub fn program(random: &mut Random) -> Vec<String> {
    let depth = random.pick(&[0, 1, 1, 2, 2, 3, 5]);
    let mut maker = Maker { random, lines: Vec::new(), counter: 1 };
    for _ in 0..maker.random.pick(&[1, 1, 1, 2, 3]) {
        maker.body(depth);
    }
    if maker.random.one_in(60) {
        let more = maker.random.between(100, 131) as usize;
        while maker.lines.len() < more {
            maker.body(0);
        }
    }
    maker.lines
}
