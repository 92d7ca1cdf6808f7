//! Scripts for `replay`: a table, a program, and calls of every kind.

use crate::damage::damage;
use crate::inputs::range;
use crate::programs::program;
use crate::random::Random;
use crate::words::magnitude;

const DOMAINS: [&str; 5] =
    ["intervals", "congruences", "intervals*congruences", "congruences*intervals", "intervals*intervals"];

const PARAMETERS: usize = 6;

struct Writer<'a> {
    random: &'a mut Random,
    lines: Vec<Vec<u8>>,
    /// What has been allowed, as far as it was lawful.
    allowed: [(i64, i64); PARAMETERS],
}

fn joined(numbers: &[i64]) -> String {
    numbers.iter().map(|n| format!(" {n}")).collect()
}

impl Writer<'_> {
    fn push(&mut self, line: String) {
        self.lines.push(line.into_bytes());
    }

    fn ends(&mut self) -> Vec<i64> {
        let wide = !self.random.one_in(3);
        let far = if wide { 10_000_000 } else { magnitude(self.random) };
        let home: Vec<i64> = (0..4).map(|_| self.random.between(-5, 5)).collect();
        let mut lower: Vec<i64> = home.iter().map(|h| (h - far).max(-10_000_000)).collect();
        let mut upper: Vec<i64> = home.iter().map(|h| (h + far).min(10_000_000)).collect();
        if self.random.one_in(6) {
            lower[self.random.below(4)] = magnitude(self.random);
            upper[self.random.below(4)] = self.random.pick(&[-6, 0, 3, 10_000_001]);
        }
        [lower, upper, home].concat()
    }

    fn table(&mut self) {
        self.allowed = [(0, 0); PARAMETERS];
        let line = match self.random.below(5) {
            0 => "benchgantry".to_owned(),
            1 => "benchbeam".to_owned(),
            2 | 3 => format!("gantry{}", joined(&self.ends())),
            _ => {
                let mut numbers = self.ends();
                numbers[11] += self.random.between(0, 9);
                numbers[7] = numbers[7].max(numbers[11]);
                let gap = self.random.pick(&[-1, 0, 1, 2, 5, 10_000_001]);
                format!("beam{} {gap}", joined(&numbers))
            }
        };
        self.push(line);
    }

    fn allow(&mut self) {
        let p = self.random.between(1, 6);
        let (lo, hi) = range(self.random);
        if lo <= hi {
            self.allowed[p as usize - 1] = (lo, hi);
        }
        let p = if self.random.one_in(30) { self.random.pick(&[-1, 0, 7, 99_999_999]) } else { p };
        self.push(format!("allow {p} {lo} {hi}"));
    }

    fn values(&mut self) -> String {
        let mut values = Vec::new();
        for (lo, hi) in self.allowed {
            values.push(self.random.between(lo, hi));
        }
        if self.random.one_in(5) {
            values[self.random.below(PARAMETERS)] = self.random.pick(&[-1, 0, 5, 10_000_000, 10_000_001, 99_999_999]);
        }
        joined(&values)
    }

    fn certify(&mut self) {
        let domain = self.random.pick(&DOMAINS);
        let states = self.random.pick(&[16, 16, 16, 16, 16, 32, 5, 2, 1, 0, 99_999_999]);
        self.push(format!("certify {domain} {states}"));
    }

    fn run(&mut self) {
        if !self.random.one_in(4) {
            self.certify();
        }
        let values = self.values();
        self.push(format!("start{values}"));
        for _ in 0..self.random.pick(&[0, 1, 3, 6, 30]) {
            self.push("step".to_owned());
        }
    }

    fn dry(&mut self) {
        let values = self.values();
        let steps = self.random.pick(&[0, 1, 2, 5, 10, 50, 300, 2_000, 100_000, 100_001]);
        self.push(format!("dry{values} {steps}"));
    }

    fn odd(&mut self) {
        let line = self.random.pick(&[
            "",
            "stop",
            "step ",
            "Wipe",
            "line",
            "allow 1 2",
            "dry 0 0 0 0 0 0 -1",
            "certify intervals -1",
            "start 0 0 0 0 0",
        ]);
        self.push(line.to_owned());
    }

    fn call(&mut self) {
        match self.random.below(24) {
            0..=5 => self.certify(),
            6..=11 => self.run(),
            12..=15 => self.dry(),
            16..=18 => self.push("step".to_owned()),
            19 | 20 => self.allow(),
            21 => self.push("wipe".to_owned()),
            22 => self.table(),
            _ => self.odd(),
        }
    }
}

/// The lines of a script.
pub fn script(random: &mut Random) -> Vec<Vec<u8>> {
    let mut writer = Writer { random, lines: Vec::new(), allowed: [(0, 0); PARAMETERS] };
    writer.table();
    for _ in 0..writer.random.below(3) + 1 {
        for _ in 0..writer.random.below(5) {
            writer.allow();
        }
        let mut program: Vec<Vec<u8>> = program(writer.random).into_iter().map(String::into_bytes).collect();
        if writer.random.one_in(4) {
            damage(writer.random, &mut program);
        }
        writer.lines.extend(program.into_iter().map(|line| [b"line ".as_slice(), &line].concat()));
        for _ in 0..writer.random.between(2, 12) {
            writer.call();
        }
    }
    if writer.random.one_in(6) {
        damage(writer.random, &mut writer.lines);
    }
    writer.lines
}
