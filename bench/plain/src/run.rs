//! Runs, one step at a time, and dry runs.

use crate::line::{AXES, BlockKind, Condition, PARAMETERS, REGISTERS, Term, Value};
use crate::program::{Program, Step};
use crate::range::fits;
use crate::travel::{Position, Travel};
use std::fmt;

#[derive(Clone, Copy, Debug, PartialEq, Eq)]
pub enum Cause {
    Arithmetic,
    Travel(usize),
}

/// The line from 1, and why.
#[derive(Clone, Copy, Debug, PartialEq, Eq)]
pub struct Failure {
    pub line: usize,
    pub cause: Cause,
}

impl fmt::Display for Failure {
    fn fmt(&self, f: &mut fmt::Formatter<'_>) -> fmt::Result {
        match self.cause {
            Cause::Arithmetic => write!(f, "{} arithmetic", self.line),
            Cause::Travel(side) => write!(f, "{} travel {side}", self.line),
        }
    }
}

#[derive(Clone, Copy, Debug, PartialEq, Eq)]
pub enum Stepped {
    WentOn,
    Commanded(Position),
    Ended,
    Fault,
}

#[derive(Clone, Copy, Debug, PartialEq, Eq)]
pub enum Ending {
    Ended,
    Running,
    Stopped(Failure),
}

#[derive(Clone, Debug)]
pub struct Run {
    /// Counted from 0.
    at: usize,
    registers: [i32; REGISTERS],
}

impl Run {
    pub fn new(home: Position, values: [i32; PARAMETERS]) -> Run {
        let mut registers = [0; REGISTERS];
        registers[..AXES].copy_from_slice(&home);
        registers[AXES..].copy_from_slice(&values);
        Run { at: 0, registers }
    }

    fn term(&self, term: Term) -> i32 {
        match term {
            Term::Number(n) => n,
            Term::Register(r) => self.registers[r],
        }
    }

    fn value(&self, value: Value) -> Option<i32> {
        match value {
            Value::Bare(term) => Some(self.term(term)),
            Value::Apply(op, left, right) => {
                let n = op.apply(self.term(left).into(), self.term(right).into());
                fits(n).then_some(n as i32)
            }
        }
    }

    fn meets(&self, condition: Condition) -> bool {
        condition.relation.holds(self.term(condition.left), self.term(condition.right))
    }

    fn moved(&self, values: &[Option<Value>; AXES]) -> Option<Position> {
        let mut position = [0; AXES];
        for (axis, value) in values.iter().enumerate() {
            position[axis] = match value {
                Some(value) => self.value(*value)?,
                None => self.registers[axis],
            };
        }
        Some(position)
    }

    /// One step in a closed program. After a fault the run stays where it was.
    pub fn step(&mut self, program: &Program) -> Stepped {
        let Some(step) = program.steps().get(self.at) else {
            return Stepped::Ended;
        };
        let mut answer = Stepped::WentOn;
        match step {
            Step::Plain => self.at += 1,
            Step::Setting { register, value } => {
                let Some(n) = self.value(*value) else { return Stepped::Fault };
                self.registers[*register] = n;
                self.at += 1;
            }
            Step::Move { values } => {
                let Some(position) = self.moved(values) else { return Stepped::Fault };
                self.registers[..AXES].copy_from_slice(&position);
                self.at += 1;
                answer = Stepped::Commanded(position);
            }
            Step::Open { block } => {
                let block = &program.blocks()[*block];
                let end = block.end.expect("the program is closed");
                self.at = if self.meets(block.condition) { self.at + 1 } else { end + 1 };
            }
            Step::End { block } => {
                let block = &program.blocks()[*block];
                self.at = if block.kind == BlockKind::While { block.first } else { self.at + 1 };
            }
        }
        answer
    }
}

/// What at most so many steps from home come to, in a closed program.
pub fn dry(program: &Program, travel: &Travel, values: [i32; PARAMETERS], steps: u32) -> Ending {
    let mut run = Run::new(travel.home(), values);
    for _ in 0..steps {
        let line = run.at + 1;
        let cause = match run.step(program) {
            Stepped::WentOn => continue,
            Stepped::Ended => return Ending::Ended,
            Stepped::Fault => Cause::Arithmetic,
            Stepped::Commanded(position) => match travel.lowest_broken(&position) {
                None => continue,
                Some(side) => Cause::Travel(side),
            },
        };
        return Ending::Stopped(Failure { line, cause });
    }
    if run.at >= program.steps().len() { Ending::Ended } else { Ending::Running }
}
