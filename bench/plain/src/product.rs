//! Two domains side by side.

use crate::domain::Domain;
use crate::line::{Condition, REGISTERS, Value};
use crate::range::Range;
use crate::travel::Side;

#[derive(Clone, Debug)]
pub struct Product<A, B> {
    first: A,
    second: B,
}

impl<A: Domain, B: Domain> Product<A, B> {
    /// Each side learns what the other knows of each register.
    fn reduce(&mut self) {
        for register in 0..REGISTERS {
            let seen = self.first.range(register, Range::FULL);
            let common = self.second.range(register, seen);
            let outcome = self.first.range(register, common);
            self.first.narrow(register, outcome);
            self.second.narrow(register, outcome);
        }
    }
}

impl<A: Domain, B: Domain> Domain for Product<A, B> {
    fn any() -> Self {
        Product { first: A::any(), second: B::any() }
    }

    fn none() -> Self {
        Product { first: A::none(), second: B::none() }
    }

    fn narrow(&mut self, register: usize, range: Range) {
        self.first.narrow(register, range);
        self.second.narrow(register, range);
        self.reduce();
    }

    fn keep(&mut self, condition: Condition) {
        self.first.keep(condition);
        self.second.keep(condition);
        self.reduce();
    }

    fn set(&mut self, register: usize, value: Value) {
        self.first.set(register, value);
        self.second.set(register, value);
        self.reduce();
    }

    fn join(&mut self, other: &Self) {
        self.first.join(&other.first);
        self.second.join(&other.second);
    }

    fn widen(&mut self, new: &Self) {
        self.first.widen(&new.first);
        self.second.widen(&new.second);
    }

    fn within(&self, other: &Self) -> bool {
        self.first.within(&other.first) && self.second.within(&other.second)
    }

    fn sure(&self, value: Value) -> bool {
        self.first.sure(value) || self.second.sure(value)
    }

    fn shows(&self, side: &Side) -> bool {
        self.first.shows(side) || self.second.shows(side)
    }

    fn range(&self, register: usize, range: Range) -> Range {
        self.second.range(register, self.first.range(register, range))
    }
}
