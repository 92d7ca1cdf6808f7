//! States that know each register by itself: a set of numbers for each, or no environment at all.

use crate::domain::Domain;
use crate::line::{Condition, Op, REGISTERS, Relation, Term, Value};
use crate::range::Range;
use crate::travel::Side;

/// A set of numbers that is not empty.
pub trait Set: Copy + PartialEq {
    fn whole() -> Self;
    fn single(n: i32) -> Self;
    fn apply(self, op: Op, other: Self) -> Option<Self>;
    fn fits(self, op: Op, other: Self) -> bool;
    /// What a condition leaves of its two sides.
    fn kept(self, relation: Relation, other: Self) -> Option<(Self, Self)>;
    fn meet(self, other: Self) -> Option<Self>;
    fn narrow(self, range: Range) -> Option<Self>;
    fn join(self, other: Self) -> Self;
    fn widen(self, new: Self) -> Self;
    fn within(self, other: Self) -> bool;
    fn shows(self, other: Self, side: &Side) -> bool;
    fn range(self, range: Range) -> Range;
}

#[derive(Clone, Debug)]
pub struct Pointwise<S> {
    sets: Option<[S; REGISTERS]>,
}

fn term<S: Set>(sets: &[S; REGISTERS], term: Term) -> S {
    match term {
        Term::Number(n) => S::single(n),
        Term::Register(r) => sets[r],
    }
}

impl<S: Set> Pointwise<S> {
    fn put(&mut self, register: usize, set: Option<S>) {
        match (&mut self.sets, set) {
            (Some(sets), Some(set)) => sets[register] = set,
            _ => self.sets = None,
        }
    }

    fn merge(&mut self, other: &Self, merge: impl Fn(S, S) -> S) {
        let Some(sets) = &mut self.sets else {
            self.sets = other.sets;
            return;
        };
        for (set, new) in sets.iter_mut().zip(other.sets.iter().flatten()) {
            *set = merge(*set, *new);
        }
    }
}

impl<S: Set> Domain for Pointwise<S> {
    fn any() -> Self {
        Pointwise { sets: Some([S::whole(); REGISTERS]) }
    }

    fn none() -> Self {
        Pointwise { sets: None }
    }

    fn narrow(&mut self, register: usize, range: Range) {
        if let Some(sets) = &self.sets {
            self.put(register, sets[register].narrow(range));
        }
    }

    fn keep(&mut self, condition: Condition) {
        let Some(sets) = &self.sets else { return };
        let Condition { relation, left, right } = condition;
        let Some((kept_left, kept_right)) = term(sets, left).kept(relation, term(sets, right)) else {
            self.sets = None;
            return;
        };
        match (left, right) {
            (Term::Register(l), Term::Register(r)) if l == r => self.put(l, kept_left.meet(kept_right)),
            (left, right) => {
                if let Term::Register(l) = left {
                    self.put(l, Some(kept_left));
                }
                if let Term::Register(r) = right {
                    self.put(r, Some(kept_right));
                }
            }
        }
    }

    fn set(&mut self, register: usize, value: Value) {
        let Some(sets) = &self.sets else { return };
        let result = match value {
            Value::Bare(t) => Some(term(sets, t)),
            Value::Apply(op, left, right) => term(sets, left).apply(op, term(sets, right)),
        };
        self.put(register, result);
    }

    fn join(&mut self, other: &Self) {
        self.merge(other, S::join);
    }

    fn widen(&mut self, new: &Self) {
        self.merge(new, S::widen);
    }

    fn within(&self, other: &Self) -> bool {
        match (&self.sets, &other.sets) {
            (None, _) => true,
            (_, None) => false,
            (Some(inner), Some(outer)) => inner.iter().zip(outer).all(|(a, b)| a.within(*b)),
        }
    }

    fn sure(&self, value: Value) -> bool {
        match (&self.sets, value) {
            (Some(sets), Value::Apply(op, left, right)) => term(sets, left).fits(op, term(sets, right)),
            _ => true,
        }
    }

    fn shows(&self, side: &Side) -> bool {
        self.sets.as_ref().is_none_or(|sets| sets[side.v].shows(sets[side.w], side))
    }

    fn range(&self, register: usize, range: Range) -> Range {
        self.sets.as_ref().map_or(Range::EMPTY, |sets| sets[register].range(range))
    }
}
