//! Intervals: the numbers from one end to the other.

use crate::line::{Op, Relation};
use crate::pointwise::Set;
use crate::range::{LIMIT, Range, fits};
use crate::travel::Side;

pub type Interval = Range;

/// The least and the greatest result, whether they fit or not.
fn span(a: Interval, op: Op, b: Interval) -> (i64, i64) {
    let (a_lo, a_hi, b_lo, b_hi) = (i64::from(a.lo), i64::from(a.hi), i64::from(b.lo), i64::from(b.hi));
    match op {
        Op::Add => (a_lo + b_lo, a_hi + b_hi),
        Op::Sub => (a_lo - b_hi, a_hi - b_lo),
        Op::Mul => {
            let ends = [a_lo * b_lo, a_lo * b_hi, a_hi * b_lo, a_hi * b_hi];
            ends.into_iter().fold((i64::MAX, i64::MIN), |(lo, hi), n| (lo.min(n), hi.max(n)))
        }
    }
}

fn at_most(a: Interval, most: i32) -> Option<Interval> {
    a.meet(Range { lo: i32::MIN, hi: most })
}

fn at_least(a: Interval, least: i32) -> Option<Interval> {
    a.meet(Range { lo: least, hi: i32::MAX })
}

/// Without an end that is the only number of the other.
fn except(a: Interval, other: Interval) -> Option<Interval> {
    if other.lo != other.hi {
        return Some(a);
    }
    let lo = if a.lo == other.lo { a.lo + 1 } else { a.lo };
    let hi = if a.hi == other.lo { a.hi - 1 } else { a.hi };
    (lo <= hi).then_some(Range { lo, hi })
}

fn below(a: Interval, b: Interval, gap: i32) -> Option<(Interval, Interval)> {
    Some((at_most(a, b.hi - gap)?, at_least(b, a.lo + gap)?))
}

fn turned((a, b): (Interval, Interval)) -> (Interval, Interval) {
    (b, a)
}

fn greatest(factor: i64, a: Interval) -> i64 {
    (factor * i64::from(a.lo)).max(factor * i64::from(a.hi))
}

impl Set for Interval {
    fn whole() -> Self {
        Range::FULL
    }

    fn single(n: i32) -> Self {
        Range::single(n)
    }

    fn apply(self, op: Op, other: Self) -> Option<Self> {
        let (lo, hi) = span(self, op, other);
        let limit = i64::from(LIMIT);
        let (lo, hi) = (lo.max(-limit), hi.min(limit));
        (lo <= hi).then_some(Range { lo: lo as i32, hi: hi as i32 })
    }

    fn fits(self, op: Op, other: Self) -> bool {
        let (lo, hi) = span(self, op, other);
        fits(lo) && fits(hi)
    }

    fn kept(self, relation: Relation, other: Self) -> Option<(Self, Self)> {
        match relation {
            Relation::Lt => below(self, other, 1),
            Relation::Le => below(self, other, 0),
            Relation::Gt => below(other, self, 1).map(turned),
            Relation::Ge => below(other, self, 0).map(turned),
            Relation::Eq => self.meet(other).map(|common| (common, common)),
            Relation::Ne => Some((except(self, other)?, except(other, self)?)),
        }
    }

    fn meet(self, other: Self) -> Option<Self> {
        self.meet(other)
    }

    fn narrow(self, range: Range) -> Option<Self> {
        self.meet(range)
    }

    fn join(self, other: Self) -> Self {
        self.hull(other)
    }

    fn widen(self, new: Self) -> Self {
        Range {
            lo: if new.lo < self.lo { -LIMIT } else { self.lo },
            hi: if new.hi > self.hi { LIMIT } else { self.hi },
        }
    }

    fn within(self, other: Self) -> bool {
        other.lo <= self.lo && self.hi <= other.hi
    }

    fn shows(self, other: Self, side: &Side) -> bool {
        greatest(side.a, self) + greatest(side.b, other) <= side.c
    }

    fn range(self, range: Range) -> Range {
        self.meet(range).unwrap_or(Range::EMPTY)
    }
}
