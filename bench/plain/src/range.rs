//! Ranges of numbers, and the greatest length.

pub const LIMIT: i32 = 10_000_000;

/// From `lo` to `hi`, both included; empty where `lo` is above `hi`.
#[derive(Clone, Copy, Debug, PartialEq, Eq)]
pub struct Range {
    pub lo: i32,
    pub hi: i32,
}

impl Range {
    pub const FULL: Range = Range { lo: -LIMIT, hi: LIMIT };
    pub const EMPTY: Range = Range { lo: 1, hi: 0 };

    pub fn single(n: i32) -> Range {
        Range { lo: n, hi: n }
    }

    pub fn is_empty(self) -> bool {
        self.lo > self.hi
    }

    pub fn contains(self, n: i32) -> bool {
        self.lo <= n && n <= self.hi
    }

    /// The part in common, if there is one.
    pub fn meet(self, other: Range) -> Option<Range> {
        let common = Range { lo: self.lo.max(other.lo), hi: self.hi.min(other.hi) };
        (!common.is_empty()).then_some(common)
    }

    pub fn hull(self, other: Range) -> Range {
        Range { lo: self.lo.min(other.lo), hi: self.hi.max(other.hi) }
    }
}

pub fn fits(n: i64) -> bool {
    n.unsigned_abs() <= LIMIT as u64
}
