//! Congruences: one number, or all that leave a residue by a modulus.

use crate::crt::{common, gcd};
use crate::line::{Op, Relation};
use crate::pointwise::Set;
use crate::range::{LIMIT, Range, fits};
use crate::travel::Side;

const MAX_MODULUS: i64 = 2 * LIMIT as i64;

/// By the modulus 0 there is the residue alone; otherwise 0 ≤ residue < modulus.
#[derive(Clone, Copy, Debug, PartialEq, Eq)]
pub struct Congruence {
    modulus: i64,
    residue: i64,
}

/// The least and the greatest member within the ends, if there is one.
fn members(modulus: i64, residue: i64, lo: i64, hi: i64) -> Option<(i64, i64)> {
    if modulus == 0 {
        return (lo <= residue && residue <= hi).then_some((residue, residue));
    }
    let first = lo + (residue - lo).rem_euclid(modulus);
    let last = hi - (hi - residue).rem_euclid(modulus);
    (first <= hi && lo <= last).then_some((first, last))
}

/// The set with its residue reduced; too great a modulus leaves one member or none.
fn made(modulus: i64, residue: i64) -> Option<Congruence> {
    let limit = i64::from(LIMIT);
    match modulus {
        0 => fits(residue).then_some(Congruence { modulus, residue }),
        1..=MAX_MODULUS => Some(Congruence { modulus, residue: residue.rem_euclid(modulus) }),
        _ => {
            let (only, _) = members(modulus, residue, -limit, limit)?;
            Some(Congruence { modulus: 0, residue: only })
        }
    }
}

impl Congruence {
    fn as_single(self) -> Option<i64> {
        (self.modulus == 0).then_some(self.residue)
    }

    fn has(self, n: i64) -> bool {
        match self.modulus {
            0 => n == self.residue,
            modulus => (n - self.residue) % modulus == 0,
        }
    }
}

impl Set for Congruence {
    fn whole() -> Self {
        Congruence { modulus: 1, residue: 0 }
    }

    fn single(n: i32) -> Self {
        Congruence { modulus: 0, residue: n.into() }
    }

    fn apply(self, op: Op, other: Self) -> Option<Self> {
        let (m, r, n, s) = (self.modulus, self.residue, other.modulus, other.residue);
        match op {
            Op::Add => made(gcd(m, n), r + s),
            Op::Sub => made(gcd(m, n), r - s),
            Op::Mul => made(gcd(gcd(m * n, r.abs() * n), s.abs() * m), r * s),
        }
    }

    fn fits(self, op: Op, other: Self) -> bool {
        match (self.as_single(), other.as_single()) {
            (Some(a), Some(b)) => fits(op.apply(a, b)),
            _ => false,
        }
    }

    fn kept(self, relation: Relation, other: Self) -> Option<(Self, Self)> {
        if let Relation::Eq = relation {
            return self.meet(other).map(|common| (common, common));
        }
        let holds = match (self.as_single(), other.as_single()) {
            (Some(a), Some(b)) => relation.holds(a as i32, b as i32),
            _ => true,
        };
        holds.then_some((self, other))
    }

    fn meet(self, other: Self) -> Option<Self> {
        match (self.modulus, other.modulus) {
            (0, _) => other.has(self.residue).then_some(self),
            (_, 0) => self.has(other.residue).then_some(other),
            (m, n) => {
                let (modulus, residue) = common(m, self.residue, n, other.residue)?;
                made(modulus, residue)
            }
        }
    }

    fn narrow(self, range: Range) -> Option<Self> {
        let Range { lo, hi } = self.range(range);
        match lo.cmp(&hi) {
            std::cmp::Ordering::Greater => None,
            std::cmp::Ordering::Equal => Some(Self::single(lo)),
            std::cmp::Ordering::Less => Some(self),
        }
    }

    fn join(self, other: Self) -> Self {
        let apart = (self.residue - other.residue).abs();
        let modulus = gcd(gcd(self.modulus, other.modulus), apart);
        let residue = if modulus == 0 { self.residue } else { self.residue.rem_euclid(modulus) };
        Congruence { modulus, residue }
    }

    fn widen(self, new: Self) -> Self {
        self.join(new)
    }

    fn within(self, other: Self) -> bool {
        match other.modulus {
            0 => self == other,
            n => self.modulus % n == 0 && other.has(self.residue),
        }
    }

    fn shows(self, other: Self, side: &Side) -> bool {
        let w = if side.b == 0 { Some(0) } else { other.as_single() };
        match (self.as_single(), w) {
            (Some(v), Some(w)) => side.a * v + side.b * w <= side.c,
            _ => false,
        }
    }

    fn range(self, range: Range) -> Range {
        let (lo, hi) = (range.lo.max(-LIMIT).into(), range.hi.min(LIMIT).into());
        match members(self.modulus, self.residue, lo, hi) {
            Some((lo, hi)) if lo <= hi => Range { lo: lo as i32, hi: hi as i32 },
            _ => Range::EMPTY,
        }
    }
}
