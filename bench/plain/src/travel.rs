//! Where positions may lie: the gantry, and the beam with two carriages.

use crate::line::AXES;
use crate::range::{LIMIT, Range, fits};
use crate::refusal::Refusal;

pub type Position = [i32; AXES];

/// a·v + b·w ≤ c
#[derive(Clone, Copy, Debug)]
pub struct Side {
    pub a: i64,
    pub v: usize,
    pub b: i64,
    pub w: usize,
    pub c: i64,
}

impl Side {
    pub fn holds(&self, position: &Position) -> bool {
        self.a * i64::from(position[self.v]) + self.b * i64::from(position[self.w]) <= self.c
    }
}

#[derive(Clone, Copy, Debug)]
pub struct Ends {
    pub lower: Position,
    pub upper: Position,
    pub home: Position,
}

/// A travel is the list of its sides.
#[derive(Clone, Debug)]
pub struct Travel {
    sides: Vec<Side>,
    home: Position,
}

const BENCH: Ends = Ends { lower: [0, 0, -80_000, 0], upper: [2_500_000, 1_250_000, 0, 0], home: [0; AXES] };

impl Travel {
    pub fn gantry(ends: Ends) -> Result<Travel, Refusal> {
        let Ends { lower, upper, home } = ends;
        let fit = |n: i32| fits(n.into());
        let mut sides = Vec::with_capacity(2 * AXES + 1);
        for v in 0..AXES {
            let range = Range { lo: lower[v], hi: upper[v] };
            if !range.contains(home[v]) || !fit(range.lo) || !fit(range.hi) {
                return Err(Refusal::BadTravel);
            }
            let w = (v + 1) % AXES;
            sides.push(Side { a: 1, v, b: 0, w, c: range.hi.into() });
            sides.push(Side { a: -1, v, b: 0, w, c: -i64::from(range.lo) });
        }
        Ok(Travel { sides, home })
    }

    /// The second carriage stays ahead of the first by the gap.
    pub fn beam(ends: Ends, gap: i32) -> Result<Travel, Refusal> {
        let mut travel = Travel::gantry(ends)?;
        let [x, _, _, u] = travel.home;
        if !(1..=LIMIT).contains(&gap) || u - x < gap {
            return Err(Refusal::BadGap);
        }
        travel.sides.push(Side { a: 1, v: 0, b: -1, w: 3, c: -i64::from(gap) });
        Ok(travel)
    }

    pub fn bench_gantry() -> Travel {
        Travel::gantry(BENCH).expect("home lies inside")
    }

    pub fn bench_beam() -> Travel {
        let mut ends = BENCH;
        ends.upper[3] = 2_500_000;
        ends.home[3] = 2_500_000;
        Travel::beam(ends, 90_000).expect("home lies inside")
    }

    pub fn sides(&self) -> &[Side] {
        &self.sides
    }

    pub fn home(&self) -> Position {
        self.home
    }

    pub fn lowest_broken(&self, position: &Position) -> Option<usize> {
        self.sides.iter().position(|side| !side.holds(position))
    }
}
