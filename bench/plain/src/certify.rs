//! Sweeps over a program until one changes nothing; that one judges.

use crate::domain::Domain;
use crate::line::{AXES, BlockKind, PARAMETERS, Value};
use crate::program::{Block, Program, Step};
use crate::range::Range;
use crate::refusal::Refusal;
use crate::run::{Cause, Failure};
use crate::travel::Travel;

/// For each axis the hull of its positions, or none where no move can be reached.
pub type Certificate = [Option<Range>; AXES];

struct Sweep<'a, D> {
    program: &'a Program,
    travel: &'a Travel,
    /// One state for each block.
    store: &'a mut [D],
    current: D,
    changed: bool,
    failure: Option<Failure>,
    hulls: Certificate,
}

impl<D: Domain> Sweep<'_, D> {
    fn fail(&mut self, line: usize, cause: Cause) {
        self.failure.get_or_insert(Failure { line, cause });
    }

    fn set(&mut self, line: usize, register: usize, value: Value) {
        if !self.current.sure(value) {
            self.fail(line, Cause::Arithmetic);
        }
        self.current.set(register, value);
    }

    fn go(&mut self, line: usize, values: &[Option<Value>; AXES]) {
        let sure = values.iter().flatten().all(|value| self.current.sure(*value));
        for (axis, value) in values.iter().enumerate() {
            if let Some(value) = value {
                self.current.set(axis, *value);
            }
        }
        if !sure {
            self.fail(line, Cause::Arithmetic);
        } else if let Some(side) = self.travel.sides().iter().position(|side| !self.current.shows(side)) {
            self.fail(line, Cause::Travel(side));
        }
        for (axis, hull) in self.hulls.iter_mut().enumerate() {
            let range = self.current.range(axis, Range::FULL);
            if !range.is_empty() {
                *hull = Some(hull.map_or(range, |before| before.hull(range)));
            }
        }
    }

    /// The current state comes to a loop's state, and goes on as that.
    fn come(&mut self, block: usize) {
        let state = &mut self.store[block];
        if !self.current.within(state) {
            state.widen(&self.current);
            self.changed = true;
        }
        self.current.clone_from(state);
    }

    fn open(&mut self, number: usize, block: &Block) {
        match block.kind {
            BlockKind::While => self.come(number),
            BlockKind::If => {
                let mut skipped = self.current.clone();
                skipped.keep(block.condition.opposite());
                self.store[number] = skipped;
            }
        }
        self.current.keep(block.condition);
    }

    fn end(&mut self, number: usize, block: &Block) {
        match block.kind {
            BlockKind::While => {
                self.come(number);
                self.current.keep(block.condition.opposite());
            }
            BlockKind::If => {
                let mut joined = self.store[number].clone();
                joined.join(&self.current);
                self.current = joined;
            }
        }
    }

    fn run(&mut self) {
        let program = self.program;
        for (before, step) in program.steps().iter().enumerate() {
            match step {
                Step::Plain => {}
                Step::Setting { register, value } => self.set(before + 1, *register, *value),
                Step::Move { values } => self.go(before + 1, values),
                Step::Open { block } => self.open(*block, &program.blocks()[*block]),
                Step::End { block } => self.end(*block, &program.blocks()[*block]),
            }
        }
    }
}

fn start<D: Domain>(travel: &Travel, allowed: &[Range; PARAMETERS]) -> D {
    let mut state = D::any();
    for (axis, home) in travel.home().into_iter().enumerate() {
        state.narrow(axis, Range::single(home));
    }
    for (k, range) in allowed.iter().enumerate() {
        state.narrow(AXES + k, *range);
    }
    state
}

pub fn certify<D: Domain>(
    program: &Program,
    travel: &Travel,
    allowed: &[Range; PARAMETERS],
    store: &mut [D],
) -> Result<Certificate, Refusal> {
    if !program.is_closed() {
        return Err(Refusal::Open);
    }
    if store.len() < program.blocks().len() {
        return Err(Refusal::FewStates);
    }
    store.fill(D::none());
    let start = start::<D>(travel, allowed);
    loop {
        let current = start.clone();
        let mut sweep = Sweep { program, travel, store, current, changed: false, failure: None, hulls: [None; AXES] };
        sweep.run();
        if !sweep.changed {
            return sweep.failure.map_or(Ok(sweep.hulls), |failure| Err(Refusal::Uncertified(failure)));
        }
    }
}
