//! A session: its program, ranges, certificate and run.

use crate::certify::{Certificate, certify};
use crate::domain::Domain;
use crate::line::PARAMETERS;
use crate::program::Program;
use crate::range::{Range, fits};
use crate::refusal::Refusal;
use crate::run::{Ending, Run, Stepped, dry};
use crate::travel::Travel;

const MAX_STEPS: u32 = 100_000;
const ZERO: Range = Range { lo: 0, hi: 0 };

pub struct Session {
    travel: Travel,
    program: Program,
    allowed: [Range; PARAMETERS],
    certificate: Option<Certificate>,
    run: Option<Run>,
}

/// The parameter's index, if it may be allowed the range.
pub fn allowable(parameter: i32, range: Range) -> Result<usize, Refusal> {
    if !(1..=PARAMETERS as i32).contains(&parameter) {
        return Err(Refusal::NoParameter);
    }
    if range.is_empty() || !fits(range.lo.into()) || !fits(range.hi.into()) {
        return Err(Refusal::BadRange);
    }
    Ok(parameter as usize - 1)
}

impl Session {
    pub fn new(travel: Travel) -> Session {
        let program = Program::default();
        Session { travel, program, allowed: [ZERO; PARAMETERS], certificate: None, run: None }
    }

    fn forget(&mut self) {
        self.certificate = None;
        self.run = None;
    }

    pub fn line(&mut self, text: &[u8]) -> Result<(), Refusal> {
        self.program.line(text)?;
        self.forget();
        Ok(())
    }

    pub fn allow(&mut self, parameter: i32, range: Range) -> Result<(), Refusal> {
        let index = allowable(parameter, range)?;
        self.allowed[index] = range;
        self.forget();
        Ok(())
    }

    pub fn wipe(&mut self) {
        self.program.clear();
        self.allowed = [ZERO; PARAMETERS];
        self.forget();
    }

    pub fn certify<D: Domain>(&mut self, store: &mut [D]) -> Result<Certificate, Refusal> {
        let verdict = certify(&self.program, &self.travel, &self.allowed, store);
        if !matches!(verdict, Err(Refusal::Open | Refusal::FewStates)) {
            self.forget();
            self.certificate = verdict.ok();
        }
        verdict
    }

    pub fn start(&mut self, values: [i32; PARAMETERS]) -> Result<(), Refusal> {
        if self.certificate.is_none() {
            return Err(Refusal::NoCertificate);
        }
        let outside = self.allowed.iter().zip(values).position(|(range, value)| !range.contains(value));
        if let Some(index) = outside {
            return Err(Refusal::OutsideRange(index + 1));
        }
        self.run = Some(Run::new(self.travel.home(), values));
        Ok(())
    }

    pub fn step(&mut self) -> Result<Stepped, Refusal> {
        let run = self.run.as_mut().ok_or(Refusal::NoRun)?;
        Ok(run.step(&self.program))
    }

    pub fn dry(&self, values: [i32; PARAMETERS], steps: u32) -> Result<Ending, Refusal> {
        if !self.program.is_closed() {
            return Err(Refusal::Open);
        }
        if steps > MAX_STEPS {
            return Err(Refusal::TooManySteps);
        }
        if !values.iter().all(|v| fits((*v).into())) {
            return Err(Refusal::BadValue);
        }
        Ok(dry(&self.program, &self.travel, values, steps))
    }
}
