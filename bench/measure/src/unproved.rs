//! The plain side: the same four functions as the exports.

use plain::domain::Domain;
use plain::line::PARAMETERS;
use plain::program::MAX_BLOCKS;
use plain::refusal::Refusal;
use plain::report::{Bench, lines, range_line};
use plain::run::{Ending, Stepped};
use plain::session::Session;
use plain::travel::Travel;

const VALUES: [i32; PARAMETERS] = [0; PARAMETERS];

fn fill(session: &mut Session, text: &[u8]) -> u32 {
    let takes = |line: &[u8]| match range_line(line) {
        Some((parameter, range)) => session.allow(parameter, range).is_ok(),
        None => session.line(line).is_ok(),
    };
    lines(text).map(takes).filter(|taken| *taken).count() as u32
}

fn filled(text: &[u8]) -> Session {
    let mut session = Session::new(Travel::bench_gantry());
    fill(&mut session, text);
    session
}

pub fn read(text: &[u8]) -> u32 {
    fill(&mut Session::new(Travel::bench_gantry()), text)
}

pub fn certify(text: &[u8], times: u32) -> usize {
    let mut session = filled(text);
    let mut store = vec![Bench::none(); MAX_BLOCKS];
    let mut failing = 0;
    for _ in 0..times {
        failing = match session.certify(&mut store) {
            Ok(_) => 0,
            Err(Refusal::Uncertified(failure)) => failure.line,
            Err(_) => usize::MAX,
        };
    }
    failing
}

pub fn steps(text: &[u8], steps: u32) -> u32 {
    let mut session = filled(text);
    let _ = session.certify(&mut vec![Bench::none(); MAX_BLOCKS]);
    let _ = session.start(VALUES);
    (0..steps).filter(|_| matches!(session.step(), Ok(Stepped::Commanded(_)))).count() as u32
}

pub fn dry(text: &[u8], steps: u32) -> u32 {
    match filled(text).dry(VALUES, steps) {
        Ok(Ending::Ended) => 0,
        Ok(Ending::Running) => 1,
        Ok(Ending::Stopped(_)) => 2,
        Err(_) => 3,
    }
}
