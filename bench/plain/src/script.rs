//! Scripts: commands to a session, one a line, and an answer to each.

use crate::certify::Certificate;
use crate::congruence::Congruence;
use crate::domain::Domain;
use crate::interval::Interval;
use crate::line::AXES;
use crate::pointwise::Pointwise;
use crate::product::Product;
use crate::program::MAX_BLOCKS;
use crate::range::Range;
use crate::refusal::Refusal;
use crate::report::{lines, number};
use crate::run::{Ending, Stepped};
use crate::session::Session;
use crate::travel::{Ends, Travel};
use std::fmt::Write;

type Intervals = Pointwise<Interval>;
type Congruences = Pointwise<Congruence>;

/// No answer where the line is no command.
type Answer = Option<Result<String, Refusal>>;

fn numbers<const N: usize>(text: &[u8]) -> Option<[i32; N]> {
    let mut words = text.split(|&b| b == b' ');
    let mut values = [0; N];
    for value in &mut values {
        *value = number(words.next()?)?;
    }
    words.next().is_none().then_some(values)
}

fn ends(n: &[i32]) -> Option<Ends> {
    let axes = |k: usize| n.get(k..k + AXES)?.try_into().ok();
    Some(Ends { lower: axes(0)?, upper: axes(AXES)?, home: axes(2 * AXES)? })
}

fn ok<T>(result: Result<T, Refusal>) -> Answer {
    Some(result.map(|_| "ok".to_owned()))
}

fn certified(certificate: Certificate) -> String {
    certificate.iter().fold("certified".to_owned(), |text, hull| match hull {
        None => text + " none",
        Some(Range { lo, hi }) => format!("{text} {lo}..{hi}"),
    })
}

fn progress(stepped: Stepped) -> String {
    match stepped {
        Stepped::WentOn => "went on".to_owned(),
        Stepped::Commanded([x, y, z, u]) => format!("position {x} {y} {z} {u}"),
        Stepped::Ended => "ended".to_owned(),
        Stepped::Fault => unreachable!("a run goes under a certificate only"),
    }
}

fn ending(ending: Ending) -> String {
    match ending {
        Ending::Ended => "ended".to_owned(),
        Ending::Running => "running".to_owned(),
        Ending::Stopped(failure) => format!("stopped {failure}"),
    }
}

fn certify_in<D: Domain>(session: &mut Session, states: i32) -> Answer {
    let count = usize::try_from(states).ok()?.min(MAX_BLOCKS);
    Some(session.certify(&mut vec![D::none(); count]).map(certified))
}

fn certify(session: &mut Session, text: &[u8]) -> Answer {
    let blank = text.iter().position(|&b| b == b' ')?;
    let [states] = numbers(&text[blank + 1..])?;
    match &text[..blank] {
        b"intervals" => certify_in::<Intervals>(session, states),
        b"congruences" => certify_in::<Congruences>(session, states),
        b"intervals*congruences" => certify_in::<Product<Intervals, Congruences>>(session, states),
        b"congruences*intervals" => certify_in::<Product<Congruences, Intervals>>(session, states),
        b"intervals*intervals" => certify_in::<Product<Intervals, Intervals>>(session, states),
        _ => None,
    }
}

fn new_session(session: &mut Session, travel: Result<Travel, Refusal>) -> Answer {
    ok(travel.map(|travel| *session = Session::new(travel)))
}

fn dry(session: &Session, text: &[u8]) -> Answer {
    let [v1, v2, v3, v4, v5, v6, steps] = numbers(text)?;
    let steps = u32::try_from(steps).ok()?;
    Some(session.dry([v1, v2, v3, v4, v5, v6], steps).map(ending))
}

/// A command of its word alone.
fn short(session: &mut Session, word: &[u8]) -> Answer {
    match word {
        b"benchgantry" => new_session(session, Ok(Travel::bench_gantry())),
        b"benchbeam" => new_session(session, Ok(Travel::bench_beam())),
        b"line" => ok(session.line(b"")),
        b"wipe" => {
            session.wipe();
            ok(Ok(()))
        }
        b"step" => Some(session.step().map(progress)),
        _ => None,
    }
}

fn long(session: &mut Session, word: &[u8], text: &[u8]) -> Answer {
    match word {
        b"gantry" => new_session(session, Travel::gantry(ends(&numbers::<12>(text)?)?)),
        b"beam" => {
            let numbers = numbers::<13>(text)?;
            new_session(session, Travel::beam(ends(&numbers)?, numbers[12]))
        }
        b"line" => ok(session.line(text)),
        b"allow" => {
            let [parameter, lo, hi] = numbers(text)?;
            ok(session.allow(parameter, Range { lo, hi }))
        }
        b"certify" => certify(session, text),
        b"start" => ok(session.start(numbers(text)?)),
        b"dry" => dry(session, text),
        _ => None,
    }
}

fn answer(session: &mut Session, line: &[u8]) -> Answer {
    match line.iter().position(|&b| b == b' ') {
        None => short(session, line),
        Some(blank) => long(session, &line[..blank], &line[blank + 1..]),
    }
}

/// The answers to a script, one a line.
pub fn replay(script: &[u8]) -> String {
    let mut session = Session::new(Travel::bench_gantry());
    let mut text = String::new();
    for (before, line) in lines(script).enumerate() {
        let _ = match answer(&mut session, line) {
            Some(Ok(answer)) => writeln!(text, "{answer}"),
            Some(Err(refusal)) => writeln!(text, "{refusal}"),
            None => writeln!(text, "bad command {}", before + 1),
        };
    }
    text
}
