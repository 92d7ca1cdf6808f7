//! The report on an input: range lines, a program, and what certify says of it.

use crate::certify::Certificate;
use crate::congruence::Congruence;
use crate::domain::Domain;
use crate::interval::Interval;
use crate::pointwise::Pointwise;
use crate::product::Product;
use crate::program::MAX_BLOCKS;
use crate::range::Range;
use crate::refusal::Refusal;
use crate::session::Session;
use crate::travel::Travel;
use std::fmt::Write;

pub const MAX_INPUT: usize = 32_768;

pub type Bench = Product<Pointwise<Interval>, Pointwise<Congruence>>;

/// The line of the program, from 1, or 0 where none of its lines is at fault.
type Rejection = (usize, Refusal);

/// The lines of a text: each ends with a line feed, the last perhaps without.
pub fn lines(text: &[u8]) -> impl Iterator<Item = &[u8]> {
    text.strip_suffix(b"\n").or((!text.is_empty()).then_some(text)).into_iter().flat_map(|t| t.split(|&b| b == b'\n'))
}

/// An optional minus and 1 to 8 digits.
pub fn number(text: &[u8]) -> Option<i32> {
    let digits = text.strip_prefix(b"-").unwrap_or(text);
    if !(1..=8).contains(&digits.len()) || !digits.iter().all(u8::is_ascii_digit) {
        return None;
    }
    let n = digits.iter().fold(0, |n, d| 10 * n + i32::from(d - b'0'));
    Some(if digits.len() < text.len() { -n } else { n })
}

/// A parameter and the range that it is allowed.
pub fn range_line(line: &[u8]) -> Option<(i32, Range)> {
    let mut words = line.strip_prefix(b"?")?.split(|&b| b == b' ');
    let &[digit @ b'0'..=b'9'] = words.next()? else {
        return None;
    };
    let lo = number(words.next()?)?;
    let hi = number(words.next()?)?;
    words.next().is_none().then_some((i32::from(digit - b'0'), Range { lo, hi }))
}

fn judged(input: &[u8]) -> Result<Certificate, Rejection> {
    if input.len() > MAX_INPUT {
        return Err((0, Refusal::InputTooLong));
    }
    let mut session = Session::new(Travel::bench_gantry());
    let mut lines = lines(input).peekable();
    while let Some(line) = lines.next_if(|line| line.starts_with(b"?")) {
        let (parameter, range) = range_line(line).ok_or((0, Refusal::Syntax(0)))?;
        session.allow(parameter, range).map_err(|refusal| (0, refusal))?;
    }
    for (before, line) in lines.enumerate() {
        session.line(line).map_err(|refusal| (before + 1, refusal))?;
    }
    session.certify(&mut vec![Bench::none(); MAX_BLOCKS]).map_err(|refusal| (0, refusal))
}

/// The report on an input, with a line feed behind each of its lines.
pub fn report_on(input: &[u8]) -> String {
    let mut text = String::new();
    match judged(input) {
        Ok(certificate) => {
            text.push_str("certified\n");
            for (axis, hull) in ['X', 'Y', 'Z', 'U'].into_iter().zip(certificate) {
                let _ = match hull {
                    None => writeln!(text, "{axis} none"),
                    Some(Range { lo, hi }) => writeln!(text, "{axis} {lo} {hi}"),
                };
            }
        }
        Err((_, Refusal::Uncertified(failure))) => {
            let _ = writeln!(text, "uncertified {failure}");
        }
        Err((line, refusal)) => {
            let _ = writeln!(text, "refused {line} {} {}", refusal.number(), refusal.place().unwrap_or(0));
        }
    }
    text
}
