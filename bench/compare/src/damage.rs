//! Damage to a text: bytes flipped, lines cut, tokens doubled and the like.

use crate::random::Random;

const TOKENS: [&str; 20] = [
    "#",
    "[",
    "]",
    "+",
    "-",
    "*",
    "=",
    "G",
    "O",
    "X",
    "u",
    "WHILE",
    "ENDIF",
    "LT",
    "0",
    "7",
    "10000001",
    "000000001",
    "XY",
    "/",
];

/// Where a token ends that begins at the place.
fn token_end(line: &[u8], place: usize) -> usize {
    let class = |b: u8| (b.is_ascii_alphabetic(), b.is_ascii_digit());
    let first = class(line[place]);
    if first == (false, false) {
        return place + 1;
    }
    line[place..].iter().position(|&b| class(b) != first).map_or(line.len(), |n| place + n)
}

fn damage_line(random: &mut Random, line: &mut Vec<u8>) {
    let at = random.below(line.len() + 1);
    let place = at.min(line.len().saturating_sub(1));
    match random.below(10) {
        0 if !line.is_empty() => line[place] ^= 1 << random.below(8),
        1 if !line.is_empty() => line[place] = random.between(0, 255) as u8,
        2 if !line.is_empty() => drop(line.remove(place)),
        3 => line.truncate(at),
        4 if !line.is_empty() => {
            let token = line[place..token_end(line, place)].to_vec();
            line.splice(place..place, token);
        }
        5 => {
            let token = random.pick(&TOKENS);
            line.splice(at..at, token.bytes());
        }
        6 => line.extend(std::iter::repeat_n(
            b' ',
            random.between(118, 122).saturating_sub(line.len() as i64).max(0) as usize,
        )),
        8 => line.extend_from_slice(random.pick(&["X5", "y 0", "Z-1", "u0", " X"]).as_bytes()),
        7 if !line.is_empty() => {
            let end = token_end(line, place);
            line.drain(place..end);
        }
        _ => line.insert(at, random.between(32, 126) as u8),
    }
}

pub fn damage(random: &mut Random, lines: &mut Vec<Vec<u8>>) {
    if lines.is_empty() {
        return lines.push(b"#1".to_vec());
    }
    let n = random.below(lines.len());
    match random.below(8) {
        0 => drop(lines.remove(n)),
        1 => {
            let line = lines[random.below(lines.len())].clone();
            lines.insert(n, line);
        }
        2 => {
            let m = random.below(lines.len());
            lines.swap(n, m);
        }
        _ => damage_line(random, &mut lines[n]),
    }
}
