//! Feeds random inputs or scripts to the proved programs and to plain Rust, and compares what is printed.

mod damage;
mod inputs;
mod programs;
mod random;
mod scripts;
mod shrink;
mod sides;
mod words;

use random::Random;
use shrink::smallest;
use sides::{Answers, replies, reports, text_of};
use std::collections::BTreeMap;

const CHUNK: usize = 500;

type Lines = Vec<Vec<u8>>;

/// How one kind of text is made and answered.
struct Kind {
    make: fn(&mut Random) -> Lines,
    answer: fn(&str, &[Lines]) -> Answers,
    /// Which word of a refusal is its number.
    number_at: usize,
}

const INPUTS: Kind = Kind { make: inputs::input, answer: reports, number_at: 2 };
const SCRIPTS: Kind = Kind { make: scripts::script, answer: replies, number_at: 1 };

fn show(kind: &Kind, program: &str, lines: Lines) {
    let differs = |lines: &[Vec<u8>]| {
        let Answers { proved, plain } = (kind.answer)(program, &[lines.to_vec()]);
        proved != plain
    };
    let lines = smallest(lines, differs);
    println!("a difference:\n{}", text_of(&lines).escape_ascii());
    let Answers { proved, plain } = (kind.answer)(program, &[lines]);
    println!("proved: {}\nplain:  {}", proved.escape_ascii(), plain.escape_ascii());
}

/// How often each answer came: its first word, and where it has one its number or its cause.
fn count(tally: &mut BTreeMap<String, usize>, number_at: usize, answers: &[u8]) {
    for line in String::from_utf8_lossy(answers).lines() {
        let words: Vec<&str> = line.split(' ').collect();
        let more = match words[0] {
            "uncertified" | "stopped" => words.get(2),
            "refused" => words.get(number_at),
            _ => None,
        };
        let what = more.map_or(words[0].to_owned(), |word| format!("{} {word}", words[0]));
        *tally.entry(what).or_default() += 1;
    }
}

fn main() {
    let arguments: Vec<String> = std::env::args().skip(1).collect();
    let [kind, program, count_of, seed] = arguments.as_slice() else {
        panic!("compare inputs|scripts PROGRAM COUNT SEED");
    };
    let kind = if kind == "scripts" { SCRIPTS } else { INPUTS };
    let (total, seed): (usize, u64) = (count_of.parse().expect("a count"), seed.parse().expect("a seed"));
    let mut random = Random::new(seed);
    let mut tally = BTreeMap::new();
    let mut differences = 0;
    for begin in (0..total).step_by(CHUNK) {
        let chunk: Vec<Lines> = (begin..total.min(begin + CHUNK)).map(|_| (kind.make)(&mut random)).collect();
        let Answers { proved, plain } = (kind.answer)(program, &chunk);
        count(&mut tally, kind.number_at, &plain);
        if proved == plain {
            continue;
        }
        for lines in chunk {
            let Answers { proved, plain } = (kind.answer)(program, std::slice::from_ref(&lines));
            if proved != plain && differences < 20 {
                differences += 1;
                show(&kind, program, lines);
            }
        }
    }
    println!("{total} compared from seed {seed}, {differences} differences\n{tally:#?}");
    std::process::exit(i32::from(differences > 0));
}
