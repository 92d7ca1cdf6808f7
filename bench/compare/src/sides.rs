//! The two sides: a program of the proved crates as a process, and the plain library.

use crate::inputs::MARKER;
use plain::report::report_on;
use plain::script::replay;
use std::io::Write;
use std::process::{Command, Stdio};

pub fn text_of(lines: &[Vec<u8>]) -> Vec<u8> {
    lines.iter().flat_map(|line| line.iter().copied().chain([b'\n'])).collect()
}

fn run(program: &str, input: Vec<u8>) -> Vec<u8> {
    let mut child = Command::new(program).stdin(Stdio::piped()).stdout(Stdio::piped()).spawn().expect("the program");
    let mut stdin = child.stdin.take().expect("standard input");
    let writer = std::thread::spawn(move || stdin.write_all(&input));
    let output = child.wait_with_output().expect("its output");
    let _ = writer.join();
    assert!(output.status.success(), "{program} fails: {}", output.status);
    output.stdout
}

/// Both sides' answers to a list of inputs or scripts, as texts.
pub struct Answers {
    pub proved: Vec<u8>,
    pub plain: Vec<u8>,
}

/// Both sides' reports on the inputs.
pub fn reports(program: &str, inputs: &[Vec<Vec<u8>>]) -> Answers {
    let batch = inputs.iter().flat_map(|lines| [text_of(lines), MARKER.to_vec(), b"\n".to_vec()]).flatten().collect();
    let plain = inputs.iter().flat_map(|lines| report_on(&text_of(lines)).into_bytes()).collect();
    Answers { proved: run(program, batch), plain }
}

/// Both sides' answers to the scripts, played in one go.
pub fn replies(program: &str, scripts: &[Vec<Vec<u8>>]) -> Answers {
    let script: Vec<u8> = scripts.iter().flat_map(|lines| text_of(lines)).collect();
    let plain = replay(&script).into_bytes();
    Answers { proved: run(program, script), plain }
}
