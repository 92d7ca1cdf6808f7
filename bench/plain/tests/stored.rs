//! The stored examples of the proved programs.

use plain::report::{lines, report_on};
use plain::script::replay;

fn stored(path: &str) -> Vec<u8> {
    std::fs::read(format!("{}/../../crates/{path}", env!("CARGO_MANIFEST_DIR"))).expect("a stored example")
}

#[test]
fn inputs() {
    let mut reports = String::new();
    let mut input = Vec::new();
    for line in lines(&stored("batch/stdin")) {
        if line == b"----" {
            reports.push_str(&report_on(&input));
            input.clear();
        } else {
            input.extend_from_slice(line);
            input.push(b'\n');
        }
    }
    assert_eq!(reports.into_bytes(), stored("batch/stdout"));
}

#[test]
fn one_input() {
    assert_eq!(report_on(&stored("preflight/stdin")).into_bytes(), stored("preflight/stdout"));
}

#[test]
fn a_script() {
    assert_eq!(replay(&stored("replay/stdin")).into_bytes(), stored("replay/stdout"));
}
