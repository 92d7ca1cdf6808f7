//! Preflight in plain Rust, written from its rules: the other side of the measurements and of the comparison.

pub mod certify;
pub mod congruence;
pub mod crt;
pub mod domain;
pub mod interval;
pub mod line;
pub mod pointwise;
pub mod product;
pub mod program;
pub mod range;
pub mod reader;
pub mod refusal;
pub mod report;
pub mod run;
pub mod script;
pub mod session;
pub mod token;
pub mod travel;
