//! The stored answers: a sample of cases, each with the Rust's record, for a replay where the Rust is not at hand.

use crate::case::Case;
use crate::random::random;
use crate::record::{Record, run};
use crate::rules::{rules, short};
use std::collections::BTreeMap;

/// The file, in the repository.
pub const FILE: &str = concat!(env!("CARGO_MANIFEST_DIR"), "/answers.txt");

/// How it is made, and what a line holds.
const HEAD: &str = "\
# Made by `cargo run --offline --release --manifest-path oracle/Cargo.toml -- answers`; a line is a case and the Rust's record. See oracle/README.md.
";

/// So many cases of each rule and of each alphabet, evenly spaced, and so many random ones.
const OF_A_RULE: usize = 60;
const RANDOM: u64 = 300;

pub fn sample() -> Vec<Case> {
    let mut families: BTreeMap<String, Vec<Case>> = BTreeMap::new();
    for case in rules() {
        families.entry(part(&case.name, 1)).or_default().push(case);
    }
    for case in short() {
        families.entry(part(&case.name, 2)).or_default().push(case);
    }
    let spaced = |cases: Vec<Case>| {
        let count = cases.len().min(OF_A_RULE);
        (0..count).map(|i| cases[i * cases.len() / count].clone()).collect::<Vec<_>>()
    };
    families.into_values().flat_map(spaced).chain((0..RANDOM).map(random)).collect()
}

/// The first parts of a name.
fn part(name: &str, parts: usize) -> String {
    name.split('-').take(parts).collect::<Vec<_>>().join("-")
}

/// A case and its record in one line.
pub fn line(case: &Case, record: &Record) -> String {
    format!("{} {}", case.line(), record.line())
}

/// The file's text.
pub fn text() -> String {
    let lines = sample().iter().filter_map(|case| Some(line(case, &run(case)?) + "\n")).collect::<String>();
    HEAD.to_string() + &lines
}
