//! The files of the program crates/replay: the stored cases, which it reads, and their lines with the Rust's records, which it must print.

use crate::answers;
use crate::record::{End, run};
use std::{fs, io};

const STDIN: &str = concat!(env!("CARGO_MANIFEST_DIR"), "/../crates/replay/stdin");
const STDOUT: &str = concat!(env!("CARGO_MANIFEST_DIR"), "/../crates/replay/stdout");

/// Each file's path and text. A case whose record ends in a panic of the pair mask is left out: 01's run goes on there, so it has no answer of the Rust to print.
fn files() -> [(&'static str, String); 2] {
    let mut cases = String::new();
    let mut lines = String::new();
    for case in answers::sample() {
        let Some(record) = run(&case) else { continue };
        if !matches!(record.end, End::Open(_)) {
            cases += &(case.line() + "\n");
            lines += &(answers::line(&case, &record) + "\n");
        }
    }
    [(STDIN, cases), (STDOUT, lines)]
}

pub fn write() -> io::Result<()> {
    files().iter().try_for_each(|(path, text)| fs::write(path, text))
}

/// The paths of the files that are not as `write` would write them.
pub fn stale() -> io::Result<Vec<&'static str>> {
    let mut paths = vec![];
    for (path, text) in files() {
        if fs::read_to_string(path)? != text {
            paths.push(path);
        }
    }
    Ok(paths)
}
