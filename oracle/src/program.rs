//! The record program held against the Rust: random texts on its standard input.

use crate::case::Case;
use crate::random::random;
use crate::record::{End, run};
use std::io::{self, Write};
use std::path::Path;
use std::process::{Command, Stdio};

/// 01: it takes up to so many bytes.
const MOST: usize = 2_048;

/// Compares so many texts, and prints those that differ. Behind a panic of the pair mask 01's run goes on, so only the lines before it are compared.
pub fn compare(program: &Path, count: u64) -> io::Result<bool> {
    let (mut differ, mut open) = (0, 0);
    for seed in 0..count {
        let case = Case::new(format!("random-{seed}"), random(seed).text);
        let record = run(&case).expect("258 is a start type");
        let given = printed(program, &case.text)?;
        let is_open = matches!(record.end, End::Open(_));
        let due = if case.text.len() > MOST { "R1 0\n".into() } else { record.lines() };
        open += u64::from(is_open);
        if !(given == due || is_open && given.starts_with(&due)) {
            println!("{}\nprinted:\n{given}the Rust:\n{due}", case.line());
            differ += 1;
        }
    }
    println!("texts {count}, agree {}, differ {differ}, compared to a panic {open}", count - differ);
    Ok(differ == 0)
}

/// What the program prints for a text.
fn printed(program: &Path, text: &str) -> io::Result<String> {
    let mut child = Command::new(program).stdin(Stdio::piped()).stdout(Stdio::piped()).spawn()?;
    child.stdin.take().expect("it is piped").write_all(text.as_bytes())?;
    Ok(String::from_utf8_lossy(&child.wait_with_output()?.stdout).into())
}
