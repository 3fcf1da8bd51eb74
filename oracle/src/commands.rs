//! The commands.

use crate::answers;
use crate::case::Case;
use crate::definitions::{Equation, LONGEST, Scratch};
use crate::program;
use crate::random::{edit, random};
use crate::record::{End, Record, keep_panics, run};
use crate::replay;
use crate::rules::{departures, rules, short};
use crate::rust::lalr::TokenType;
use std::collections::BTreeMap;
use std::io;
use std::path::Path;
use std::process::ExitCode;
use std::time::Instant;
use std::{env, fs};

const USAGE: &str = "\
oracle check                          the stored answers against the Rust
oracle definitions [RANDOM [EDITS]]   the definitions against the Rust, as computed equations
oracle definitions part               the same of a hundredth of the cases
oracle program [TEXTS]                the record program, built before, against the Rust
oracle answers                        prints the stored answers anew
oracle replay                         writes what the program crates/replay reads and must print
oracle show NAME...                   prints cases by their names, with the Rust's records
oracle run                            reads cases in their text form, prints each with the Rust's record
";

/// The definitions' token types.
const TOKEN_TYPES: &str = concat!(env!("CARGO_MANIFEST_DIR"), "/../crates/lexer/specs/TokenType.antt");

/// One in so many cases is damaged, too, and must then be refused.
const DAMAGED: usize = 97;

/// Where `rt run` in crates/print_record puts the record program.
const PROGRAM: &str = concat!(env!("CARGO_MANIFEST_DIR"), "/../crates/print_record/out/print_record");

pub fn main() -> ExitCode {
    keep_panics();
    let words: Vec<String> = env::args().skip(1).collect();
    let words: Vec<&str> = words.iter().map(String::as_str).collect();
    let number = |at: usize, default: u64| words.get(at).map_or(Some(default), |word| word.parse().ok());
    let done = match words.as_slice() {
        ["check"] => check(),
        ["definitions", "part"] => definitions(0, 5, DAMAGED),
        ["definitions", ..] if words.len() < 4 => match (number(1, 2000), number(2, 500)) {
            (Some(random), Some(edits)) => definitions(random, edits, 1),
            _ => Err(io::Error::other(USAGE)),
        },
        ["program", ..] if words.len() < 3 => match number(1, 10_000) {
            Some(texts) => program::compare(Path::new(PROGRAM), texts),
            None => Err(io::Error::other(USAGE)),
        },
        ["answers"] => {
            print!("{}", answers::text());
            Ok(true)
        }
        ["replay"] => replay::write().map(|()| true),
        ["show", names @ ..] => show(names),
        ["run"] => run_lines(),
        _ => Err(io::Error::other(USAGE)),
    };
    match done {
        Ok(true) => ExitCode::SUCCESS,
        Ok(false) => ExitCode::FAILURE,
        Err(error) => {
            eprintln!("{error}");
            ExitCode::from(2)
        }
    }
}

/// Runs each stored case anew and compares its line. The file must also be what `answers` prints, so that its names give its cases,
/// and the files of crates/replay what `replay` writes.
fn check() -> io::Result<bool> {
    let stored = fs::read_to_string(answers::FILE)?;
    let mut records = vec![];
    let mut differ = 0;
    for line in stored.lines().filter(|line| !line.starts_with('#')) {
        let (given, record) = answered(line)?;
        if given != line {
            println!("stored:   {line}\nthe Rust: {given}");
            differ += 1;
        }
        records.push(record);
    }
    println!("cases {}, agree {}, differ {differ}", records.len(), records.len() - differ);
    print_panics(&records);
    let as_printed = stored == answers::text();
    if !as_printed {
        println!("{} is not what `answers` prints", answers::FILE);
    }
    let stale = replay::stale()?;
    for path in &stale {
        println!("{path} is not what `replay` writes");
    }
    let types_agree = token_types()?;
    Ok(differ == 0 && as_printed && types_agree && stale.is_empty() && records.iter().all(|record| !matches!(record.end, End::Unexplained(_))))
}

/// The token types of the definitions against those of the tables. Left out there are the mark of an empty table entry and the one type that only the grammar has.
fn token_types() -> io::Result<bool> {
    let definitions = fs::read_to_string(TOKEN_TYPES)?;
    let defined: Vec<(&str, i32)> =
        definitions.lines().filter_map(|line| line.split_once(" = ")).filter_map(|(name, number)| Some((name, number.parse().ok()?))).collect();
    let tables: Vec<(&str, i32)> = TokenType::NUMBERS.iter().copied().filter(|(name, _)| !["YyEmpty", "PrecedenceNeg"].contains(name)).collect();
    for (name, number) in defined.iter().filter(|row| !tables.contains(row)) {
        println!("token type {name} = {number} of the definitions is not in the tables");
    }
    for (name, number) in tables.iter().filter(|row| !defined.contains(row)) {
        println!("token type {name} = {number} of the tables is not defined");
    }
    println!("token types {}, agree {}", tables.len(), tables.iter().filter(|row| defined.contains(row)).count());
    Ok(!tables.is_empty() && defined == tables)
}

/// The case at the front of a line with the Rust's record, as a line again.
fn answered(line: &str) -> io::Result<(String, Record)> {
    let case = Case::read(&mut line.split(' '));
    let answer = case.and_then(|case| run(&case).map(|record| (answers::line(&case, &record), record)));
    answer.ok_or_else(|| io::Error::other(format!("no case that the Rust can be handed: {line}")))
}

fn print_panics(records: &[Record]) {
    let mut messages = BTreeMap::new();
    for message in records.iter().filter_map(Record::panic) {
        *messages.entry(message).or_insert(0) += 1;
    }
    for (message, count) in messages {
        println!("panics {count}, {message}");
    }
}

/// All cases of the rules and alphabets, and random ones; then repairs; then damaged records, which must be refused.
fn definitions(random_cases: u64, edits: u64, every: usize) -> io::Result<bool> {
    let mut cases = [rules(), short(), (0..random_cases).map(random).collect()].concat();
    cases.retain(|case| case.length() <= LONGEST);
    let cases: Vec<Case> = cases.into_iter().step_by(every).collect();
    let records: Vec<Record> = cases.iter().map(|case| run(case).expect("start types are token types")).collect();
    let equations = || cases.iter().zip(&records).map(|(case, record)| Equation::of_run(case, record));
    let runs: Vec<Equation> = equations().collect();
    let repairs: Vec<Equation> = (0..edits).filter_map(|seed| Equation::of_edit(&edit(seed))).collect();
    let damaged: Vec<Equation> = equations().step_by(DAMAGED / every).enumerate().map(|(i, equation)| equation.damaged(i)).collect();

    let scratch = Scratch::new(&Path::new(env!("CARGO_MANIFEST_DIR")).join(".."))?;
    println!("definitions of {}", scratch.commit);
    let runs_agree = compare("runs", &scratch, &runs)?;
    let beyond = |record: &Record| record.items.windows(2).filter(|pair| pair[1].reach > pair[0].position + 12).count();
    let (items, beyond) = records.iter().fold((0, 0), |(n, m), record| (n + record.items.len(), m + beyond(record)));
    println!("items {items}, with a reach beyond the window {beyond}");
    print_panics(&records);
    let repairs_agree = compare("repairs", &scratch, &repairs)?;
    let refused = scratch.refused("damaged_cases", &damaged)?.len();
    println!("damaged {}, refused {refused}", damaged.len());
    Ok(runs_agree && repairs_agree && refused == damaged.len())
}

/// Checks equations and prints those that are refused.
fn compare(name: &str, scratch: &Scratch, equations: &[Equation]) -> io::Result<bool> {
    let start = Instant::now();
    let refused = scratch.refused(&format!("{name}_cases"), equations)?;
    for (i, words) in &refused {
        println!("differs: {}\n  {words}", equations[*i].case);
    }
    println!("{name} {}, agree {}, differ {}, {} s", equations.len(), equations.len() - refused.len(), refused.len(), start.elapsed().as_secs());
    Ok(refused.is_empty())
}

fn show(names: &[&str]) -> io::Result<bool> {
    for name in names {
        for case in named(name).ok_or_else(|| io::Error::other(format!("no case is named {name}")))? {
            println!("{}\n{:?}", case.line(), case.text);
            print!("{}", run(&case).expect("start types are token types").printed());
        }
    }
    Ok(true)
}

/// The case of a name, or an edit's two.
fn named(name: &str) -> Option<Vec<Case>> {
    if let Some(seed) = name.strip_prefix("random-") {
        return Some(vec![random(seed.parse().ok()?)]);
    }
    if let Some(seed) = name.strip_prefix("edit-") {
        let edit = edit(seed.parse().ok()?);
        return Some(vec![edit.old, edit.new]);
    }
    [rules(), short(), departures()].concat().into_iter().find(|case| case.name == name).map(|case| vec![case])
}

fn run_lines() -> io::Result<bool> {
    for line in io::stdin().lines() {
        println!("{}", answered(&line?)?.0);
    }
    Ok(true)
}
