//! The commands, and the threads that go through the cases.

use crate::bytes::Bytes;
use crate::edits::Edits;
use crate::functions::Functions;
use crate::runs::Runs;
use crate::scopes::ScopeCalls;
use crate::sources::sources;
use oracle::record::{Record, keep_panics};
use std::any::Any;
use std::collections::BTreeMap;
use std::process::{ExitCode, exit};
use std::sync::atomic::{AtomicU64, Ordering};
use std::time::Instant;
use std::{env, thread};

const USAGE: &str = "\
differential part [--break] [KIND]   every so manieth block of each kind's cases
differential full [--break] [KIND]   all of them
differential show KIND-NUMBER        one case, made as small as it can be if it differs, with both records
--break damages each answer of the port before it is compared, and each must be found to differ
";

/// Cases in a block, which one thread goes through in order.
const BLOCK: u64 = 256;

/// `part` takes one block of so many.
const PART: u64 = 10;

/// Differences of a kind that are shown.
const SHOWN: usize = 2;

/// One kind of cases, by number.
pub trait Comparison {
    /// Compares a case; says what differs.
    fn compare(&mut self, number: u64, tally: &mut Tally) -> Result<(), String>;
    /// A case with both answers.
    fn show(&mut self, number: u64) -> String;
}

/// What was counted, by name.
#[derive(Default)]
pub struct Tally(BTreeMap<String, u64>);

impl Tally {
    pub fn add(&mut self, name: &str, count: u64) {
        match self.0.get_mut(name) {
            Some(so_far) => *so_far += count,
            None => drop(self.0.insert(name.into(), count)),
        }
    }

    /// Counts a record of the Rust.
    pub fn add_record(&mut self, record: &Record) {
        self.add("runs", 1);
        self.add("items", record.items.len() as u64);
        let beyond = record.items.windows(2).filter(|pair| pair[1].reach > pair[0].position + 12).count();
        self.add("items with a reach beyond the window", beyond as u64);
        if let Some(panic) = record.panic() {
            self.add(&format!("panics of the Rust, {panic}"), 1);
        }
    }

    fn add_all(&mut self, other: Self) {
        other.0.iter().for_each(|(name, count)| self.add(name, *count));
    }
}

/// A kind: its name, how many cases it has, and how a thread makes its own comparison, damaged or not.
struct Kind {
    name: String,
    cases: u64,
    new: Box<dyn Fn(bool) -> Box<dyn Comparison> + Sync>,
}

fn kinds() -> Vec<Kind> {
    let of_source = |(i, source): (usize, crate::sources::Source)| Kind {
        name: source.name,
        cases: source.count,
        new: Box::new(move |broken| Box::new(Runs::new(sources().swap_remove(i), broken))),
    };
    let others = [
        Kind { name: "edits".into(), cases: Edits::COUNT, new: Box::new(|broken| Box::new(Edits::new(broken))) },
        Kind { name: "scopes".into(), cases: ScopeCalls::COUNT, new: Box::new(|broken| Box::new(ScopeCalls::new(broken))) },
        Kind { name: "functions".into(), cases: Functions::COUNT, new: Box::new(|broken| Box::new(Functions::new(broken))) },
        Kind { name: "bytes".into(), cases: Bytes::COUNT, new: Box::new(|broken| Box::new(Bytes::new(broken))) },
    ];
    sources().into_iter().enumerate().map(of_source).chain(others).collect()
}

pub fn main() -> ExitCode {
    keep_panics();
    let words: Vec<String> = env::args().skip(1).collect();
    let broken = words.iter().any(|word| word == "--break");
    let words: Vec<&str> = words.iter().map(String::as_str).filter(|word| *word != "--break").collect();
    let agree = match words.as_slice() {
        ["part", kinds @ ..] => compare(PART, kinds, broken),
        ["full", kinds @ ..] => compare(1, kinds, broken),
        ["show", name] => show(name),
        _ => None,
    };
    match agree {
        Some(true) => ExitCode::SUCCESS,
        Some(false) => ExitCode::FAILURE,
        None => {
            eprint!("{USAGE}");
            ExitCode::from(2)
        }
    }
}

/// Goes through one block of so many of each kind, and prints what was counted. Whether all agree or, damaged, all differ.
fn compare(every: u64, names: &[&str], broken: bool) -> Option<bool> {
    let mut tally = Tally::default();
    let (mut cases, mut differ) = (0, 0);
    let chosen: Vec<Kind> = kinds().into_iter().filter(|kind| names.is_empty() || names.contains(&kind.name.as_str())).collect();
    if chosen.is_empty() {
        return None;
    }
    for kind in chosen {
        let start = Instant::now();
        let done = kind.compare(every, broken);
        println!("{}: {} cases, {} differ, {:.1} s", kind.name, done.cases, done.differ, start.elapsed().as_secs_f64());
        if !broken {
            done.shown.iter().for_each(|number| println!("{}-{number}\n{}", kind.name, (kind.new)(false).show(*number)));
        }
        (cases, differ) = (cases + done.cases, differ + done.differ);
        tally.add_all(done.tally);
    }
    for (name, count) in tally.0 {
        println!("{name}: {count}");
    }
    println!("{} {cases}, differ {differ}", if broken { "damaged" } else { "compared" });
    Some(differ == if broken { cases } else { 0 })
}

/// What went through: cases, differences, the first of them.
#[derive(Default)]
struct Done {
    cases: u64,
    differ: u64,
    shown: Vec<u64>,
    tally: Tally,
}

impl Kind {
    fn compare(&self, every: u64, broken: bool) -> Done {
        let block = AtomicU64::new(0);
        let work = || {
            let mut comparison = (self.new)(broken);
            let mut done = Done::default();
            loop {
                let first = block.fetch_add(1, Ordering::Relaxed) * every * BLOCK;
                if first >= self.cases {
                    return done;
                }
                for number in first..self.cases.min(first + BLOCK) {
                    done.cases += 1;
                    if comparison.compare(number, &mut done.tally).is_err() {
                        done.differ += 1;
                        done.shown.push(number);
                    }
                }
                done.shown.truncate(SHOWN);
            }
        };
        let threads = thread::available_parallelism().map_or(1, usize::from);
        let parts: Vec<Done> = thread::scope(|scope| {
            let threads: Vec<_> = (0..threads).map(|_| scope.spawn(work)).collect();
            threads.into_iter().map(|thread| thread.join().unwrap_or_else(|panic| stop(panic))).collect()
        });
        let mut done = Done::default();
        for part in parts {
            done.cases += part.cases;
            done.differ += part.differ;
            done.shown.extend(part.shown);
            done.tally.add_all(part.tally);
        }
        done.shown.sort();
        done.shown.truncate(SHOWN);
        done
    }
}

/// Panics are kept, so a panic of a comparison itself has to be said.
fn stop(panic: Box<dyn Any + Send>) -> ! {
    eprintln!("a comparison panicked: {:?} {:?}", panic.downcast_ref::<String>(), panic.downcast_ref::<&str>());
    exit(3)
}

fn show(name: &str) -> Option<bool> {
    let (kind, number) = name.rsplit_once('-')?;
    let kind = kinds().into_iter().find(|one| one.name == kind)?;
    let number = number.parse().ok().filter(|number| *number < kind.cases)?;
    print!("{}", (kind.new)(false).show(number));
    Some(true)
}
