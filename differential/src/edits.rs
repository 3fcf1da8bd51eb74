//! Edits: the repair of a record gives what a run over the new text gives, which now and then is held against the Rust too.

use crate::commands::{Comparison, Tally};
use crate::port::{Edit, PAINT, Record, cells, require};
use crate::runs::{MAX_CHARS, Scopes, all_of, same_record};
use oracle::case::{Case, cells as field};
use oracle::random::{self, Random, character, fragment};
use oracle::record::End;
use oracle::rules::named;
use std::mem::swap;

/// Edits of one text, one behind the other.
const GROUP: u64 = 32;

/// Of so many groups one has a long text.
const LONG: u64 = 64;

/// Of so many edits one is held against the Rust.
const RUST: u64 = 8;

pub struct Edits {
    scopes: Scopes,
    /// The case that is edited, with its text as it is now, and the number of the edit that is due.
    case: Case,
    text: Vec<char>,
    due: u64,
    old: Record,
    repaired: Record,
    fresh: Record,
    broken: bool,
}

impl Comparison for Edits {
    fn compare(&mut self, number: u64, tally: &mut Tally) -> Result<(), String> {
        self.go_to(number)?;
        let (from, to, put) = self.edit(number);
        self.due += 1;
        tally.add("edits", 1);
        tally.add(kind(from, to, &put), 1);
        tally.add("edits at the text's start", (from == 0) as u64);
        tally.add("edits at the text's end", (to == self.text.len()) as u64);
        self.make(from, to, &put, number, tally)
    }

    fn show(&mut self, number: u64) -> String {
        if let Err(words) = self.go_to(number) {
            return words;
        }
        let (from, to, put) = self.edit(number);
        let (before, old) = (Case { text: self.text.iter().collect(), ..self.case.clone() }, self.old.printed());
        let said = self.make(from, to, &put, 0, &mut Tally::default()).map_or_else(|words| words, |()| "agrees".into());
        let put = field(&put.iter().collect::<String>());
        format!(
            "{}\n{:?}\n{from} to {to} give way to {put}\n{said}\nbefore:\n{old}repaired:\n{}run:\n{}",
            before.line(),
            before.text,
            self.repaired.printed(),
            self.fresh.printed()
        )
    }
}

impl Edits {
    pub const COUNT: u64 = 2_000_000;

    pub fn new(broken: bool) -> Self {
        let [old, repaired, fresh] = [(); 3].map(|()| Record::default());
        Self { scopes: Scopes::new(), case: Case::default(), text: vec![], due: u64::MAX, old, repaired, fresh, broken }
    }

    /// Makes the edits of the group before this one, if they are not made.
    fn go_to(&mut self, number: u64) -> Result<(), String> {
        if self.due != number || number % GROUP == 0 {
            self.due = number - number % GROUP;
            self.case = opened(number / GROUP);
            self.text = self.case.text.chars().collect();
            self.scopes.enter(&self.case.scope)?;
            self.old.run(&self.scopes.port, self.case.start, self.case.flags, &cells(&self.case.text));
        }
        while self.due < number {
            let (from, to, put) = self.edit(self.due);
            self.make(from, to, &put, 1, &mut Tally::default()).or(if self.broken { Ok(()) } else { Err("an edit before differs".to_string()) })?;
            self.due += 1;
        }
        Ok(())
    }

    /// The edit of a number, mostly at a place that the run comes to.
    fn edit(&self, number: u64) -> (usize, usize, Vec<char>) {
        let mut r = Random(number ^ 0xED17_0000_0000_0000);
        let (text, length) = (&self.text, self.text.len());
        let read = self.old.items().last().map_or(0, |row| row[2] as usize);
        let from = match r.below(10) {
            0 => 0,
            1 => length,
            2 => r.between(0, length),
            _ => r.between(0, length.min(read + 3)),
        };
        let longest = [3, 40, length][(r.chance(12) as usize) + (r.chance(2) as usize)];
        let to = from + r.between(0, longest.min(length - from));
        let put = match r.below(8) {
            0 => vec![],
            1 => text[from..to].to_vec(),
            2 => vec![r.character("a1 \"\\/*+.:(\n")],
            3 => vec![character(&mut r)],
            4 => text.iter().skip(r.between(0, length)).take(12).copied().collect(),
            _ => fragment(&mut r).chars().take(40).collect(),
        };
        (from, to, put)
    }

    /// Makes an edit and compares its repair, which is handed only the new text from the last kept position on.
    fn make(&mut self, from: usize, to: usize, put: &[char], number: u64, tally: &mut Tally) -> Result<(), String> {
        let text: Vec<char> = [&self.text[..from], put, &self.text[to..]].concat();
        let all: Vec<u32> = text.iter().map(|c| *c as u32).collect();
        let edit = Edit { length: self.text.len(), from, to, size: put.len() };
        let kept = self.old.items().iter().take_while(|row| row[4] as usize <= from).count();
        let start = self.old.items()[kept - 1][2] as usize;
        // A look left or right of the part would find paint.
        let part = [&[PAINT; 16], &all[start..], &[PAINT; 16]].concat();
        let Scopes { port: scope, .. } = &self.scopes;
        self.repaired.repair(scope, &self.old, edit, &part[16..part.len() - 16]);
        self.fresh.run(scope, self.case.start, self.case.flags, &all);
        if self.broken {
            self.repaired.damage(&mut Random(number), self.fresh.items().len().max(1));
        }
        if text.len() > MAX_CHARS {
            tally.add("edits refused with 1", 1);
            return self.repaired.is_refused(1).and(self.fresh.is_refused(1));
        }
        tally.add("items kept", kept as u64);
        tally.add("items of new texts", self.fresh.items().len() as u64);
        let same = same_records(&self.repaired, &self.fresh);
        let as_rust = if number % RUST == 0 { self.as_rust(&text, tally) } else { same.clone() };
        swap(&mut self.old, if same.is_ok() { &mut self.repaired } else { &mut self.fresh });
        self.text = text;
        all_of([same, as_rust], self.broken)
    }

    fn as_rust(&self, text: &[char], tally: &mut Tally) -> Result<(), String> {
        let rust = self.scopes.run_rust(self.case.start, self.case.flags, &text.iter().collect::<String>());
        tally.add("edits held against the Rust", 1);
        match rust.end {
            End::Open(_) if self.broken => Err("the damage may be behind what is compared".into()),
            _ => same_record(&rust, &self.repaired),
        }
    }
}

/// Whole records: item count, rows and used store.
fn same_records(repaired: &Record, fresh: &Record) -> Result<(), String> {
    require(repaired.refusal == 0 && fresh.refusal == 0, || format!("refused with {} and {}", repaired.refusal, fresh.refusal))?;
    repaired.leftovers()?;
    fresh.leftovers()?;
    require(repaired.items() == fresh.items(), || "rows".into())?;
    require(repaired.values() == fresh.values(), || "values".into())
}

fn kind(from: usize, to: usize, put: &[char]) -> &'static str {
    match (to - from, put.len()) {
        (0, 0) => "edits, empty",
        (0, _) => "edits, insertions",
        (_, 0) => "edits, deletions",
        _ => "edits, replacements",
    }
}

/// The case that a group edits: a random one, or a long text of many tokens.
fn opened(group: u64) -> Case {
    if group % LONG != 0 {
        return random::edit(group).old;
    }
    let mut r = Random(group);
    let length = r.pick(&[1_000, 4_000, 16_000, 16_380]);
    let mut text = String::new();
    while text.chars().count() < length {
        text += &fragment(&mut r).replace(['"', '\\'], "'");
        text += r.pick(&[", ", " < ", " = 1, ", "(\"x\") "]);
    }
    Case::new("", text.chars().take(length).collect::<String>()).with_flags(r.below(32) as u32).with_scope(vec![named("a"), named("row width")])
}
