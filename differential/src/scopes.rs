//! Sequences of scope calls on both sides, compared by the names that are found afterwards.

use crate::commands::{Comparison, Tally};
use crate::port::{Record, Scope, cells, require};
use crate::runs::{Scopes, same_record};
use oracle::case::{Case, Entry, ScopeCall};
use oracle::random::{Random, name};
use oracle::record::change;
use oracle::rules::DOT;

/// The limits: stacked contexts, entries, parsed names.
const LIMITS: [usize; 3] = [32, 512, 256];

/// Of so many sequences one is long enough to come to the limits.
const LARGE: u64 = 2_000;

pub struct ScopeCalls {
    scopes: Scopes,
    record: Record,
    broken: bool,
}

impl ScopeCalls {
    pub const COUNT: u64 = 200_000;

    pub fn new(broken: bool) -> Self {
        Self { scopes: Scopes::new(), record: Record::default(), broken }
    }

    /// Goes through a sequence; the words end in what was asked.
    fn go_through(&mut self, number: u64, tally: &mut Tally) -> Result<(), String> {
        let mut r = Random(number ^ 0x5C09_0000_0000_0000);
        let large = number % LARGE == 0;
        let pool = pool(&mut r, large);
        let scopes = &mut self.scopes;
        scopes.reopen();
        let mut made: Vec<ScopeCall> = vec![];
        for _ in 0..if large { r.between(20, 60) } else { r.between(1, 12) } {
            let call = call(&mut r, &pool, large);
            let words = |words: String, made: &[ScopeCall], text: &str| Case::new(words, text).with_scope(made.to_vec()).line();
            tally.add("scope calls", 1);
            match make(scopes, &call, large) {
                Ok(true) => made.push(call),
                Ok(false) => tally.add("scope calls refused with 11", 1),
                Err(difference) => return Err(words(difference, &[made, vec![call]].concat(), "")),
            }
            for _ in 0..2 {
                let text = text(&mut r, &pool);
                let flags = r.pick(&[0, 0, 16, 8, 31]);
                let rust = scopes.run_rust(258, flags, &text);
                tally.add_record(&rust);
                self.record.run(&scopes.port, 258, flags, &cells(&text));
                if self.broken {
                    self.record.damage(&mut r, rust.items.len());
                }
                same_record(&rust, &self.record).map_err(|difference| words(difference, &made, &text))?;
            }
        }
        Ok(())
    }
}

impl Comparison for ScopeCalls {
    fn compare(&mut self, number: u64, tally: &mut Tally) -> Result<(), String> {
        self.go_through(number, tally)
    }

    fn show(&mut self, number: u64) -> String {
        let mut r = Random(number ^ 0x5C09_0000_0000_0000);
        let pool = pool(&mut r, number % LARGE == 0);
        let said = self.go_through(number, &mut Tally::default()).map_or_else(|words| words, |()| "agrees".into());
        format!("names {pool:?}\n{said}\nthe port:\n{}", self.record.printed())
    }
}

/// Makes a call on both sides. False if the port refuses it at a limit, and then nothing changes.
fn make(scopes: &mut Scopes, call: &ScopeCall, large: bool) -> Result<bool, String> {
    let before: Option<Scope> = large.then(|| scopes.port.clone());
    let counts = scopes.port.counts();
    let answer = scopes.port.call(call);
    let added = match call {
        ScopeCall::Push(entries) => [1, entries.len(), 0],
        ScopeCall::Pop => [0, 0, 0],
        ScopeCall::SetEntryName(_) => [0, 1, 0],
        ScopeCall::SetContext(_, entries) => [0, 1 + entries.len(), 0],
        ScopeCall::AddParsedName(_) => [0, 0, 1],
    };
    // What is replaced makes room, so going beyond a limit by these numbers allows a refusal but does not demand it.
    let beyond = (0..3).any(|i| counts[i] + added[i] > LIMITS[i]);
    if answer == (11, [0; 8]) && beyond {
        require(before.is_none_or(|before| before == scopes.port), || format!("{call:?} is refused and changes the scope"))?;
        return Ok(false);
    }
    require(answer == (0, [0; 8]), || format!("{call:?} gives {answer:?}"))?;
    require((0..3).all(|i| scopes.port.counts()[i] <= LIMITS[i]), || format!("{call:?} goes beyond a limit"))?;
    change(&scopes.rust, call);
    Ok(true)
}

/// Names that calls and texts are made of; trimmed, as the Rust would trim them.
fn pool(r: &mut Random, large: bool) -> Vec<String> {
    let known = ["a", "b", "c", "a b", "a+b", "a++", "b--", "b.c", "a . b", "a++ . b", "item", "in", "day", "end included", "date", ""];
    let mut pool: Vec<String> = (0..r.between(2, 6)).map(|_| r.pick(&known).to_string()).collect();
    pool.extend((0..2).map(|_| name(r).chars().take(128).collect::<String>().trim().to_string()));
    if large {
        pool.extend((0..400).map(|i| format!("n{i}")));
        pool.push("m".repeat(128));
    }
    pool
}

fn call(r: &mut Random, pool: &[String], large: bool) -> ScopeCall {
    let name = |r: &mut Random| pool[r.below(pool.len())].clone();
    let most = if large { 120 } else { 6 };
    match r.below(12) {
        0..3 => ScopeCall::Push(entries(r, pool, 7, most)),
        3 => ScopeCall::Push(vec![]),
        4 => ScopeCall::Pop,
        5..8 => ScopeCall::SetEntryName(name(r)),
        8..10 => ScopeCall::SetContext(name(r), entries(r, pool, 6, most)),
        _ => ScopeCall::AddParsedName(name(r)),
    }
}

/// A well-formed entry list: each deeper entry stands below a context. Names repeat.
fn entries(r: &mut Random, pool: &[String], deepest: u32, most: usize) -> Vec<Entry> {
    let mut entries: Vec<Entry> = vec![];
    for _ in 0..r.between(0, most) {
        let below = entries.last().map_or(0, |e| (e.depth + e.kind).min(deepest));
        let depth = if r.chance(60) { below } else { r.between(0, below as usize) as u32 };
        entries.push(Entry { depth, kind: r.chance(50) as u32, name: pool[r.below(pool.len())].clone() });
    }
    entries
}

/// A text of names, parted in the ways that matter to a name.
fn text(r: &mut Random, pool: &[String]) -> String {
    let partings = ["", " ", "  ", ".", " . ", DOT, "+", " - ", ":", ", ", " in ", "\u{1680}"];
    (0..r.between(1, 4)).map(|_| pool[r.below(pool.len())].clone() + r.pick(&partings)).collect()
}
