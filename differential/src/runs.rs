//! Runs and single token calls of the port against the Rust.

use crate::commands::{Comparison, Tally};
use crate::port::{self, Lexer, Scope, Text, cells, require};
use crate::sources::Source;
use feel_lexer::sys::Row;
use oracle::case::{Case, ScopeCall};
use oracle::random::Random;
use oracle::record::{End, Item, Reader, Record, run_in, scope_of};
use oracle::rust::scope::ParsingScope;

/// The most characters of a text.
pub const MAX_CHARS: usize = 16_384;

/// One scope on both sides.
pub struct Scopes {
    pub rust: ParsingScope,
    pub port: Scope,
    calls: Vec<ScopeCall>,
}

impl Scopes {
    pub fn new() -> Self {
        Self { rust: scope_of(&[]), port: Scope::opened(), calls: vec![] }
    }

    /// Makes them fresh.
    pub fn reopen(&mut self) {
        self.rust = scope_of(&[]);
        self.port.reopen();
        self.calls.clear();
    }

    /// Makes these the scopes after some calls on fresh ones, if they are not already.
    pub fn enter(&mut self, calls: &[ScopeCall]) -> Result<(), String> {
        if self.calls != calls {
            self.reopen();
            self.rust = scope_of(calls);
            self.calls = calls.to_vec();
            for call in calls {
                let answer = self.port.call(call);
                require(answer == (0, [0; 8]), || format!("{call:?} gives {answer:?}"))?;
            }
        }
        Ok(())
    }

    /// The Rust's record of a run here. A start type that is no `TokenType` gives YyError, as the others outside the nine do.
    pub fn run_rust(&self, start: u32, flags: u32, text: &str) -> Record {
        run_in(&self.rust, start, flags, text).unwrap_or_else(|| Record { items: vec![Item { number: 256, flags, ..Item::default() }], end: End::Whole })
    }
}

/// Whether a run of the port gave the Rust's record and left all else; of a record that the pair mask ends, the items before.
pub fn same_record(rust: &Record, port: &port::Record) -> Result<(), String> {
    require(port.refusal == 0, || format!("refused with {}", port.refusal))?;
    port.leftovers()?;
    let (rows, values) = (port.items(), port.values());
    let open = match &rust.end {
        End::Whole | End::Refused(_) => false,
        End::Open(_) => true,
        End::Unexplained(message) => return Err(format!("the Rust panics: {message}")),
    };
    require(rows.len() == rust.items.len() || open && rows.len() > rust.items.len(), || format!("{} items", rows.len()))?;
    let mut start = 0;
    for (i, (item, row)) in rust.items.iter().zip(rows).enumerate() {
        let expected = item.row(start);
        require(row.iter().map(|number| *number as usize).eq(expected), || format!("item {i}: {row:?} and not {expected:?}"))?;
        let end = start + expected[6];
        require(values.get(start..end).is_some_and(|cells| item.value.chars().map(u32::from).eq(cells.iter().copied())), || format!("value of item {i}"))?;
        start = end;
    }
    let ends = |row: &Row| (row[0] == 1 || [0, 256, 257].contains(&row[1])) && row[5] as usize + row[6] as usize == values.len();
    require(rows.last().is_some_and(ends), || format!("{:?} is the last item, with {} cells of values", rows.last(), values.len()))
}

/// The first difference. In a self-test everything compared was damaged, so each must have one.
pub fn all_of<const N: usize>(results: [Result<(), String>; N], broken: bool) -> Result<(), String> {
    if broken && results.iter().any(Result::is_ok) { Ok(()) } else { results.into_iter().collect() }
}

/// The cases of one source.
pub struct Runs {
    source: Source,
    scopes: Scopes,
    text: Text,
    record: port::Record,
    lexer: Lexer,
    broken: bool,
}

impl Comparison for Runs {
    fn compare(&mut self, number: u64, tally: &mut Tally) -> Result<(), String> {
        let case = (self.source.case)(number);
        self.compare_case(&case, number, tally)
    }

    fn show(&mut self, number: u64) -> String {
        let case = (self.source.case)(number);
        let case = self.shrunk(case, number);
        let difference = self.compare_case(&case, number, &mut Tally::default());
        let rust = self.scopes.run_rust(case.start, case.flags, &case.text);
        self.record.run(&self.scopes.port, case.start, case.flags, &cells(&case.text));
        let said = difference.map_or_else(|words| words, |()| "agrees".into());
        format!("{}\n{:?}\n{said}\nthe Rust:\n{}the port:\n{}", case.line(), case.text, rust.printed(), self.record.printed())
    }
}

impl Runs {
    pub fn new(source: Source, broken: bool) -> Self {
        Self { source, scopes: Scopes::new(), text: Text::default(), record: port::Record::default(), lexer: Lexer::default(), broken }
    }

    fn compare_case(&mut self, case: &Case, number: u64, tally: &mut Tally) -> Result<(), String> {
        self.scopes.enter(&case.scope)?;
        let mut r = Random(number);
        let text = cells(&case.text);
        let opened = self.opens(&case.text, &text, &mut r);
        tally.add("texts opened", 1);
        if text.len() > MAX_CHARS {
            tally.add("texts refused with 1", 1);
            return all_of([opened, self.is_too_long(case, &text, &mut r)], self.broken);
        }
        let rust = self.scopes.run_rust(case.start, case.flags, &case.text);
        tally.add_record(&rust);
        let ran = self.runs(case, &text, &rust, &mut r);
        let single = match number % 4 {
            0 => self.singly(case, &text, &mut r, tally),
            2 => self.with_setters(case, &text, &mut r, tally),
            _ => ran.clone(),
        };
        all_of([opened, ran, single], self.broken)
    }

    /// The text's UTF-8 opens to its characters.
    fn opens(&mut self, text: &str, cells: &[u32], r: &mut Random) -> Result<(), String> {
        self.text.open(text.as_bytes(), text.len() + 3);
        if self.broken {
            self.text.damage(r);
        }
        match cells.len() {
            0..=MAX_CHARS => self.text.is(cells.iter().copied(), cells.len()),
            _ => self.text.is_refused(1, 0),
        }
    }

    fn is_too_long(&mut self, case: &Case, text: &[u32], r: &mut Random) -> Result<(), String> {
        self.record.run(&self.scopes.port, case.start, case.flags, text);
        if self.broken {
            self.record.damage(r, text.len());
        }
        self.record.is_refused(1)
    }

    fn runs(&mut self, case: &Case, text: &[u32], rust: &Record, r: &mut Random) -> Result<(), String> {
        self.record.run(&self.scopes.port, case.start, case.flags, text);
        if self.broken {
            self.record.damage(r, rust.items.len());
        }
        same_record(rust, &self.record)
    }

    /// Single calls give the items of the port's run, one by one.
    fn singly(&mut self, case: &Case, text: &[u32], r: &mut Random, tally: &mut Tally) -> Result<(), String> {
        self.record.run(&self.scopes.port, case.start, case.flags, text);
        self.lexer.open(case.start, case.flags);
        let broken = if self.broken { r.below(self.record.items().len()) } else { usize::MAX };
        tally.add("token calls", self.record.items().len() as u64);
        for (i, row) in self.record.items().iter().enumerate() {
            self.lexer.next_token(&self.scopes.port, text);
            if i == broken {
                self.lexer.damage(r);
            }
            self.lexer.gave(row, self.record.values()[row[5] as usize..][..row[6] as usize].iter().copied())?;
        }
        Ok(())
    }

    /// Single calls with flags set in between give what the Rust gives, behind the run's end too.
    fn with_setters(&mut self, case: &Case, text: &[u32], r: &mut Random, tally: &mut Tally) -> Result<(), String> {
        let Some(mut reader) = Reader::new(&self.scopes.rust, case.start, case.flags, &case.text) else { return self.singly(case, text, r, tally) };
        self.lexer.open(case.start, case.flags);
        let mut behind = 0;
        while behind < 3 {
            let (Some(item), end) = reader.next_item() else { return Ok(()) };
            self.lexer.next_token(&self.scopes.port, text);
            tally.add("token calls with setters", 1);
            if self.broken {
                self.lexer.damage(r);
            }
            self.lexer.gave(&item.row(0).map(|number| number as u32), item.value.chars().map(u32::from))?;
            if end != End::Whole {
                return Ok(());
            }
            behind += item.ends_run() as usize;
            let flags = if r.chance(30) { 1 << r.below(5) } else { 0 };
            reader.set(flags);
            self.lexer.state[1] |= flags as usize;
        }
        Ok(())
    }

    /// A smaller case that differs as well: with less text, fewer flags and scope calls.
    fn shrunk(&mut self, mut case: Case, number: u64) -> Case {
        let mut differs = |case: &Case| self.compare_case(case, number, &mut Tally::default()).is_err();
        if !differs(&case) {
            return case;
        }
        loop {
            let found = smaller(&case).find(|smaller| differs(smaller));
            match found {
                Some(smaller) => case = smaller,
                None => return case,
            }
        }
    }
}

/// The case with a piece of its text, a flag or a scope call left out; large pieces first.
fn smaller(case: &Case) -> impl Iterator<Item = Case> {
    let text: Vec<char> = case.text.chars().collect();
    let sizes = std::iter::successors(Some(text.len()), |size| Some(size / 2)).take_while(|size| *size > 0);
    let spans = sizes.flat_map(move |size| (0..text.len()).step_by(size).map(move |at| (at, size)).collect::<Vec<_>>());
    let cut = |(at, size): (usize, usize)| case.text.chars().take(at).chain(case.text.chars().skip(at + size)).collect::<String>();
    let texts = spans.map(move |span| Case { text: cut(span), ..case.clone() });
    let flags = (0..5).filter(|bit| case.flags >> bit & 1 == 1).map(|bit| Case { flags: case.flags & !(1 << bit), ..case.clone() });
    let scopes = (0..case.scope.len()).map(|i| Case { scope: [&case.scope[..i], &case.scope[i + 1..]].concat(), ..case.clone() });
    texts.chain(flags).chain(scopes)
}
