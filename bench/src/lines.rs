//! The lines that are measured: what each side does in one go.

use crate::port::{Edit, Lexer, Record, Scope, Text, cells};
use oracle::case::ScopeCall;
use oracle::record::{run_in, scope_of};
use oracle::rules::named;
use oracle::rust::lalr::TokenType;
use oracle::rust::lexer;
use oracle::rust::scope::ParsingScope;
use std::hint::black_box;
use std::rc::Rc;

/// Rules as a kiosk has them, over the first five names.
#[rustfmt::skip]
const RULES: [&str; 12] = [
    "row width - 2 * gutter >= 320",
    "if age < 16 then ticket price * 0.5 else ticket price",
    "age between 16 and 64 and ticket price > 0",
    "for item in [1, 2, 3] return item * gutter",
    "[row width, gutter, 24][item > 20]",
    "string length(\"Gate \\u00E9 12\") <= 40 and contains(\"day ticket\", \"day\")",
    "date(\"2026-11-16\") + duration(\"P1D\") > travel date",
    "{ width: row width, inner: row width - 2 * gutter, label: \"two\\nlines\" }",
    "< 5, [10..20), > 100, not(null)",
    "round up(ticket price * 1.07, 2) + floor(gutter / 3) /* with tax */",
    "travel date.year = 2026 or travel date.weekday in [6, 7]",
    "function(a: number, b: number) a + b * row width",
];

const NAMES: [&str; 5] = ["row width", "gutter", "ticket price", "age", "travel date"];

/// So many names in one context: the five, then others of one to three words.
fn names(count: usize) -> Vec<ScopeCall> {
    let first = ["seat", "fare", "zone", "gate", "platform", "train", "ticket", "order", "customer", "discount"];
    let second = ["", " price", " count", " class", " width", " date", " name", " type", " limit", " rate"];
    let third = ["", " old", " new", " total", " net"];
    let other = |i: usize| format!("{}{}{}", first[i % 10], second[i / 10 % 10], third[i / 100]);
    let others = (0..500).map(other).filter(|name| !NAMES.contains(&name.as_str()));
    NAMES.map(String::from).into_iter().chain(others).take(count).map(|name| named(&name)).collect()
}

/// The rules one behind the other, so many characters of them.
fn long(length: usize) -> String {
    repeated(&(RULES.join(",\n") + ",\n"), length)
}

pub fn repeated(piece: &str, length: usize) -> String {
    piece.chars().cycle().take(length).collect()
}

/// A line: its name, what the port's side is held against, and the two sides, prepared when they are wanted.
/// The other side is left out where it would not come to an end.
pub struct Line {
    pub name: String,
    pub against: &'static str,
    pub sides: Box<dyn Fn() -> (Side, Option<Side>)>,
}

pub type Side = Box<dyn FnMut()>;

fn line(name: impl Into<String>, sides: impl Fn() -> (Side, Option<Side>) + 'static) -> Line {
    Line { name: name.into(), against: "the Rust", sides: Box::new(sides) }
}

/// All lines.
pub fn lines() -> Vec<Line> {
    let rules = || RULES.map(String::from);
    let a = || vec![named("a")];
    let mut lines = vec![];
    for count in [5, 50, 500] {
        lines.push(line(format!("rules, {count} names"), move || runs(&names(count), &rules())));
    }
    lines.push(line("rules, 50 names, from bytes", move || runs_from_bytes(&names(50), &rules())));
    for count in [5, 50, 500] {
        lines.push(line(format!("rules, {count} names, token by token"), move || tokens(&names(count), &rules())));
    }
    for length in [1_000, 4_000, 16_000] {
        lines.push(line(format!("text of {length}, 50 names"), move || runs(&names(50), &[long(length)])));
    }
    lines.push(line("text of 16000, 50 names, from bytes", || runs_from_bytes(&names(50), &[long(16_000)])));
    lines.push(line("text of 4000, 500 names", || runs(&names(500), &[long(4_000)])));
    for length in [1_000, 4_000, 16_000] {
        lines.push(line(format!("text of {length}, 50 names, token by token"), move || tokens(&names(50), &[long(length)])));
    }
    for (what, piece) in [
        ("strings with escapes", "\"Gate \\u00E9 \\\"12\\\"\\n\\uD83D\\uDC00 of the day\", "),
        ("plain strings", "\"two returns to the city and back\", "),
        ("numbers", "12, 3.75, .5, 1200.25e-3, 7..9, "),
        ("symbols", "(<=)[>=]{!=}**,->"),
        ("comments and blanks", "/* as of May */  \n// see the table\n   1, "),
    ] {
        lines.push(line(format!("{what}, 4000"), move || runs(&[], &[repeated(piece, 4_000)])));
    }
    for (what, piece) in [("`a a a ..`", "a "), ("`a+a+a..`", "a+")] {
        for length in [100, 200, 400] {
            lines.push(line(format!("{what}, {length}, a in scope"), move || runs(&a(), &[repeated(piece, length)])));
        }
        for length in [4_096, 16_384] {
            lines.push(line(format!("{what}, {length}, a in scope"), move || port_alone(&a(), &repeated(piece, length))));
        }
    }
    for length in [1_024, 4_096, 16_384] {
        lines.push(line(format!("one name of {length}, nothing in scope"), move || runs(&[], &[repeated("a ", length)])));
    }
    for (place, at) in [("start", 0), ("middle", 8_003), ("end", 16_000)] {
        let name = format!("one letter at the {place} of 16000, repaired");
        lines.push(line(name.clone(), move || repair_and_rust(at)));
        lines.push(Line { against: "a run of the port", ..line(name, move || repair_and_run(at)) });
    }
    lines
}

/// A scope on both sides, prepared once.
struct Scopes {
    rust: ParsingScope,
    port: Scope,
}

fn scopes(calls: &[ScopeCall]) -> Rc<Scopes> {
    let mut port = Scope::opened();
    calls.iter().for_each(|call| assert_eq!(port.call(call).0, 0, "{call:?}"));
    Rc::new(Scopes { rust: scope_of(calls), port })
}

/// A text for the port, with its lent slices.
struct Job {
    scopes: Rc<Scopes>,
    cells: Vec<u32>,
    record: Record,
}

impl Job {
    fn new(scopes: &Rc<Scopes>, text: &str) -> Self {
        let (cells, mut record) = (cells(text), Record::default());
        record.run(&scopes.port, 258, 0, &cells);
        Self { scopes: scopes.clone(), cells, record }
    }

    fn run(&mut self) {
        self.record.run_unpainted(&self.scopes.port, 258, 0, black_box(&self.cells));
        assert_eq!(self.record.refusal, 0);
    }
}

/// A lexer of the Rust over each text, asked for tokens to the end. Both sides must read the same.
fn rust_runs(scopes: &Rc<Scopes>, texts: &[String]) -> Side {
    let (scopes, texts) = (scopes.clone(), texts.to_vec());
    for text in &texts {
        let rust = run_in(&scopes.rust, 258, 0, text).unwrap();
        let port = Job::new(&scopes, text).record;
        assert!(rust.items.iter().map(|item| (item.number, item.position as u32)).eq(port.items().iter().map(|row| (row[1], row[2]))), "{text}");
    }
    Box::new(move || texts.iter().for_each(|text| read_to_end(&scopes.rust, black_box(text))))
}

fn read_to_end(scope: &ParsingScope, text: &str) {
    let mut lexer = lexer::Lexer::new(scope, TokenType::StartExpression, text);
    while !matches!(black_box(lexer.next_token()), Ok((TokenType::YyEof | TokenType::YyUndef | TokenType::YyError, _)) | Err(_)) {}
}

/// Runs over some texts, one behind the other.
fn runs(calls: &[ScopeCall], texts: &[String]) -> (Side, Option<Side>) {
    let scopes = scopes(calls);
    let mut jobs: Vec<Job> = texts.iter().map(|text| Job::new(&scopes, text)).collect();
    (Box::new(move || jobs.iter_mut().for_each(Job::run)), Some(rust_runs(&scopes, texts)))
}

/// A run that the Rust would not come to the end of.
pub fn port_alone(calls: &[ScopeCall], text: &str) -> (Side, Option<Side>) {
    let mut job = Job::new(&scopes(calls), text);
    (Box::new(move || job.run()), None)
}

/// Runs in which the port opens the bytes first, as the Rust does.
fn runs_from_bytes(calls: &[ScopeCall], texts: &[String]) -> (Side, Option<Side>) {
    let scopes = scopes(calls);
    let job = |text: &String| (text.clone().into_bytes(), Text { cells: vec![0; text.len()], ..Text::default() }, Job::new(&scopes, text));
    let mut jobs: Vec<(Vec<u8>, Text, Job)> = texts.iter().map(job).collect();
    let open_and_run = |(bytes, text, job): &mut (Vec<u8>, Text, Job)| {
        text.open_unpainted(black_box(bytes));
        job.record.run_unpainted(&job.scopes.port, 258, 0, &text.cells[..job.cells.len()]);
        assert_eq!((text.refusal, job.record.refusal), (0, 0));
    };
    (Box::new(move || jobs.iter_mut().for_each(open_and_run)), Some(rust_runs(&scopes, texts)))
}

/// The port token by token.
fn tokens(calls: &[ScopeCall], texts: &[String]) -> (Side, Option<Side>) {
    let scopes = scopes(calls);
    let mut jobs: Vec<(Vec<u32>, Lexer)> = texts.iter().map(|text| (cells(text), Lexer::default())).collect();
    jobs.iter_mut().for_each(|(text, lexer)| lexer.paint(text.len()));
    let rust = rust_runs(&scopes, texts);
    let read = move |(text, lexer): &mut (Vec<u32>, Lexer)| {
        lexer.open(258, 0);
        loop {
            lexer.next_unpainted(&scopes.port, black_box(text));
            if lexer.refusal != 0 || [0, 256, 257].contains(&lexer.answer[1]) {
                return;
            }
        }
    };
    (Box::new(move || jobs.iter_mut().for_each(&read)), Some(rust))
}

/// A text of 16,000 characters in which one letter was typed: the new text, and the repair of the old one's record.
fn repair(at: usize) -> (Rc<Scopes>, String, Side) {
    let (scopes, old) = (scopes(&names(50)), long(16_000));
    let new: String = old.chars().take(at).chain(['x']).chain(old.chars().skip(at)).collect();
    let (old, mut job) = (Job::new(&scopes, &old), Job::new(&scopes, &new));
    let kept = old.record.items().iter().take_while(|row| row[4] as usize <= at).count();
    let part = job.cells[old.record.items()[kept - 1][2] as usize..].to_vec();
    let edit = Edit { length: old.cells.len(), from: at, to: at, size: 1 };
    let mut side = move || {
        job.record.repair_unpainted(&job.scopes.port, &old.record, edit, black_box(&part));
        assert_eq!(job.record.refusal, 0);
    };
    side();
    (scopes, new, Box::new(side))
}

fn repair_and_rust(at: usize) -> (Side, Option<Side>) {
    let (scopes, new, side) = repair(at);
    (side, Some(rust_runs(&scopes, &[new])))
}

fn repair_and_run(at: usize) -> (Side, Option<Side>) {
    let (scopes, new, side) = repair(at);
    let mut job = Job::new(&scopes, &new);
    (side, Some(Box::new(move || job.run())))
}
