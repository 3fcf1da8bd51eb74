//! Random cases. Each is named by its seed, so that it can be run again: `random-17`, `edit-17`.

use crate::case::{Case, Entry, ScopeCall};
use crate::record::run;
use crate::rules::{KEYWORDS, PROPERTIES, SYMBOLS, TEMPORALS, TYPES, WHITESPACE, edges, spellings};

/// The longest random text.
const LONGEST: usize = 260;

/// SplitMix64, which needs no library and gives the same numbers everywhere.
pub struct Random(pub u64);

impl Random {
    pub fn next(&mut self) -> u64 {
        self.0 = self.0.wrapping_add(0x9E37_79B9_7F4A_7C15);
        let mut z = self.0;
        z = (z ^ (z >> 30)).wrapping_mul(0xBF58_476D_1CE4_E5B9);
        z = (z ^ (z >> 27)).wrapping_mul(0x94D0_49BB_1331_11EB);
        z ^ (z >> 31)
    }

    pub fn below(&mut self, bound: usize) -> usize {
        (self.next() % bound as u64) as usize
    }

    pub fn between(&mut self, low: usize, high: usize) -> usize {
        low + self.below(high - low + 1)
    }

    /// True so many times in a hundred.
    pub fn chance(&mut self, percent: usize) -> bool {
        self.below(100) < percent
    }

    pub fn pick<T: Copy>(&mut self, from: &[T]) -> T {
        from[self.below(from.len())]
    }

    pub fn character(&mut self, from: &str) -> char {
        let characters: Vec<char> = from.chars().collect();
        self.pick(&characters)
    }
}

/// The random case of a seed.
pub fn random(seed: u64) -> Case {
    let mut r = Random(seed);
    let text = text(&mut r);
    Case { name: format!("random-{seed}"), start: start(&mut r), flags: flags(&mut r), scope: scope(&mut r, &text), text }
}

/// One edit of a text: the characters from `from` up to `to` give way to `put`.
pub struct Edit {
    pub old: Case,
    pub from: usize,
    pub to: usize,
    pub put: String,
    pub new: Case,
}

/// The random edit of a seed, at a place that the run over the old text comes to, or just behind.
pub fn edit(seed: u64) -> Edit {
    let mut r = Random(!seed);
    let mut text = text(&mut r);
    while text.chars().count() < 80 && r.chance(90) {
        text += &fragment(&mut r);
    }
    let old = Case { name: format!("edit-{seed}"), start: start(&mut r), flags: flags(&mut r), scope: scope(&mut r, &text), text };
    let cells: Vec<char> = old.text.chars().collect();
    let read = run(&old).and_then(|record| Some(record.items.last()?.position)).unwrap_or(0);
    let from = r.between(0, cells.len().min(read + 3));
    let longest = if r.chance(80) { 3 } else { 40 };
    let to = from + r.between(0, longest.min(cells.len() - from));
    let put: String = match r.below(5) {
        0 if from < to => String::new(),
        1 if from + 1 < to => cells[from..to].iter().rev().collect(),
        2 => r.character("a1 \"\\/*+.:(\n").to_string(),
        _ => fragment(&mut r).chars().take(40).collect(),
    };
    let text = cells[..from].iter().copied().chain(put.chars()).chain(cells[to..].iter().copied()).collect();
    Edit { new: Case { text, ..old.clone() }, old, from, to, put }
}

pub fn start(r: &mut Random) -> u32 {
    match r.below(20) {
        0 => r.pick(&[0, 256, 257, 267, 310, 318]),
        1..4 => 258 + r.below(9) as u32,
        _ => 258,
    }
}

pub fn flags(r: &mut Random) -> u32 {
    if r.chance(40) { 0 } else { (0..5).map(|bit| (r.chance(40) as u32) << bit).sum() }
}

/// Some fragments, one behind the other.
pub fn text(r: &mut Random) -> String {
    let mut text = String::new();
    for _ in 0..r.between(1, 7) {
        text += &fragment(r);
        text += &blanks(r);
    }
    text.chars().take(LONGEST).collect()
}

pub fn fragment(r: &mut Random) -> String {
    match r.below(20) {
        0..8 => name(r),
        8..10 => number(r),
        10..13 => string(r),
        13..15 => comment(r),
        15..17 => keyword(r),
        17 => r.character(".,:+-*/=<>()[]{}@").to_string(),
        18 => r.pick(&["..", "**", "!=", "<=", ">=", "->", "//", "/*", ". 5", ".5"]).to_string(),
        _ => character(r).to_string(),
    }
}

/// Mostly a space; now and then a run that is longer than the window.
pub fn blanks(r: &mut Random) -> String {
    let count = match r.below(12) {
        0..4 => 0,
        4..10 => 1,
        10 => r.between(2, 3),
        _ => r.between(8, 20),
    };
    (0..count).map(|_| if r.chance(75) { ' ' } else { r.pick(&WHITESPACE) }).collect()
}

/// Any character: of ASCII, at the edges of classes, or of all.
pub fn character(r: &mut Random) -> char {
    match r.below(4) {
        0 => r.between(0x20, 0x7E) as u8 as char,
        1 => r.pick(&edges()),
        2 => r.character("\0\u{B7}\u{300}\u{203F}\u{FFFD}\u{FFFE}\u{E000}\u{10FFFF}\u{EFFFF}é漢🙏"),
        _ => char::from_u32(r.below(0x11_0000) as u32).unwrap_or('\u{D7FF}'),
    }
}

/// Words and symbols, of which some make names that the grammar knows.
pub fn name(r: &mut Random) -> String {
    let mut name = word(r);
    for _ in 0..r.between(0, 6) {
        match r.below(10) {
            0..3 => name.push(r.character(SYMBOLS)),
            3 => name += &r.character(SYMBOLS).to_string().repeat(2),
            4 => name.push(r.pick(&['\u{1680}', '\u{180E}', '\u{FEFF}'])),
            _ => name += &(blanks(r) + &word(r)),
        }
    }
    if r.chance(15) {
        name += &(blanks(r) + r.pick(&[":", "(", ": ", "in "]));
    }
    name
}

fn word(r: &mut Random) -> String {
    match r.below(16) {
        0..5 => r.pick(&["a", "b", "x", "y", "row", "width", "fare"]).to_string(),
        5 => r.pick(&["in", "item", "of", "in", "items", "int"]).to_string(),
        6 => r.pick(&PROPERTIES).to_string(),
        7 => r.pick(&TYPES).to_string(),
        8 => r.pick(&TEMPORALS).to_string() + r.pick(&["(", " (", ""]),
        9 => r.pick(&KEYWORDS).to_string(),
        10 => (0..r.between(10, 30)).map(|_| r.character("abcxyz_?09")).collect(),
        11 => (0..r.between(1, 4)).map(|_| r.character("aé漢\u{1680}\u{180E}\u{FEFF}\u{B7}\u{36F}0")).collect(),
        _ => (0..r.between(1, 5)).map(|_| r.character("abcx1")).collect(),
    }
}

fn keyword(r: &mut Random) -> String {
    let behind = if r.chance(50) { blanks(r) } else { String::new() };
    r.pick(&KEYWORDS).to_string() + &behind + r.pick(&["", " ", "(", "<", "=", "+", "x", ":", ")"])
}

pub fn digits(r: &mut Random, least: usize) -> String {
    let most = if r.chance(25) { 25 } else { 3 };
    (0..r.between(least, most)).map(|_| r.character("0123456789")).collect()
}

fn number(r: &mut Random) -> String {
    let mut number = digits(r, 0);
    if r.chance(60) {
        number += ".";
        number += &digits(r, 0);
    }
    if r.chance(50) {
        number.push(r.character("eE"));
        number += r.pick(&["", "+", "-", "+-"]);
        number += &digits(r, 0);
    }
    number
}

/// Mostly well-formed; escapes of every kind, broken ones among them.
fn string(r: &mut Random) -> String {
    let mut string = String::from("\"");
    for _ in 0..r.between(0, 8) {
        match r.below(12) {
            0..5 => string += &(0..r.between(1, 12)).map(|_| r.character("ab c.é漢🙏")).collect::<String>(),
            5 => string += &format!("\\{}", r.character("'\"\\nrt")),
            6 => string += &format!("\\{}", r.character("axU/ u0")),
            7 => string += &format!("\\u{:04X}", r.below(0x1_0000)),
            8 => string += &format!("\\U{:06x}", r.below(0x12_0000)),
            9 => string += &format!("\\uD83D\\uDC{:02X}", r.below(0x100)),
            10 => string += &format!("\\u{:04X}{}{:04X}", 0xD800 + r.below(0x400), r.pick(&["\\u", "\\U", "xx", "\"\n", "xU00"]), 0xD800 + r.below(0x900)),
            _ => string.push(character(r)),
        }
    }
    if r.chance(80) {
        string.push('"');
    }
    string
}

fn comment(r: &mut Random) -> String {
    let inside: String = (0..r.between(0, 20)).map(|_| r.character("ab */.\"")).collect();
    match r.below(3) {
        0 => format!("//{inside}{}", r.pick(&["\n", "\n", "\r", ""])),
        1 => format!("/*{inside}*/"),
        _ => format!("/*{inside}{}", r.pick(&["*/", "*", ""])),
    }
}

/// A scope in which names of the text are often found, short and long.
pub fn scope(r: &mut Random, text: &str) -> Vec<ScopeCall> {
    if r.chance(25) || text.is_empty() {
        return vec![];
    }
    let names = Names::of(text);
    (0..r.between(1, 6))
        .map(|_| match r.below(12) {
            0..6 => ScopeCall::SetEntryName(names.pick(r)),
            6..8 => ScopeCall::Push(entries(r, &names)),
            8 => ScopeCall::SetContext(names.pick(r), entries(r, &names).into_iter().filter(|e| e.depth < 7).collect()),
            9 => ScopeCall::Pop,
            _ => ScopeCall::AddParsedName(names.pick(r)),
        })
        .collect()
}

/// Nearly: letters as the compiler's library knows them change with Unicode, and cases must not.
fn is_letter(c: char) -> bool {
    c.is_ascii_alphanumeric() || (!c.is_ascii() && !WHITESPACE.contains(&c))
}

/// A text, and where its names begin in an empty scope.
struct Names {
    text: Vec<char>,
    starts: Vec<usize>,
}

impl Names {
    fn of(text: &str) -> Self {
        let items = run(&Case::new("", text)).map_or(vec![], |record| record.items);
        let text: Vec<char> = text.chars().collect();
        let first_letter = |from: usize| (from..text.len()).find(|i| is_letter(text[*i]));
        let mut starts: Vec<usize> = items.iter().filter_map(|item| first_letter(item.position)).collect();
        starts.dedup();
        Self { text, starts }
    }

    /// A piece of the text in one of its spellings, trimmed as the Rust would trim it. Mostly it is the front of a name and ends with a word or symbol.
    fn pick(&self, r: &mut Random) -> String {
        let text = &self.text;
        let inside = |i: usize| i < text.len() && is_letter(text[i - 1]) && is_letter(text[i]);
        let start = if self.starts.is_empty() || r.chance(10) { r.below(text.len()) } else { r.pick(&self.starts) };
        let ends: Vec<usize> = (start + 1..=text.len()).filter(|i| !inside(*i)).take(6).collect();
        let end = if r.chance(10) { r.between(start + 1, text.len()) } else { r.pick(&ends) };
        let name = r.pick(&spellings(&text[start..end].iter().collect::<String>()).each_ref()).clone();
        name.chars().take(128).collect::<String>().trim().to_string()
    }
}

/// A well-formed entry list: each deeper entry stands below a context.
fn entries(r: &mut Random, names: &Names) -> Vec<Entry> {
    let mut depth = 0;
    let mut entries: Vec<Entry> = vec![];
    for _ in 0..r.between(0, 6) {
        let deepest = entries.last().map_or(0, |e| (e.depth + e.kind).min(7)) as usize;
        depth = if r.chance(50) { deepest } else { r.between(0, deepest.min(depth)) };
        // A name that is there already may replace an entry with all below it.
        let name = if r.chance(30) && !entries.is_empty() { entries[r.below(entries.len())].name.clone() } else { names.pick(r) };
        entries.push(Entry { depth: depth as u32, kind: r.chance(50) as u32, name });
    }
    entries
}
