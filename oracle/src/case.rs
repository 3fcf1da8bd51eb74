//! A case: what is handed to the lexer, and its text form.
//!
//! One line, fields parted by single spaces: name, start type, flags, text, number of scope calls, the calls.
//! A call is its number, its name, the number of its entries and, for each, depth, kind and name.
//! Numbers are decimal. A text or name is its code points in hexadecimal, joined by commas, or `-` if it has none;
//! `61*10` is sixteen times 61.

use std::fmt::Write;

#[derive(Clone, Debug, Default, PartialEq)]
pub struct Case {
    pub name: String,
    pub start: u32,
    /// 1 unary_tests, 2 between, 4 type_name, 8 till_in, 16 after_dot.
    pub flags: u32,
    pub text: String,
    /// What is done to a fresh scope.
    pub scope: Vec<ScopeCall>,
}

/// The calls that change a scope, in the order of their numbers.
#[derive(Clone, Debug, PartialEq)]
pub enum ScopeCall {
    Push(Vec<Entry>),
    Pop,
    SetEntryName(String),
    SetContext(String, Vec<Entry>),
    AddParsedName(String),
}

/// An entry of a list that is pushed: kind 0 is a variable, 1 a context, whose own entries follow one deeper.
#[derive(Clone, Debug, PartialEq)]
pub struct Entry {
    pub depth: u32,
    pub kind: u32,
    pub name: String,
}

pub const UNARY_TESTS: u32 = 1;
pub const BETWEEN: u32 = 2;
pub const TYPE_NAME: u32 = 4;
pub const TILL_IN: u32 = 8;
pub const AFTER_DOT: u32 = 16;

impl Case {
    /// A text alone: start type 258, no flags, a fresh scope.
    pub fn new(name: impl Into<String>, text: impl Into<String>) -> Self {
        Self { name: name.into(), start: 258, text: text.into(), ..Self::default() }
    }

    pub fn with_start(self, start: u32) -> Self {
        Self { start, ..self }
    }

    pub fn with_flags(self, flags: u32) -> Self {
        Self { flags, ..self }
    }

    pub fn with_scope(self, scope: Vec<ScopeCall>) -> Self {
        Self { scope, ..self }
    }

    /// Names in the scope's one context.
    pub fn with_names(self, names: &[&str]) -> Self {
        self.with_scope(names.iter().map(|name| ScopeCall::SetEntryName(name.to_string())).collect())
    }

    pub fn length(&self) -> usize {
        self.text.chars().count()
    }

    /// The case in its text form.
    pub fn line(&self) -> String {
        let mut line = format!("{} {} {} {} {}", self.name, self.start, self.flags, cells(&self.text), self.scope.len());
        for call in &self.scope {
            let (name, entries) = match call {
                ScopeCall::Push(entries) => ("", entries.as_slice()),
                ScopeCall::Pop => ("", &[][..]),
                ScopeCall::SetEntryName(name) | ScopeCall::AddParsedName(name) => (name.as_str(), &[][..]),
                ScopeCall::SetContext(name, entries) => (name.as_str(), entries.as_slice()),
            };
            write!(line, " {} {} {}", call.number(), cells(name), entries.len()).unwrap();
            for e in entries {
                write!(line, " {} {} {}", e.depth, e.kind, cells(&e.name)).unwrap();
            }
        }
        line
    }

    /// Reads a case from its text form; what follows is left in the fields.
    pub fn read(fields: &mut std::str::Split<char>) -> Option<Self> {
        let name = fields.next()?.to_string();
        let start = number(fields)?;
        let flags = number(fields)?;
        let text = characters(fields.next()?)?;
        let scope = (0..number(fields)?).map(|_| ScopeCall::read(fields)).collect::<Option<_>>()?;
        Some(Self { name, start, flags, text, scope })
    }
}

impl ScopeCall {
    fn number(&self) -> u32 {
        match self {
            Self::Push(_) => 0,
            Self::Pop => 1,
            Self::SetEntryName(_) => 2,
            Self::SetContext(..) => 3,
            Self::AddParsedName(_) => 4,
        }
    }

    fn read(fields: &mut std::str::Split<char>) -> Option<Self> {
        let call = number(fields)?;
        let name = characters(fields.next()?)?;
        let entries = (0..number(fields)?)
            .map(|_| Some(Entry { depth: number(fields)?, kind: number(fields)?, name: characters(fields.next()?)? }))
            .collect::<Option<_>>()?;
        match call {
            0 => Some(Self::Push(entries)),
            1 => Some(Self::Pop),
            2 => Some(Self::SetEntryName(name)),
            3 => Some(Self::SetContext(name, entries)),
            4 => Some(Self::AddParsedName(name)),
            _ => None,
        }
    }
}

fn number(fields: &mut std::str::Split<char>) -> Option<u32> {
    fields.next()?.parse().ok()
}

/// A text as a field.
pub fn cells(text: &str) -> String {
    let cells: Vec<u32> = text.chars().map(u32::from).collect();
    if cells.is_empty() {
        return "-".into();
    }
    let runs: Vec<String> = cells
        .chunk_by(|a, b| a == b)
        .flat_map(|run| if run.len() > 3 { vec![format!("{:X}*{:X}", run[0], run.len())] } else { run.iter().map(|c| format!("{c:X}")).collect() })
        .collect();
    runs.join(",")
}

/// A field as a text.
fn characters(field: &str) -> Option<String> {
    if field == "-" {
        return Some(String::new());
    }
    let hexadecimal = |digits| u32::from_str_radix(digits, 16).ok();
    field
        .split(',')
        .map(|piece| {
            let (cell, times) = piece.split_once('*').unwrap_or((piece, "1"));
            Some(char::from_u32(hexadecimal(cell)?)?.to_string().repeat(hexadecimal(times)? as usize))
        })
        .collect()
}
