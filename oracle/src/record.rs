//! The record of a run, as the Rust gives it.

use crate::case::{Case, Entry, ScopeCall, TILL_IN, UNARY_TESTS, cells};
use crate::rust::context::ParsingContext;
use crate::rust::lalr::TokenType;
use crate::rust::lexer::{Lexer, TokenValue, take_reach};
use crate::rust::scope::ParsingScope;
use crate::stand_in::{DsntkError, Name};
use std::cell::RefCell;
use std::panic::{self, AssertUnwindSafe};

/// An item of a record: a token's type or a refusal's number, the state after it, its reach and its value.
#[derive(Clone, Debug, Default, PartialEq)]
pub struct Item {
    pub refused: bool,
    pub number: u32,
    pub position: usize,
    pub flags: u32,
    pub reach: usize,
    pub value: String,
    /// Digits of a number: before and after the point, and of the exponent.
    pub lengths: [usize; 3],
    /// A Boolean, 1 for a minus sign, or a refusal's carry.
    pub extra: u32,
}

/// How a run ended. A panic has its message.
#[derive(Clone, Debug, PartialEq)]
pub enum End {
    /// Without a panic: the record is the Rust's.
    Whole,
    /// In a panic where 01 refuses with 7 or 8: the last item is 01's.
    Refused(String),
    /// In a panic of the pair mask, where 01's run goes on: the items before it are the Rust's.
    Open(String),
    /// In a panic that nothing explains.
    Unexplained(String),
}

#[derive(Clone, Debug, PartialEq)]
pub struct Record {
    pub items: Vec<Item>,
    pub end: End,
}

const WITH_TEXT: [TokenType; 4] = [TokenType::String, TokenType::Name, TokenType::NameDateTime, TokenType::BuiltInTypeName];
const LAST: [TokenType; 3] = [TokenType::YyEof, TokenType::YyUndef, TokenType::YyError];

impl Item {
    /// The item's eleven numbers; its value starts at `start` of the store.
    pub fn row(&self, start: usize) -> [usize; 11] {
        let [refused, number, flags, extra] = [self.refused as u32, self.number, self.flags, self.extra].map(|n| n as usize);
        let [before, after, exponent] = self.lengths;
        [refused, number, self.position, flags, self.reach, start, self.value.chars().count(), before, after, exponent, extra]
    }

    fn is_token(&self, types: &[TokenType]) -> bool {
        !self.refused && types.iter().any(|t| t.clone() as u32 == self.number)
    }

    pub fn ends_run(&self) -> bool {
        self.refused || self.is_token(&LAST)
    }

    /// The value as the record program prints it.
    fn printed_value(&self) -> String {
        if self.refused && [3, 5, 6].contains(&self.number) {
            format!("{:X}", self.extra)
        } else if self.is_token(&[TokenType::Numeric]) {
            let (before, rest) = self.value.split_at(self.lengths[0]);
            let (after, exponent) = rest.split_at(self.lengths[1]);
            format!("{before}/{after}/{}/{exponent}", if self.extra == 1 { '-' } else { '+' })
        } else if self.is_token(&[TokenType::Boolean]) {
            (self.extra == 1).to_string()
        } else if self.is_token(&WITH_TEXT) {
            let cells: Vec<String> = self.value.chars().map(|c| format!("{:X}", c as u32)).collect();
            format!("={}", cells.join(","))
        } else {
            "-".into()
        }
    }
}

impl Record {
    /// The number form: rows, and the store that their values stand in.
    pub fn packed(&self) -> (Vec<[usize; 11]>, String) {
        let (mut store, mut start) = (String::new(), 0);
        let mut rows = vec![];
        for item in &self.items {
            rows.push(item.row(start));
            start += item.value.chars().count();
            store += &item.value;
        }
        (rows, store)
    }

    /// The text form: how the run ended, the number of items, their rows, and the store.
    pub fn line(&self) -> String {
        let end = match self.end {
            End::Whole => 0,
            End::Refused(_) => 1,
            End::Open(_) => 2,
            End::Unexplained(_) => 3,
        };
        let (rows, store) = self.packed();
        let numbers: String = rows.iter().flatten().map(|number| format!(" {number}")).collect();
        format!("{end} {}{numbers} {}", rows.len(), cells(&store))
    }

    /// The lines of the record program.
    pub fn lines(&self) -> String {
        self.lines_with(|_| String::new())
    }

    /// The same with the flags before the reach, and the panic.
    pub fn printed(&self) -> String {
        self.lines_with(|item| format!("{} ", item.flags)) + &self.panic().map_or(String::new(), |panic| format!("the Rust panics, {panic}\n"))
    }

    fn lines_with(&self, before_reach: impl Fn(&Item) -> String) -> String {
        let line = |(n, item): (usize, &Item)| {
            let refused = if item.refused { "R" } else { "" };
            format!("{n} {refused}{} {} {}{} {}\n", item.number, item.position, before_reach(item), item.reach, item.printed_value())
        };
        self.items.iter().enumerate().map(line).collect()
    }

    /// The panic that ended the run: its entry in docs/DIFFERENCES.md and its message.
    pub fn panic(&self) -> Option<String> {
        match (&self.end, self.items.last()) {
            (End::Whole, _) => None,
            (End::Refused(message), Some(Item { number: 7, .. })) => Some(format!("R1: {message}")),
            (End::Refused(message), _) => Some(format!("R2: {message}")),
            (End::Open(message), _) => Some(format!("R3: {message}")),
            (End::Unexplained(message), _) => Some(format!("not explained: {message}")),
        }
    }
}

thread_local! { static MESSAGE: RefCell<String> = const { RefCell::new(String::new()) }; }

/// Panics are kept, not printed.
pub fn keep_panics() {
    panic::set_hook(Box::new(|info| {
        let message = info.payload_as_str().unwrap_or_default().to_string();
        MESSAGE.with(|kept| kept.replace(message));
    }));
}

/// Runs the Rust on a case, from the start token to the first YyEof, YyUndef, YyError, error or panic.
/// None if the start type is no `TokenType`.
pub fn run(case: &Case) -> Option<Record> {
    run_in(&scope_of(&case.scope), case.start, case.flags, &case.text)
}

/// The same in a scope that is built already.
pub fn run_in(scope: &ParsingScope, start: u32, flags: u32, text: &str) -> Option<Record> {
    let mut reader = Reader::new(scope, start, flags, text)?;
    let mut items: Vec<Item> = vec![];
    loop {
        let (item, end) = reader.next_item();
        items.extend(item);
        if end != End::Whole || items.last().is_some_and(Item::ends_run) {
            return Some(Record { items, end });
        }
    }
}

/// The Rust's lexer over a text, asked for one item after the other.
pub struct Reader<'a> {
    lexer: Lexer<'a>,
    text: &'a str,
}

impl<'a> Reader<'a> {
    /// None if the start type is no `TokenType`.
    pub fn new(scope: &'a ParsingScope, start: u32, flags: u32, text: &'a str) -> Option<Self> {
        let lexer = Lexer::new(scope, TokenType::from_number(start as i32)?, text);
        let mut reader = Self { lexer, text };
        reader.set(flags);
        Some(reader)
    }

    /// Sets flags; none is cleared.
    pub fn set(&mut self, flags: u32) {
        let setters = [Lexer::set_unary_tests, Lexer::set_between, Lexer::set_type_name, Lexer::set_till_in, Lexer::set_after_dot];
        for (_, set) in setters.iter().enumerate().filter(|(bit, _)| flags >> bit & 1 == 1) {
            set(&mut self.lexer);
        }
    }

    /// The next item, and how the Rust came to it. Behind a panic nothing more can be asked.
    pub fn next_item(&mut self) -> (Option<Item>, End) {
        let (position, flags) = (self.lexer.position(), flag_bits(&self.lexer));
        take_reach();
        let answer = panic::catch_unwind(AssertUnwindSafe(|| self.lexer.next_token()));
        let reach = take_reach();
        let item = match answer {
            Ok(Ok((token_type, value))) => token(token_type, value),
            Ok(Err(error)) => refusal(&error),
            Err(_) => {
                // Refusals clear `unary_tests` and keep the other flags.
                let refused = Item { refused: true, position: self.lexer.position(), flags: flags & !UNARY_TESTS, reach, ..Item::default() };
                return panicked(&mut self.lexer, self.text, position, refused);
            }
        };
        (Some(Item { position: self.lexer.position(), flags: flag_bits(&self.lexer), reach, ..item }), End::Whole)
    }
}

/// What 01 wants where the Rust panicked in the token from `position` on: 7, behind the first half's digits, 8, at the first part, or that the run goes on.
fn panicked(lexer: &mut Lexer, text: &str, position: usize, refused: Item) -> (Option<Item>, End) {
    let message = MESSAGE.with(RefCell::take);
    if message.starts_with("called `Option::unwrap()`") && lexer.position() + 2 > text.chars().count() {
        return (Some(Item { number: 7, ..refused }), End::Refused(message));
    }
    if message.starts_with("attempt to subtract") && refused.flags & TILL_IN != 0 {
        lexer.skip_from(position);
        return (Some(Item { number: 8, position: lexer.position(), ..refused }), End::Refused(message));
    }
    match message.split_once(" { bytes:") {
        Some((kind, _)) => (None, End::Open(kind.to_string())),
        None => (None, End::Unexplained(message)),
    }
}

fn flag_bits(lexer: &Lexer) -> u32 {
    lexer.flags().iter().rev().fold(0, |bits, flag| bits * 2 + *flag as u32)
}

fn token(token_type: TokenType, value: TokenValue) -> Item {
    let item = Item { number: token_type as u32, ..Item::default() };
    match value {
        TokenValue::Boolean(truth) => Item { extra: truth as u32, ..item },
        TokenValue::Numeric(before, after, sign, exponent) => {
            let lengths = [before.len(), after.len(), exponent.len()];
            Item { value: before + &after + &exponent, lengths, extra: (sign == '-') as u32, ..item }
        }
        TokenValue::String(value) => Item { value, ..item },
        TokenValue::Name(name) | TokenValue::NameDateTime(name) | TokenValue::BuiltInTypeName(name) => Item { value: name.into(), ..item },
        _ => item,
    }
}

/// The refusal's number and carry, from the Rust's message: 3 ends in a quoted character, 5 and 6 in a value.
fn refusal(DsntkError(message): &DsntkError) -> Item {
    let value = || message.rsplit(' ').next().and_then(|digits| u32::from_str_radix(digits, 16).ok());
    let (number, carry) = match message.split(' ').next() {
        Some("expected") => (3, message.chars().rev().nth(1).map(u32::from)),
        Some("unexpected") => (4, Some(0)),
        Some("value") => (5, value()),
        Some("surrogate") => (6, value()),
        _ => (0, None),
    };
    let extra = carry.unwrap_or_else(|| panic!("an error that is not known: {message}"));
    Item { refused: true, number, extra, ..Item::default() }
}

/// A fresh scope after some calls.
pub fn scope_of(calls: &[ScopeCall]) -> ParsingScope {
    let scope = ParsingScope::default();
    calls.iter().for_each(|call| change(&scope, call));
    scope
}

/// Makes one call on a scope.
pub fn change(scope: &ParsingScope, call: &ScopeCall) {
    match call {
        ScopeCall::Push(entries) => scope.push(context_of(entries)),
        ScopeCall::Pop => drop(scope.pop()),
        ScopeCall::SetEntryName(name) => scope.set_entry_name(Name::from(name)),
        ScopeCall::SetContext(name, entries) => scope.set_context(Name::from(name), context_of(entries)),
        ScopeCall::AddParsedName(name) => scope.add_parsed_name(Name::from(name)),
    }
}

/// The context of an entry list; the entries below one are those that follow it at a larger depth.
fn context_of(entries: &[Entry]) -> ParsingContext {
    let mut context = ParsingContext::default();
    let mut rest = entries;
    while let Some((entry, behind)) = rest.split_first() {
        let below = behind.iter().take_while(|e| e.depth > entry.depth).count();
        if entry.kind == 1 {
            context.set_context(Name::from(&entry.name), context_of(&behind[..below]));
        } else {
            context.set_name(Name::from(&entry.name));
        }
        rest = &behind[below..];
    }
    context
}
