//! The record of a run.

use crate::calls::{self, Answer, Room};
use crate::flags::Flags;
use crate::items::{FLAGS, Item, Items, NUMBER};
use crate::refusal::Refusal;
use crate::scope::Scope;
use crate::sys::Row;
use crate::text::Text;
use crate::token::Value;
use crate::token_type::TokenType;
use crate::workspace::{Workspace, front};
use std::fmt;

/// A text and all of its tokens: the start token, then every token to the first that ends a run.
///
/// Printed, it is what the record program prints: item, type (R and number if refused), position,
/// reach, value.
///
/// ```
/// use feel_lexer::{Flags, Record, Scope, Text, TokenType, Workspace};
///
/// let text = Text::open(b".5")?;
/// let (scope, mut work) = (Scope::new(), Workspace::new());
/// let record = Record::run(text, TokenType::StartExpression, Flags::default(), &scope, &mut work)?;
/// assert_eq!(record.to_string(), "0 258 0 0 -\n1 287 2 12 0/5/+/\n2 0 2 14 -\n");
/// # Ok::<(), feel_lexer::Refusal>(())
/// ```
#[derive(Clone)]
pub struct Record {
    pub(crate) text: Text,
    pub(crate) rows: Vec<Row>,
    pub(crate) store: Vec<u32>,
    pub(crate) items: usize,
    pub(crate) used: usize,
    /// Of the scope that the names were cut by.
    pub(crate) stamp: u64,
}

impl Record {
    /// Runs over a text. A text that is refused inside has the refusal as its last item.
    ///
    /// # Errors
    ///
    /// None that this crate's types let happen: the text is short enough, the scope whole, and the
    /// room is made here.
    ///
    /// ```
    /// use feel_lexer::{Flags, Record, Refusal, Scope, Text, TokenType, Workspace};
    ///
    /// let text = Text::open(br#"1 + "\uD83D""#)?;
    /// let (scope, mut work) = (Scope::new(), Workspace::new());
    /// let record = Record::run(text, TokenType::StartExpression, Flags::default(), &scope, &mut work)?;
    /// assert_eq!(record.item(3).unwrap().read, Err(Refusal::EndAtSecondHalf { place: 11 }));
    /// # Ok::<(), Refusal>(())
    /// ```
    pub fn run(
        text: Text,
        start_type: TokenType,
        flags: Flags,
        scope: &Scope,
        work: &mut Workspace,
    ) -> Result<Record, Refusal> {
        let n = text.len();
        let mut rows = vec![Row::default(); n + 2];
        let mut store = vec![0; n];
        let room = Room {
            rows: &mut rows,
            store: &mut store,
            scratch: front(&mut work.scratch, 2 * n),
        };
        let answer = calls::run(
            &text.cells,
            start_type as u32,
            flags.number(),
            &scope.lent,
            room,
        )?;
        Ok(Record {
            text,
            rows,
            store,
            items: answer.items,
            used: answer.length,
            stamp: scope.stamp(),
        })
    }

    /// Runs over the same text again, as a scope that has changed asks for.
    ///
    /// # Errors
    ///
    /// None, as for [`run`](Record::run).
    ///
    /// ```
    /// use feel_lexer::{Flags, Record, Scope, Text, TokenType, Workspace};
    ///
    /// let text = Text::open(b"a-b")?;
    /// let (mut scope, mut work) = (Scope::new(), Workspace::new());
    /// let mut record = Record::run(text, TokenType::StartExpression, Flags::default(), &scope, &mut work)?;
    /// assert_eq!(record.item(1).unwrap().text().unwrap(), "a-b");
    /// scope.set_entry_name("a")?;
    /// record.rerun(&scope, &mut work)?;
    /// assert_eq!(record.item(1).unwrap().text().unwrap(), "a");
    /// # Ok::<(), feel_lexer::Refusal>(())
    /// ```
    pub fn rerun(&mut self, scope: &Scope, work: &mut Workspace) -> Result<(), Refusal> {
        let (start_type, flags) = self.opening();
        let room = Room {
            rows: &mut self.rows,
            store: &mut self.store,
            scratch: front(&mut work.scratch, 2 * self.text.len()),
        };
        let answer = calls::run(&self.text.cells, start_type, flags, &scope.lent, room)?;
        self.holds(&answer, scope);
        Ok(())
    }

    /// Start type and flags of the run, which are those of its first item.
    pub(crate) fn opening(&self) -> (u32, u32) {
        (self.rows[0][NUMBER], self.rows[0][FLAGS])
    }

    pub(crate) fn holds(&mut self, answer: &Answer, scope: &Scope) {
        self.items = answer.items;
        self.used = answer.length;
        self.stamp = scope.stamp();
    }

    /// The text.
    ///
    /// ```
    /// # use feel_lexer::{Flags, Record, Scope, Text, TokenType, Workspace};
    /// # let (text, scope, mut work) = (Text::open(b"1")?, Scope::new(), Workspace::new());
    /// # let record = Record::run(text, TokenType::StartExpression, Flags::default(), &scope, &mut work)?;
    /// assert_eq!(record.text().to_string(), "1");
    /// # Ok::<(), feel_lexer::Refusal>(())
    /// ```
    pub fn text(&self) -> &Text {
        &self.text
    }

    /// How many items there are; at least one, as every run has a first.
    ///
    /// ```
    /// # use feel_lexer::{Flags, Record, Scope, Text, TokenType, Workspace};
    /// # let (text, scope, mut work) = (Text::default(), Scope::new(), Workspace::new());
    /// # let record = Record::run(text, TokenType::StartExpression, Flags::default(), &scope, &mut work)?;
    /// assert_eq!(record.len(), 2);
    /// # Ok::<(), feel_lexer::Refusal>(())
    /// ```
    #[allow(clippy::len_without_is_empty)]
    pub fn len(&self) -> usize {
        self.items
    }

    /// An item, if there are as many.
    ///
    /// ```
    /// # use feel_lexer::{Flags, Record, Scope, Text, TokenType, Workspace};
    /// # let (text, scope, mut work) = (Text::default(), Scope::new(), Workspace::new());
    /// # let record = Record::run(text, TokenType::StartExpression, Flags::default(), &scope, &mut work)?;
    /// assert_eq!(record.item(1).unwrap().token_type(), Some(TokenType::YyEof));
    /// assert!(record.item(2).is_none());
    /// # Ok::<(), feel_lexer::Refusal>(())
    /// ```
    pub fn item(&self, index: usize) -> Option<Item<'_>> {
        self.items().at(index)
    }

    /// All items.
    ///
    /// ```
    /// # use feel_lexer::{Flags, Record, Scope, Text, TokenType, Workspace};
    /// # let (text, scope, mut work) = (Text::open(b"1 + 2")?, Scope::new(), Workspace::new());
    /// # let record = Record::run(text, TokenType::StartExpression, Flags::default(), &scope, &mut work)?;
    /// let positions: Vec<usize> = record.items().map(|item| item.position).collect();
    /// assert_eq!(positions, [0, 1, 3, 5, 5]);
    /// # Ok::<(), feel_lexer::Refusal>(())
    /// ```
    pub fn items(&self) -> Items<'_> {
        Items::new(self.rows(), self.store())
    }

    pub(crate) fn rows(&self) -> &[Row] {
        &self.rows[..self.items]
    }

    pub(crate) fn store(&self) -> &[u32] {
        &self.store[..self.used]
    }
}

/// Records are equal where text, items and values are.
impl PartialEq for Record {
    fn eq(&self, other: &Record) -> bool {
        self.text == other.text && self.rows() == other.rows() && self.store() == other.store()
    }
}

impl Eq for Record {}

impl fmt::Debug for Record {
    fn fmt(&self, f: &mut fmt::Formatter<'_>) -> fmt::Result {
        f.debug_struct("Record")
            .field("text", &self.text.characters())
            .field("items", &self.items().collect::<Vec<Item<'_>>>())
            .finish()
    }
}

impl fmt::Display for Record {
    fn fmt(&self, f: &mut fmt::Formatter<'_>) -> fmt::Result {
        for (index, item) in self.items().enumerate() {
            let (mark, number) = match item.read {
                Ok(token) => ("", token.token_type as u32),
                Err(refusal) => ("R", refusal.number()),
            };
            let (position, reach) = (item.position, item.reach);
            write!(f, "{index} {mark}{number} {position} {reach} ")?;
            print_value(f, &item)?;
            writeln!(f)?;
        }
        Ok(())
    }
}

fn print_value(f: &mut fmt::Formatter<'_>, item: &Item<'_>) -> fmt::Result {
    if let Err(refusal) = item.read {
        return match refusal.carry() {
            Some(carry) => write!(f, "{carry:X}"),
            None => f.write_str("-"),
        };
    }
    match item.value() {
        Value::Nothing => f.write_str("-"),
        Value::Boolean(truth) => write!(f, "{truth}"),
        Value::Number {
            before,
            after,
            negative_exponent,
            exponent,
        } => {
            let sign = if negative_exponent { '-' } else { '+' };
            write!(f, "{before}/{after}/{sign}/{exponent}")
        }
        Value::Text(characters) => {
            f.write_str("=")?;
            characters.chars().enumerate().try_for_each(|(i, c)| {
                let comma = if i == 0 { "" } else { "," };
                write!(f, "{comma}{:X}", u32::from(c))
            })
        }
    }
}
