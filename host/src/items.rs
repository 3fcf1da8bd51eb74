//! The items of a record.

use crate::characters::Characters;
use crate::flags::Flags;
use crate::record::Record;
use crate::refusal::Refusal;
use crate::sys::Row;
use crate::token::{Beside, Token, Value};
use crate::token_type::TokenType;
use std::iter::FusedIterator;

/// The places in a row.
pub(crate) const REFUSED: usize = 0;
pub(crate) const NUMBER: usize = 1;
pub(crate) const POSITION: usize = 2;
pub(crate) const FLAGS: usize = 3;
pub(crate) const REACH: usize = 4;
pub(crate) const START: usize = 5;
pub(crate) const LENGTH: usize = 6;
pub(crate) const BEFORE: usize = 7;
pub(crate) const AFTER: usize = 8;
pub(crate) const EXTRA: usize = 10;

/// An item of a record: a token, or the refusal that ended the run.
///
/// ```
/// use feel_lexer::{Flags, Record, Scope, Text, TokenType, Value, Workspace};
///
/// let text = Text::open(b"  .5")?;
/// let (scope, mut work) = (Scope::new(), Workspace::new());
/// let record = Record::run(text, TokenType::StartExpression, Flags::default(), &scope, &mut work)?;
/// let item = record.item(1).unwrap();
/// assert_eq!(item.token_type(), Some(TokenType::Numeric));
/// assert_eq!((item.from, item.position, item.reach), (0, 4, 14));
/// # Ok::<(), feel_lexer::Refusal>(())
/// ```
#[derive(Clone, Copy, Debug, PartialEq, Eq, Hash)]
pub struct Item<'a> {
    /// What was read.
    pub read: Result<Token<'a>, Refusal>,
    /// Where the lexer stood before it. White space and comments come first, then the token.
    pub from: usize,
    /// Where the lexer stood behind it. A name may have white space at its end.
    pub position: usize,
    /// The flags behind it.
    pub flags: Flags,
    /// One more than the largest index that was looked at to read it: an edit behind cannot change it.
    pub reach: usize,
}

impl<'a> Item<'a> {
    fn new(rows: &[Row], store: &'a [u32], index: usize) -> Option<Item<'a>> {
        let row = rows.get(index)?;
        let at = |place: usize| row[place] as usize;
        let read = if row[REFUSED] == 1 {
            Err(Refusal::new(row[NUMBER], at(POSITION), row[EXTRA]))
        } else {
            let beside = Beside {
                before: at(BEFORE),
                after: at(AFTER),
                extra: row[EXTRA],
            };
            let value = &store[at(START)..][..at(LENGTH)];
            Ok(Token::new(row[NUMBER], value, beside))
        };
        let before = index.checked_sub(1).map(|i| rows[i][POSITION] as usize);
        Some(Item {
            read,
            from: before.unwrap_or(0),
            position: at(POSITION),
            flags: Flags::from_number(row[FLAGS]),
            reach: at(REACH),
        })
    }

    /// The type of its token, if it is one.
    ///
    /// ```
    /// # use feel_lexer::{Flags, Record, Scope, Text, TokenType, Workspace};
    /// # let (text, scope, mut work) = (Text::default(), Scope::new(), Workspace::new());
    /// # let record = Record::run(text, TokenType::StartExpression, Flags::default(), &scope, &mut work)?;
    /// assert_eq!(record.item(0).unwrap().token_type(), Some(TokenType::StartExpression));
    /// # Ok::<(), feel_lexer::Refusal>(())
    /// ```
    pub fn token_type(&self) -> Option<TokenType> {
        self.read.ok().map(|token| token.token_type)
    }

    /// The value of its token; nothing for a refusal.
    ///
    /// ```
    /// # use feel_lexer::{Flags, Record, Scope, Text, TokenType, Value, Workspace};
    /// # let (text, scope, mut work) = (Text::open(b"true")?, Scope::new(), Workspace::new());
    /// # let record = Record::run(text, TokenType::StartExpression, Flags::default(), &scope, &mut work)?;
    /// assert_eq!(record.item(1).unwrap().value(), Value::Boolean(true));
    /// # Ok::<(), feel_lexer::Refusal>(())
    /// ```
    pub fn value(&self) -> Value<'a> {
        self.read.map_or(Value::Nothing, |token| token.value)
    }

    /// The characters of a string or a name.
    ///
    /// ```
    /// # use feel_lexer::{Flags, Record, Scope, Text, TokenType, Workspace};
    /// # let (text, scope, mut work) = (Text::open(br#""a\n""#)?, Scope::new(), Workspace::new());
    /// # let record = Record::run(text, TokenType::StartExpression, Flags::default(), &scope, &mut work)?;
    /// assert_eq!(record.item(1).unwrap().text().unwrap(), "a\n");
    /// # Ok::<(), feel_lexer::Refusal>(())
    /// ```
    pub fn text(&self) -> Option<Characters<'a>> {
        match self.value() {
            Value::Text(characters) => Some(characters),
            _ => None,
        }
    }
}

/// The items of a record, one after the other.
///
/// ```
/// use feel_lexer::{Flags, Record, Scope, Text, TokenType, Workspace};
///
/// let text = Text::open(b"a")?;
/// let (scope, mut work) = (Scope::new(), Workspace::new());
/// let record = Record::run(text, TokenType::StartExpression, Flags::default(), &scope, &mut work)?;
/// assert_eq!(record.items().len(), 3);
/// assert_eq!(record.items().next_back().unwrap().token_type(), Some(TokenType::YyEof));
/// # Ok::<(), feel_lexer::Refusal>(())
/// ```
#[derive(Clone, Debug)]
pub struct Items<'a> {
    rows: &'a [Row],
    store: &'a [u32],
    next: usize,
    end: usize,
}

impl<'a> Items<'a> {
    pub(crate) fn new(rows: &'a [Row], store: &'a [u32]) -> Items<'a> {
        Items {
            rows,
            store,
            next: 0,
            end: rows.len(),
        }
    }

    pub(crate) fn at(&self, index: usize) -> Option<Item<'a>> {
        Item::new(self.rows, self.store, index)
    }
}

impl<'a> Iterator for Items<'a> {
    type Item = Item<'a>;

    fn next(&mut self) -> Option<Item<'a>> {
        if self.next == self.end {
            return None;
        }
        self.next += 1;
        self.at(self.next - 1)
    }

    fn size_hint(&self) -> (usize, Option<usize>) {
        let left = self.end - self.next;
        (left, Some(left))
    }
}

impl DoubleEndedIterator for Items<'_> {
    fn next_back(&mut self) -> Option<Self::Item> {
        if self.next == self.end {
            return None;
        }
        self.end -= 1;
        self.at(self.end)
    }
}

impl ExactSizeIterator for Items<'_> {}

impl FusedIterator for Items<'_> {}

impl<'a> IntoIterator for &'a Record {
    type Item = Item<'a>;
    type IntoIter = Items<'a>;

    fn into_iter(self) -> Items<'a> {
        self.items()
    }
}
