//! The names in scope.

use crate::calls::{self, Answer, Lent};
use crate::context::Context;
use crate::refusal::Refusal;
use std::fmt;
use std::sync::atomic::{AtomicU64, Ordering};

/// Rows of slots, and of names, that a scope has: for 512 entries and 256 parsed names.
const SLOTS: usize = Scope::MAX_ENTRIES + Scope::MAX_PARSED;

/// The names in scope: a stack of contexts, and the names that were parsed.
///
/// A name in a text is cut at the longest front that is in scope. Names are taken as given; they are
/// met by words parted by single spaces, with no space around `.`, `/`, `-`, `'`, `+` and `*`.
///
/// ```
/// use feel_lexer::{Flags, Record, Refusal, Scope, Text, TokenType, Workspace};
///
/// let mut scope = Scope::new();
/// let mut work = Workspace::new();
/// let mut first_name = |scope: &Scope| -> Result<String, Refusal> {
///     let text = Text::open(b"row width-gutter")?;
///     let record = Record::run(text, TokenType::StartExpression, Flags::default(), scope, &mut work)?;
///     let name = record.item(1).unwrap().text().unwrap().to_string();
///     Ok(name)
/// };
///
/// scope.set_entry_name("row width")?;
/// assert_eq!(first_name(&scope)?, "row width");
/// scope.set_entry_name("row width-gutter")?;
/// assert_eq!(first_name(&scope)?, "row width-gutter");
/// # Ok::<(), Refusal>(())
/// ```
#[derive(Clone)]
pub struct Scope {
    pub(crate) lent: Lent,
    stamp: u64,
}

/// A number that no other state of any scope has.
fn new_stamp() -> u64 {
    static NEXT: AtomicU64 = AtomicU64::new(0);
    NEXT.fetch_add(1, Ordering::Relaxed)
}

/// Room for a name, and for one character more.
type NameRoom = [u32; Scope::MAX_NAME + 1];

/// The characters of a name. One that is too long is refused whatever it is, so it may be cut here.
fn cells<'a>(name: &str, room: &'a mut NameRoom) -> &'a [u32] {
    let pairs = room.iter_mut().zip(name.chars());
    let count = pairs.map(|(cell, c)| *cell = u32::from(c)).count();
    &room[..count]
}

impl Scope {
    /// The most contexts on the stack.
    pub const MAX_CONTEXTS: usize = 32;

    /// The most entries, at all depths of all contexts.
    pub const MAX_ENTRIES: usize = 512;

    /// The most distinct parsed names.
    pub const MAX_PARSED: usize = 256;

    /// The most characters of a name.
    pub const MAX_NAME: usize = 128;

    /// The deepest that an entry may lie.
    pub const MAX_DEPTH: u32 = 7;

    /// A scope with one empty context.
    ///
    /// ```
    /// let scope = feel_lexer::Scope::new();
    /// assert_eq!((scope.contexts(), scope.entries(), scope.parsed()), (1, 0, 0));
    /// ```
    pub fn new() -> Scope {
        let mut counts = [0; 3];
        let opened = calls::scope_opened(&mut counts);
        debug_assert!(opened.is_ok());
        Scope {
            lent: Lent {
                counts,
                slots: vec![[0; 4]; SLOTS],
                names: vec![[0; Scope::MAX_NAME]; SLOTS],
            },
            stamp: new_stamp(),
        }
    }

    /// Scopes with the same stamp hold the same names.
    pub(crate) fn stamp(&self) -> u64 {
        self.stamp
    }

    /// After a call: what was accepted has changed the scope, what was refused has not.
    fn changed(&mut self, answer: Result<Answer, Refusal>) -> Result<(), Refusal> {
        answer.map(|_| self.stamp = new_stamp())
    }

    /// Pushes an empty context.
    ///
    /// # Errors
    ///
    /// [`Refusal::OverLimit`] with 32 contexts on the stack.
    ///
    /// ```
    /// # let mut scope = feel_lexer::Scope::new();
    /// scope.push_default()?;
    /// assert_eq!(scope.contexts(), 2);
    /// # Ok::<(), feel_lexer::Refusal>(())
    /// ```
    pub fn push_default(&mut self) -> Result<(), Refusal> {
        let answer = calls::scope_push_default(&mut self.lent);
        self.changed(answer)
    }

    /// Pushes a context.
    ///
    /// # Errors
    ///
    /// [`Refusal::BrokenScope`] for a name over 128 characters or an entry deeper than 7, then
    /// [`Refusal::OverLimit`].
    ///
    /// ```
    /// # use feel_lexer::{Context, Scope};
    /// let mut scope = Scope::new();
    /// scope.push(&Context::new().variable("a").variable("b"))?;
    /// assert_eq!((scope.contexts(), scope.entries()), (2, 2));
    /// # Ok::<(), feel_lexer::Refusal>(())
    /// ```
    pub fn push(&mut self, context: &Context) -> Result<(), Refusal> {
        let answer = calls::scope_push(&mut self.lent, &context.list, &context.cells);
        self.changed(answer)
    }

    /// Pops the last context; does nothing on an empty stack. Parsed names stay.
    ///
    /// ```
    /// # let mut scope = feel_lexer::Scope::new();
    /// scope.pop();
    /// scope.pop();
    /// assert_eq!(scope.contexts(), 0);
    /// ```
    pub fn pop(&mut self) {
        // Popping refuses broken scopes alone, and none of this type is.
        let answer = calls::scope_pop(&mut self.lent);
        let popped = self.changed(answer);
        debug_assert!(popped.is_ok());
    }

    /// Names a variable in the last context, in place of an entry of that name and all below it.
    /// Does nothing on an empty stack.
    ///
    /// # Errors
    ///
    /// [`Refusal::BrokenScope`] for a name over 128 characters, then [`Refusal::OverLimit`].
    ///
    /// ```
    /// # let mut scope = feel_lexer::Scope::new();
    /// scope.set_entry_name("row width")?;
    /// scope.set_entry_name("row width")?;
    /// assert_eq!(scope.entries(), 1);
    /// # Ok::<(), feel_lexer::Refusal>(())
    /// ```
    pub fn set_entry_name(&mut self, name: &str) -> Result<(), Refusal> {
        let mut room = [0; Scope::MAX_NAME + 1];
        let answer = calls::scope_set_entry_name(&mut self.lent, cells(name, &mut room));
        self.changed(answer)
    }

    /// Names a context in the last context, in place of an entry of that name and all below it.
    /// Does nothing on an empty stack.
    ///
    /// # Errors
    ///
    /// [`Refusal::BrokenScope`] for a name over 128 characters or an entry that would lie deeper
    /// than 7, then [`Refusal::OverLimit`].
    ///
    /// ```
    /// # use feel_lexer::{Context, Scope};
    /// let mut scope = Scope::new();
    /// scope.set_context("row", &Context::new().variable("width"))?;
    /// assert_eq!((scope.contexts(), scope.entries()), (1, 2));
    /// # Ok::<(), feel_lexer::Refusal>(())
    /// ```
    pub fn set_context(&mut self, name: &str, context: &Context) -> Result<(), Refusal> {
        let mut room = [0; Scope::MAX_NAME + 1];
        let name = cells(name, &mut room);
        let answer = calls::scope_set_context(&mut self.lent, name, &context.list, &context.cells);
        self.changed(answer)
    }

    /// Adds a parsed name, which no pop takes away.
    ///
    /// # Errors
    ///
    /// [`Refusal::BrokenScope`] for a name over 128 characters, then [`Refusal::OverLimit`].
    ///
    /// ```
    /// # let mut scope = feel_lexer::Scope::new();
    /// scope.add_parsed_name("row width")?;
    /// scope.pop();
    /// assert_eq!((scope.contexts(), scope.parsed()), (0, 1));
    /// # Ok::<(), feel_lexer::Refusal>(())
    /// ```
    pub fn add_parsed_name(&mut self, name: &str) -> Result<(), Refusal> {
        let mut room = [0; Scope::MAX_NAME + 1];
        let answer = calls::scope_add_parsed_name(&mut self.lent, cells(name, &mut room));
        self.changed(answer)
    }

    /// How many contexts are on the stack.
    ///
    /// ```
    /// assert_eq!(feel_lexer::Scope::new().contexts(), 1);
    /// ```
    pub fn contexts(&self) -> usize {
        self.lent.counts[0]
    }

    /// How many entries there are, at all depths of all contexts.
    ///
    /// ```
    /// assert_eq!(feel_lexer::Scope::new().entries(), 0);
    /// ```
    pub fn entries(&self) -> usize {
        self.lent.counts[1]
    }

    /// How many names were parsed.
    ///
    /// ```
    /// assert_eq!(feel_lexer::Scope::new().parsed(), 0);
    /// ```
    pub fn parsed(&self) -> usize {
        self.lent.counts[2]
    }
}

impl Default for Scope {
    fn default() -> Scope {
        Scope::new()
    }
}

impl fmt::Debug for Scope {
    fn fmt(&self, f: &mut fmt::Formatter<'_>) -> fmt::Result {
        f.debug_struct("Scope")
            .field("contexts", &self.contexts())
            .field("entries", &self.entries())
            .field("parsed", &self.parsed())
            .finish_non_exhaustive()
    }
}
