//! Memory that calls are lent and that outlives them.

use crate::sys::Row;
use std::fmt;

/// Memory for the calls to work in, used again by each of them.
///
/// It grows to what the longest text so far has needed; no call allocates where it is long enough.
/// One workspace serves any number of texts, records and scopes, one call at a time.
///
/// ```
/// use feel_lexer::{Flags, Record, Scope, Text, TokenType, Workspace};
///
/// let mut work = Workspace::new();
/// let scope = Scope::new();
/// for rule in ["1 + 2", "\"a\" = x"] {
///     let text = Text::open(rule.as_bytes())?;
///     let record = Record::run(text, TokenType::StartExpression, Flags::default(), &scope, &mut work)?;
///     assert_eq!(record.len(), 5);
/// }
/// # Ok::<(), feel_lexer::Refusal>(())
/// ```
#[derive(Default)]
pub struct Workspace {
    pub(crate) scratch: Vec<u32>,
    pub(crate) out: Vec<u32>,
    pub(crate) part: Vec<u32>,
    pub(crate) rows: Vec<Row>,
    pub(crate) store: Vec<u32>,
}

impl Workspace {
    /// An empty workspace.
    ///
    /// ```
    /// let work = feel_lexer::Workspace::new();
    /// ```
    pub fn new() -> Workspace {
        Workspace::default()
    }
}

impl fmt::Debug for Workspace {
    fn fmt(&self, f: &mut fmt::Formatter<'_>) -> fmt::Result {
        f.debug_struct("Workspace").finish_non_exhaustive()
    }
}

/// The front of a buffer, which grows where it is too short.
pub(crate) fn front<T: Clone + Default>(buffer: &mut Vec<T>, length: usize) -> &mut [T] {
    if buffer.len() < length {
        buffer.resize(length, T::default());
    }
    &mut buffer[..length]
}
