//! An entry list, built from the outside in.

use crate::sys::Slot;

const VARIABLE: u32 = 0;
const CONTEXT: u32 = 1;

/// Names of variables, and of contexts with names below them, to be pushed on a [`Scope`](crate::Scope).
///
/// A name repeated at one level replaces the earlier entry with all below it.
///
/// ```
/// use feel_lexer::{Context, Scope};
///
/// let row = Context::new().variable("width").variable("gutter");
/// let page = Context::new().variable("title").context("row", &row);
/// let mut scope = Scope::new();
/// scope.push(&page)?;
/// assert_eq!((scope.contexts(), scope.entries()), (2, 4));
/// # Ok::<(), feel_lexer::Refusal>(())
/// ```
#[derive(Clone, Debug, Default, PartialEq, Eq)]
pub struct Context {
    pub(crate) list: Vec<Slot>,
    pub(crate) cells: Vec<u32>,
}

/// A number as the list holds it. One that does not fit is beyond every limit, and stays so.
fn number(n: usize) -> u32 {
    u32::try_from(n).unwrap_or(u32::MAX)
}

impl Context {
    /// A context with nothing in it.
    ///
    /// ```
    /// # use feel_lexer::{Context, Scope};
    /// let mut scope = Scope::new();
    /// scope.push(&Context::new())?;
    /// assert_eq!((scope.contexts(), scope.entries()), (2, 0));
    /// # Ok::<(), feel_lexer::Refusal>(())
    /// ```
    pub fn new() -> Context {
        Context::default()
    }

    /// With a variable more.
    ///
    /// ```
    /// # use feel_lexer::{Context, Scope};
    /// let mut scope = Scope::new();
    /// scope.push(&Context::new().variable("row width"))?;
    /// assert_eq!(scope.entries(), 1);
    /// # Ok::<(), feel_lexer::Refusal>(())
    /// ```
    pub fn variable(mut self, name: &str) -> Context {
        self.put(VARIABLE, name);
        self
    }

    /// With a context more, and in it what `inner` has.
    ///
    /// ```
    /// # use feel_lexer::{Context, Scope};
    /// let row = Context::new().variable("width");
    /// let mut scope = Scope::new();
    /// scope.push(&Context::new().context("row", &row))?;
    /// assert_eq!(scope.entries(), 2);
    /// # Ok::<(), feel_lexer::Refusal>(())
    /// ```
    pub fn context(mut self, name: &str, inner: &Context) -> Context {
        self.put(CONTEXT, name);
        let offset = number(self.cells.len());
        let deeper = inner.list.iter().map(|&[depth, kind, start, length]| {
            let start = start.saturating_add(offset);
            [depth.saturating_add(1), kind, start, length]
        });
        self.list.extend(deeper);
        self.cells.extend_from_slice(&inner.cells);
        self
    }

    fn put(&mut self, kind: u32, name: &str) {
        let start = self.cells.len();
        self.cells.extend(name.chars().map(u32::from));
        let length = self.cells.len() - start;
        self.list.push([0, kind, number(start), number(length)]);
    }
}
