//! Characters as the library holds them, one cell each.

use std::fmt::{self, Write};

/// Characters of a text or of a value, borrowed where they stand.
///
/// They compare with `&str` and print as text; `to_string` copies them.
///
/// ```
/// use feel_lexer::Text;
///
/// let text = Text::open("größe".as_bytes())?;
/// let part = text.slice(2..4).unwrap();
/// assert_eq!(part, "öß");
/// assert_eq!(part.to_string(), "öß");
/// # Ok::<(), feel_lexer::Refusal>(())
/// ```
#[derive(Clone, Copy, PartialEq, Eq, Hash)]
pub struct Characters<'a> {
    cells: &'a [u32],
}

/// Every cell of a text or a value is a Unicode scalar value: a text is opened from UTF-8, and an
/// escape that is none is refused. So nothing is ever replaced here.
fn shown(cell: &u32) -> char {
    char::from_u32(*cell).unwrap_or(char::REPLACEMENT_CHARACTER)
}

impl<'a> Characters<'a> {
    pub(crate) fn new(cells: &'a [u32]) -> Characters<'a> {
        Characters { cells }
    }

    /// How many characters there are.
    ///
    /// ```
    /// # use feel_lexer::Text;
    /// assert_eq!(Text::open("größe".as_bytes())?.characters().len(), 5);
    /// # Ok::<(), feel_lexer::Refusal>(())
    /// ```
    pub fn len(self) -> usize {
        self.cells.len()
    }

    /// Whether there are none.
    ///
    /// ```
    /// # use feel_lexer::Text;
    /// assert!(Text::open(b"")?.characters().is_empty());
    /// # Ok::<(), feel_lexer::Refusal>(())
    /// ```
    pub fn is_empty(self) -> bool {
        self.cells.is_empty()
    }

    /// The characters one by one.
    ///
    /// ```
    /// # use feel_lexer::Text;
    /// let text = Text::open("größe".as_bytes())?;
    /// assert_eq!(text.characters().chars().nth(2), Some('ö'));
    /// # Ok::<(), feel_lexer::Refusal>(())
    /// ```
    pub fn chars(self) -> impl ExactSizeIterator<Item = char> + DoubleEndedIterator + Clone + 'a {
        self.cells.iter().map(shown)
    }
}

impl fmt::Display for Characters<'_> {
    fn fmt(&self, f: &mut fmt::Formatter<'_>) -> fmt::Result {
        self.chars().try_for_each(|c| f.write_char(c))
    }
}

impl fmt::Debug for Characters<'_> {
    fn fmt(&self, f: &mut fmt::Formatter<'_>) -> fmt::Result {
        write!(f, "{:?}", self.to_string())
    }
}

impl PartialEq<str> for Characters<'_> {
    fn eq(&self, other: &str) -> bool {
        self.chars().eq(other.chars())
    }
}

impl PartialEq<&str> for Characters<'_> {
    fn eq(&self, other: &&str) -> bool {
        *self == **other
    }
}
