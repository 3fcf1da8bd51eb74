//! An opened text.

use crate::calls;
use crate::characters::Characters;
use crate::refusal::Refusal;
use std::fmt;
use std::ops::Range;
use std::str::FromStr;

/// A text of at most 16,384 characters.
///
/// ```
/// use feel_lexer::{Refusal, Text};
///
/// let text: Text = "1 <= größe".parse()?;
/// assert_eq!(text.len(), 10);
/// assert_eq!(Text::open(b"1 < \xFF"), Err(Refusal::NotUtf8 { byte: 4 }));
/// # Ok::<(), Refusal>(())
/// ```
#[derive(Clone, Default, PartialEq, Eq, Hash)]
pub struct Text {
    pub(crate) cells: Vec<u32>,
}

impl Text {
    /// The most characters that a text has.
    pub const MAX_CHARS: usize = 16_384;

    /// The most bytes that are opened.
    pub const MAX_BYTES: usize = 65_536;

    /// Opens UTF-8.
    ///
    /// # Errors
    ///
    /// [`Refusal::TooLong`] and [`Refusal::NotUtf8`].
    ///
    /// ```
    /// use feel_lexer::{Refusal, Text};
    ///
    /// assert_eq!(Text::open("größe".as_bytes())?.to_string(), "größe");
    /// assert_eq!(Text::open(&[b' '; 16_385]), Err(Refusal::TooLong));
    /// # Ok::<(), Refusal>(())
    /// ```
    pub fn open(bytes: &[u8]) -> Result<Text, Refusal> {
        // There are no more characters than bytes, so opening never lacks a cell.
        let mut cells = vec![0; bytes.len().min(Text::MAX_CHARS)];
        let answer = calls::open(bytes, &mut cells)?;
        cells.truncate(answer.length);
        Ok(Text { cells })
    }

    /// How many characters it has.
    ///
    /// ```
    /// # use feel_lexer::Text;
    /// assert_eq!(Text::open("größe".as_bytes())?.len(), 5);
    /// # Ok::<(), feel_lexer::Refusal>(())
    /// ```
    pub fn len(&self) -> usize {
        self.cells.len()
    }

    /// Whether it has none.
    ///
    /// ```
    /// assert!(feel_lexer::Text::default().is_empty());
    /// ```
    pub fn is_empty(&self) -> bool {
        self.cells.is_empty()
    }

    /// All of its characters.
    ///
    /// ```
    /// # use feel_lexer::Text;
    /// assert_eq!(Text::open(b"1 + 2")?.characters(), "1 + 2");
    /// # Ok::<(), feel_lexer::Refusal>(())
    /// ```
    pub fn characters(&self) -> Characters<'_> {
        Characters::new(&self.cells)
    }

    /// Some of its characters, or none where the range lies outside.
    ///
    /// ```
    /// # use feel_lexer::Text;
    /// let text = Text::open(b"1 + 2")?;
    /// assert_eq!(text.slice(2..5).unwrap(), "+ 2");
    /// assert!(text.slice(2..6).is_none());
    /// # Ok::<(), feel_lexer::Refusal>(())
    /// ```
    pub fn slice(&self, range: Range<usize>) -> Option<Characters<'_>> {
        self.cells.get(range).map(Characters::new)
    }
}

impl FromStr for Text {
    type Err = Refusal;

    fn from_str(string: &str) -> Result<Text, Refusal> {
        Text::open(string.as_bytes())
    }
}

impl TryFrom<&str> for Text {
    type Error = Refusal;

    fn try_from(string: &str) -> Result<Text, Refusal> {
        Text::open(string.as_bytes())
    }
}

impl fmt::Display for Text {
    fn fmt(&self, f: &mut fmt::Formatter<'_>) -> fmt::Result {
        self.characters().fmt(f)
    }
}

impl fmt::Debug for Text {
    fn fmt(&self, f: &mut fmt::Formatter<'_>) -> fmt::Result {
        write!(f, "Text({:?})", self.characters())
    }
}
