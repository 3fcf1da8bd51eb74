//! Why a call refuses.

use std::error::Error;
use std::fmt;

/// Why a text, a name or a request is refused. A refused call leaves everything as it was.
///
/// The author's text causes the first eight, the host the others. Of those the library has more
/// causes than are named here: this crate owns the memory, so no slice is too short, no scope or
/// record is broken.
///
/// ```
/// use feel_lexer::{Refusal, Text};
///
/// let refusal = Text::open(b"a\xFF").unwrap_err();
/// assert_eq!(refusal, Refusal::NotUtf8 { byte: 1 });
/// assert_eq!((refusal.number(), refusal.place(), refusal.carry()), (2, 1, None));
/// assert_eq!(refusal.to_string(), "no well-formed UTF-8 sequence begins at byte 1");
/// ```
#[derive(Clone, Copy, Debug, PartialEq, Eq, Hash)]
pub enum Refusal {
    /// 1: the text has more than 16,384 characters.
    TooLong,
    /// 2: the text is not well-formed UTF-8.
    NotUtf8 {
        /// Where the first bad sequence begins.
        byte: usize,
    },
    /// 3: a hexadecimal digit of an escape was due.
    NoHexDigit {
        /// Where it was due.
        place: usize,
        /// The character that stands there.
        found: u32,
    },
    /// 4: the text ends where a hexadecimal digit was due.
    EndAtHexDigit {
        /// The end of the text.
        place: usize,
    },
    /// 5: an escape is no character: a second half with no first, or above 10FFFF.
    NoScalarValue {
        /// Just behind its digits.
        place: usize,
        /// Its value.
        value: u32,
    },
    /// 6: the second half of a pair lies outside DC00 to DFFF.
    NoSecondHalf {
        /// Just behind its digits.
        place: usize,
        /// Its value.
        value: u32,
    },
    /// 7: fewer than two characters follow the first half of a pair.
    EndAtSecondHalf {
        /// Just behind the digits of the first half.
        place: usize,
    },
    /// 8: a name that ends before `in` was due, and nothing stands before `in`.
    StartsWithIn {
        /// Where `in` begins.
        place: usize,
    },
    /// 9: a lent slice is too short. No call of this crate lends such a slice.
    ShortSlice,
    /// 10: a name has more than 128 characters, or an entry lies deeper than 7.
    BrokenScope,
    /// 11: the scope would have more than 32 contexts, 512 entries or 256 parsed names.
    OverLimit,
    /// 12: the lexer's position lies beyond the text.
    BeyondText {
        /// The lexer's position.
        place: usize,
    },
    /// 13: the range of an edit does not lie within the text.
    BrokenRequest,
}

impl Refusal {
    /// A refusal by its number, as a call answers it.
    pub(crate) fn new(number: u32, place: usize, carry: u32) -> Refusal {
        match number {
            1 => Refusal::TooLong,
            2 => Refusal::NotUtf8 { byte: place },
            3 => Refusal::NoHexDigit {
                place,
                found: carry,
            },
            4 => Refusal::EndAtHexDigit { place },
            5 => Refusal::NoScalarValue {
                place,
                value: carry,
            },
            6 => Refusal::NoSecondHalf {
                place,
                value: carry,
            },
            7 => Refusal::EndAtSecondHalf { place },
            8 => Refusal::StartsWithIn { place },
            9 => Refusal::ShortSlice,
            10 => Refusal::BrokenScope,
            11 => Refusal::OverLimit,
            12 => Refusal::BeyondText { place },
            13 => Refusal::BrokenRequest,
            _ => unreachable!("no refusal has the number {number}"),
        }
    }

    /// Its number, 1 to 13.
    ///
    /// ```
    /// assert_eq!(feel_lexer::Refusal::TooLong.number(), 1);
    /// ```
    pub fn number(&self) -> u32 {
        match self {
            Refusal::TooLong => 1,
            Refusal::NotUtf8 { .. } => 2,
            Refusal::NoHexDigit { .. } => 3,
            Refusal::EndAtHexDigit { .. } => 4,
            Refusal::NoScalarValue { .. } => 5,
            Refusal::NoSecondHalf { .. } => 6,
            Refusal::EndAtSecondHalf { .. } => 7,
            Refusal::StartsWithIn { .. } => 8,
            Refusal::ShortSlice => 9,
            Refusal::BrokenScope => 10,
            Refusal::OverLimit => 11,
            Refusal::BeyondText { .. } => 12,
            Refusal::BrokenRequest => 13,
        }
    }

    /// Its place: a byte for 2, else a position in the text; 0 where it has none.
    ///
    /// ```
    /// assert_eq!(feel_lexer::Refusal::EndAtSecondHalf { place: 7 }.place(), 7);
    /// ```
    pub fn place(&self) -> usize {
        match *self {
            Refusal::NotUtf8 { byte } => byte,
            Refusal::NoHexDigit { place, .. }
            | Refusal::EndAtHexDigit { place }
            | Refusal::NoScalarValue { place, .. }
            | Refusal::NoSecondHalf { place, .. }
            | Refusal::EndAtSecondHalf { place }
            | Refusal::StartsWithIn { place }
            | Refusal::BeyondText { place } => place,
            Refusal::TooLong
            | Refusal::ShortSlice
            | Refusal::BrokenScope
            | Refusal::OverLimit
            | Refusal::BrokenRequest => 0,
        }
    }

    /// What 3, 5 and 6 carry: the character found, or the escape's value.
    ///
    /// ```
    /// # use feel_lexer::Refusal;
    /// assert_eq!(Refusal::NoScalarValue { place: 7, value: 0xDC00 }.carry(), Some(0xDC00));
    /// assert_eq!(Refusal::TooLong.carry(), None);
    /// ```
    pub fn carry(&self) -> Option<u32> {
        match *self {
            Refusal::NoHexDigit { found, .. } => Some(found),
            Refusal::NoScalarValue { value, .. } | Refusal::NoSecondHalf { value, .. } => {
                Some(value)
            }
            _ => None,
        }
    }
}

/// A character for a message: itself where it can be seen, and its code point.
fn shown(cell: u32) -> String {
    match char::from_u32(cell) {
        Some(c) if !c.is_control() && !c.is_whitespace() => format!("{c} (U+{cell:04X})"),
        _ => format!("U+{cell:04X}"),
    }
}

impl fmt::Display for Refusal {
    fn fmt(&self, f: &mut fmt::Formatter<'_>) -> fmt::Result {
        match *self {
            Refusal::TooLong => f.write_str("the text has more than 16,384 characters"),
            Refusal::NotUtf8 { byte } => {
                write!(f, "no well-formed UTF-8 sequence begins at byte {byte}")
            }
            Refusal::NoHexDigit { place, found } => write!(
                f,
                "a hexadecimal digit is due at position {place}, but {} stands there",
                shown(found)
            ),
            Refusal::EndAtHexDigit { place } => write!(
                f,
                "the text ends at position {place}, where a hexadecimal digit is due"
            ),
            Refusal::NoScalarValue { place, value } => write!(
                f,
                "the escape that ends at position {place} has the value {value:04X}, which is no character"
            ),
            Refusal::NoSecondHalf { place, value } => write!(
                f,
                "the escape that ends at position {place} has the value {value:04X}, but a pair's second half is due, DC00 to DFFF"
            ),
            Refusal::EndAtSecondHalf { place } => write!(
                f,
                "the text ends behind position {place}, where a pair's second half is due"
            ),
            Refusal::StartsWithIn { place } => write!(
                f,
                "a name is due at position {place}, but `in` stands there"
            ),
            Refusal::ShortSlice => f.write_str("a lent slice is too short"),
            Refusal::BrokenScope => {
                f.write_str("a name has more than 128 characters, or an entry lies deeper than 7")
            }
            Refusal::OverLimit => f.write_str(
                "the scope would have more than 32 contexts, 512 entries or 256 parsed names",
            ),
            Refusal::BeyondText { place } => {
                write!(f, "the lexer's position {place} lies beyond the text")
            }
            Refusal::BrokenRequest => f.write_str("the edit does not lie within the text"),
        }
    }
}

impl Error for Refusal {}

#[cfg(test)]
mod tests {
    use super::Refusal;

    #[test]
    fn numbers_places_and_carries_are_kept() {
        for number in 1..=13 {
            let refusal = Refusal::new(number, 7, 0x22);
            assert_eq!(refusal.number(), number);
            let placed = matches!(number, 2..=8 | 12);
            assert_eq!(refusal.place(), if placed { 7 } else { 0 });
            let carries = matches!(number, 3 | 5 | 6);
            assert_eq!(refusal.carry(), carries.then_some(0x22));
        }
    }
}
