//! A token and its value.

use crate::characters::Characters;
use crate::token_type::TokenType;

/// A token: its type and its value.
///
/// ```
/// use feel_lexer::{Lexer, Scope, Text, TokenType, Value, Workspace};
///
/// let text = Text::open(b"true")?;
/// let (scope, mut work) = (Scope::new(), Workspace::new());
/// let mut lexer = Lexer::new(TokenType::StartExpression);
/// lexer.next_token(&text, &scope, &mut work)?;
/// let token = lexer.next_token(&text, &scope, &mut work)?;
/// assert_eq!(token.token_type, TokenType::Boolean);
/// assert_eq!(token.value, Value::Boolean(true));
/// # Ok::<(), feel_lexer::Refusal>(())
/// ```
#[derive(Clone, Copy, Debug, PartialEq, Eq, Hash)]
pub struct Token<'a> {
    /// Its type.
    pub token_type: TokenType,
    /// Its value.
    pub value: Value<'a>,
}

/// The value of a token.
///
/// ```
/// use feel_lexer::{Lexer, Scope, Text, TokenType, Value, Workspace};
///
/// let text = Text::open(b".5e-3")?;
/// let (scope, mut work) = (Scope::new(), Workspace::new());
/// let mut lexer = Lexer::new(TokenType::StartExpression);
/// lexer.next_token(&text, &scope, &mut work)?;
/// match lexer.next_token(&text, &scope, &mut work)?.value {
///     Value::Number { before, after, negative_exponent, exponent } => {
///         assert_eq!(before, "0");
///         assert_eq!(after, "5");
///         assert!(negative_exponent);
///         assert_eq!(exponent, "3");
///     }
///     other => panic!("{other:?} is no number"),
/// }
/// # Ok::<(), feel_lexer::Refusal>(())
/// ```
#[derive(Clone, Copy, Debug, PartialEq, Eq, Hash)]
pub enum Value<'a> {
    /// Tokens that their type says all of.
    Nothing,
    /// Of [`TokenType::Boolean`].
    Boolean(bool),
    /// Of [`TokenType::Numeric`]: digits. A minus before a number is a token of its own.
    Number {
        /// Digits before the point; `0` where there are none.
        before: Characters<'a>,
        /// Digits behind the point.
        after: Characters<'a>,
        /// Whether the exponent has a minus.
        negative_exponent: bool,
        /// Digits of the exponent.
        exponent: Characters<'a>,
    },
    /// Of strings, escapes replaced, and of names of all kinds, parts joined.
    Text(Characters<'a>),
}

/// The lengths of a number's digits, and the extra number of a row or an answer.
pub(crate) struct Beside {
    pub before: usize,
    pub after: usize,
    pub extra: u32,
}

impl<'a> Token<'a> {
    /// A token by its numbers: its type's, and the cells of its value.
    pub(crate) fn new(number: u32, cells: &'a [u32], beside: Beside) -> Token<'a> {
        let token_type = TokenType::from_number(number);
        let token_type = token_type.expect("the lexer answers with types of the tables");
        let value = match token_type {
            TokenType::Boolean => Value::Boolean(beside.extra == 1),
            TokenType::Numeric => number_of(cells, beside),
            TokenType::String
            | TokenType::Name
            | TokenType::NameDateTime
            | TokenType::BuiltInTypeName => Value::Text(Characters::new(cells)),
            _ => Value::Nothing,
        };
        Token { token_type, value }
    }
}

fn number_of(cells: &[u32], beside: Beside) -> Value<'_> {
    let (before, behind) = cells.split_at(beside.before);
    let (after, exponent) = behind.split_at(beside.after);
    Value::Number {
        before: Characters::new(before),
        after: Characters::new(after),
        negative_exponent: beside.extra == 1,
        exponent: Characters::new(exponent),
    }
}
