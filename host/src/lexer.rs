//! The token call.

use crate::calls;
use crate::flags::Flags;
use crate::refusal::Refusal;
use crate::scope::Scope;
use crate::text::Text;
use crate::token::{Beside, Token};
use crate::token_type::TokenType;
use crate::workspace::{Workspace, front};

/// A lexer for a parser that asks for one token at a time and sets flags between them.
///
/// It is a position, five flags and the start type that is due: a copy is a mark to return to. For
/// all tokens of a text at once a [`Record`](crate::Record) is faster.
///
/// ```
/// use feel_lexer::{Lexer, Scope, Text, TokenType, Workspace};
///
/// let text = Text::open(b"for x in y return x")?;
/// let (scope, mut work) = (Scope::new(), Workspace::new());
/// let mut lexer = Lexer::new(TokenType::StartExpression);
/// let mut types = Vec::new();
/// loop {
///     let token = lexer.next_token(&text, &scope, &mut work)?;
///     types.push(token.token_type);
///     match token.token_type {
///         TokenType::For => lexer.set_till_in(),
///         TokenType::Name if types.len() > 4 => break,
///         _ => {}
///     }
/// }
/// use TokenType::*;
/// assert_eq!(types, [StartExpression, For, Name, In, Name]);
/// # Ok::<(), feel_lexer::Refusal>(())
/// ```
#[derive(Clone, Copy, Debug, PartialEq, Eq, Hash)]
pub struct Lexer {
    position: usize,
    flags: Flags,
    pending: Option<TokenType>,
}

impl Lexer {
    /// A lexer before a text. Its first token is the start token; a type that is no start gives
    /// [`TokenType::YyError`] instead.
    ///
    /// ```
    /// # use feel_lexer::{Lexer, Scope, Text, TokenType, Workspace};
    /// # let (text, scope, mut work) = (Text::default(), Scope::new(), Workspace::new());
    /// let mut lexer = Lexer::new(TokenType::StartUnaryTests);
    /// let token = lexer.next_token(&text, &scope, &mut work)?;
    /// assert_eq!(token.token_type, TokenType::StartUnaryTests);
    /// let mut lexer = Lexer::new(TokenType::Name);
    /// let token = lexer.next_token(&text, &scope, &mut work)?;
    /// assert_eq!(token.token_type, TokenType::YyError);
    /// # Ok::<(), feel_lexer::Refusal>(())
    /// ```
    pub fn new(start_type: TokenType) -> Lexer {
        Lexer {
            position: 0,
            flags: Flags::default(),
            pending: Some(start_type),
        }
    }

    /// Where it stands, in characters.
    ///
    /// ```
    /// # use feel_lexer::{Lexer, TokenType};
    /// assert_eq!(Lexer::new(TokenType::StartExpression).position(), 0);
    /// ```
    pub fn position(&self) -> usize {
        self.position
    }

    /// Its flags.
    ///
    /// ```
    /// # use feel_lexer::{Flags, Lexer, TokenType};
    /// assert_eq!(Lexer::new(TokenType::StartExpression).flags(), Flags::default());
    /// ```
    pub fn flags(&self) -> Flags {
        self.flags
    }

    /// Says that unary tests begin.
    ///
    /// ```
    /// # use feel_lexer::{Lexer, TokenType};
    /// let mut lexer = Lexer::new(TokenType::StartUnaryTests);
    /// lexer.set_unary_tests();
    /// assert!(lexer.flags().unary_tests);
    /// ```
    pub fn set_unary_tests(&mut self) {
        self.flags.unary_tests = true;
    }

    /// Says that the next `and` belongs to `between`.
    ///
    /// ```
    /// # use feel_lexer::{Lexer, TokenType};
    /// let mut lexer = Lexer::new(TokenType::StartExpression);
    /// lexer.set_between();
    /// assert!(lexer.flags().between);
    /// ```
    pub fn set_between(&mut self) {
        self.flags.between = true;
    }

    /// Says that a type is due.
    ///
    /// ```
    /// # use feel_lexer::{Lexer, TokenType};
    /// let mut lexer = Lexer::new(TokenType::StartExpression);
    /// lexer.set_type_name();
    /// assert!(lexer.flags().type_name);
    /// ```
    pub fn set_type_name(&mut self) {
        self.flags.type_name = true;
    }

    /// Says that the next name ends before `in`.
    ///
    /// ```
    /// # use feel_lexer::{Lexer, TokenType};
    /// let mut lexer = Lexer::new(TokenType::StartExpression);
    /// lexer.set_till_in();
    /// assert!(lexer.flags().till_in);
    /// ```
    pub fn set_till_in(&mut self) {
        self.flags.till_in = true;
    }

    /// Says that a point stands before what comes.
    ///
    /// ```
    /// # use feel_lexer::{Lexer, TokenType};
    /// let mut lexer = Lexer::new(TokenType::StartExpression);
    /// lexer.set_after_dot();
    /// assert!(lexer.flags().after_dot);
    /// ```
    pub fn set_after_dot(&mut self) {
        self.flags.after_dot = true;
    }

    /// The next token. Its value lies in the workspace until the next call.
    ///
    /// At the end of the text it is [`TokenType::YyEof`], however often it is asked for.
    ///
    /// # Errors
    ///
    /// [`Refusal::BeyondText`] where the text is shorter than the lexer's position, which then
    /// stays. Else the text's own: [`Refusal::NoHexDigit`] to [`Refusal::StartsWithIn`]; they leave
    /// the lexer at their place.
    ///
    /// ```
    /// use feel_lexer::{Lexer, Refusal, Scope, Text, TokenType, Workspace};
    ///
    /// let text = Text::open(br#""\uDC00""#)?;
    /// let (scope, mut work) = (Scope::new(), Workspace::new());
    /// let mut lexer = Lexer::new(TokenType::StartExpression);
    /// lexer.next_token(&text, &scope, &mut work)?;
    /// let refused = lexer.next_token(&text, &scope, &mut work);
    /// assert_eq!(refused, Err(Refusal::NoScalarValue { place: 7, value: 0xDC00 }));
    /// assert_eq!(lexer.position(), 7);
    /// # Ok::<(), Refusal>(())
    /// ```
    pub fn next_token<'w>(
        &mut self,
        text: &Text,
        scope: &Scope,
        work: &'w mut Workspace,
    ) -> Result<Token<'w>, Refusal> {
        let n = text.len();
        let out = front(&mut work.out, n);
        let scratch = front(&mut work.scratch, 2 * n);
        let mut numbers = self.numbers();
        let called = calls::next_token(&mut numbers, &text.cells, &scope.lent, out, scratch);
        *self = Lexer::from_numbers(numbers);
        let answer = called?;
        let beside = Beside {
            before: answer.before,
            after: answer.after,
            extra: answer.extra,
        };
        debug_assert!(answer.before + answer.after + answer.exponent <= answer.length);
        let value = &work.out[..answer.length];
        Ok(Token::new(answer.token_type, value, beside))
    }

    /// Position, flags, whether a start token is due, and of which type.
    fn numbers(&self) -> [usize; 4] {
        let start_type = self.pending.map_or(0, |start_type| start_type as usize);
        let pending = usize::from(self.pending.is_some());
        let flags = self.flags.number() as usize;
        [self.position, flags, pending, start_type]
    }

    fn from_numbers([position, flags, pending, start_type]: [usize; 4]) -> Lexer {
        Lexer {
            position,
            flags: Flags::from_number(flags as u32),
            pending: match pending {
                0 => None,
                _ => TokenType::from_number(start_type as u32),
            },
        }
    }
}
