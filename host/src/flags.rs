//! The five flags of a lexer.

/// The flags that a grammar sets to say what kind of token it expects next.
///
/// ```
/// use feel_lexer::{Flags, Lexer, TokenType};
///
/// let mut lexer = Lexer::new(TokenType::StartExpression);
/// lexer.set_till_in();
/// assert_eq!(lexer.flags(), Flags { till_in: true, ..Flags::default() });
/// ```
#[derive(Clone, Copy, Debug, Default, PartialEq, Eq, Hash)]
pub struct Flags {
    /// Unary tests begin: `not` is a keyword. Every token but the start token clears it.
    pub unary_tests: bool,
    /// Behind `between`: the next `and` is [`BetweenAnd`](crate::TokenType::BetweenAnd), which clears it.
    pub between: bool,
    /// A type is due: a built-in type name is one, and clears it.
    pub type_name: bool,
    /// A name is due that ends before `in`, which clears it.
    pub till_in: bool,
    /// Behind a point: a property such as `time offset` is a name, and clears it.
    pub after_dot: bool,
}

impl Flags {
    pub(crate) fn number(self) -> u32 {
        u32::from(self.unary_tests)
            + 2 * u32::from(self.between)
            + 4 * u32::from(self.type_name)
            + 8 * u32::from(self.till_in)
            + 16 * u32::from(self.after_dot)
    }

    pub(crate) fn from_number(number: u32) -> Flags {
        Flags {
            unary_tests: number & 1 != 0,
            between: number & 2 != 0,
            type_name: number & 4 != 0,
            till_in: number & 8 != 0,
            after_dot: number & 16 != 0,
        }
    }
}

#[cfg(test)]
mod tests {
    use super::Flags;

    #[test]
    fn flags_are_their_number() {
        for number in 0..32 {
            assert_eq!(Flags::from_number(number).number(), number);
        }
    }
}
