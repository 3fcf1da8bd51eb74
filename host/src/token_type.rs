//! The token types.

use std::fmt;

/// Lists the types once, for the enum and for the way back from a number.
macro_rules! token_types {
    ($($(#[$doc:meta])* $name:ident = $number:literal,)*) => {
        /// The type of a token, by the names and numbers of the grammar's tables.
        ///
        /// ```
        /// use feel_lexer::TokenType;
        ///
        /// assert_eq!(TokenType::Name as u32, 310);
        /// assert_eq!(TokenType::from_number(310), Some(TokenType::Name));
        /// assert_eq!(TokenType::Name.to_string(), "Name");
        /// ```
        #[derive(Clone, Copy, Debug, PartialEq, Eq, Hash, PartialOrd, Ord)]
        #[repr(u32)]
        pub enum TokenType {
            $($(#[$doc])* $name = $number,)*
        }

        impl TokenType {
            /// All types, by rising number.
            ///
            /// ```
            /// # use feel_lexer::TokenType;
            /// assert_eq!(TokenType::ALL.len(), 63);
            /// ```
            pub const ALL: &'static [TokenType] = &[$(TokenType::$name,)*];

            /// The type with a number, if there is one.
            ///
            /// ```
            /// # use feel_lexer::TokenType;
            /// assert_eq!(TokenType::from_number(258), Some(TokenType::StartExpression));
            /// assert_eq!(TokenType::from_number(308), None);
            /// ```
            pub fn from_number(number: u32) -> Option<TokenType> {
                match number {
                    $($number => Some(TokenType::$name),)*
                    _ => None,
                }
            }
        }
    };
}

token_types! {
    /// The end of the text; also an unfinished string or comment. Ends a run.
    YyEof = 0,
    /// Given for a start type that is none. Ends a run.
    YyError = 256,
    /// No token begins here. Ends a run.
    YyUndef = 257,
    /// Start: an expression.
    StartExpression = 258,
    /// Start: a boxed expression.
    StartBoxedExpression = 259,
    /// Start: a textual expression.
    StartTextualExpression = 260,
    /// Start: textual expressions.
    StartTextualExpressions = 261,
    /// Start: unary tests.
    StartUnaryTests = 262,
    /// Start: a simple expression.
    StartSimpleExpression = 263,
    /// Start: simple expressions.
    StartSimpleExpressions = 264,
    /// Start: a simple value.
    StartSimpleValue = 265,
    /// Start: a range literal.
    StartRangeLiteral = 266,
    /// `@`
    At = 267,
    /// `not`, under `unary_tests`
    Not = 268,
    /// `:`
    Colon = 269,
    /// `,`
    Comma = 270,
    /// `every`
    Every = 271,
    /// `for`
    For = 272,
    /// `{`
    LeftBrace = 273,
    /// `null`
    Null = 274,
    /// `->`
    RightArrow = 275,
    /// `of`
    Of = 276,
    /// `list`, before `<`
    List = 277,
    /// `range`, before `<`
    Range = 278,
    /// `context`, before `<`
    Context = 279,
    /// `then`
    Then = 280,
    /// `function`, before `(` or `<`
    Function = 281,
    /// `external`
    External = 282,
    /// `if`
    If = 283,
    /// `}`
    RightBrace = 284,
    /// `return`
    Return = 285,
    /// `some`
    Some = 286,
    /// A number.
    Numeric = 287,
    /// A string.
    String = 288,
    /// `true` or `false`
    Boolean = 289,
    /// `satisfies`
    Satisfies = 290,
    /// `else`
    Else = 291,
    /// `or`
    Or = 292,
    /// `and`
    And = 293,
    /// `=`
    Eq = 294,
    /// `!=`
    Ne = 295,
    /// `<`
    Lt = 296,
    /// `<=`
    Le = 297,
    /// `>`
    Gt = 298,
    /// `>=`
    Ge = 299,
    /// `between`
    Between = 300,
    /// `and`, under `between`
    BetweenAnd = 301,
    /// `in`
    In = 302,
    /// `-`
    Minus = 303,
    /// `+`
    Plus = 304,
    /// `*`
    Mul = 305,
    /// `/`
    Div = 306,
    /// `**`
    Exp = 307,
    /// `instance`
    Instance = 309,
    /// A name.
    Name = 310,
    /// A temporal name before `(`, such as `date and time`.
    NameDateTime = 311,
    /// The name of a built-in type, under `type_name`.
    BuiltInTypeName = 312,
    /// `(`
    LeftParen = 313,
    /// `)`
    RightParen = 314,
    /// `[`
    LeftBracket = 315,
    /// `]`
    RightBracket = 316,
    /// `..`
    Ellipsis = 317,
    /// `.`
    Dot = 318,
}

impl TokenType {
    /// Whether it is one of the nine that a run may start with.
    ///
    /// ```
    /// # use feel_lexer::TokenType;
    /// assert!(TokenType::StartUnaryTests.is_start());
    /// assert!(!TokenType::Name.is_start());
    /// ```
    pub fn is_start(self) -> bool {
        (TokenType::StartExpression..=TokenType::StartRangeLiteral).contains(&self)
    }

    /// Whether a run ends with it.
    ///
    /// ```
    /// # use feel_lexer::TokenType;
    /// assert!(TokenType::YyEof.ends_run());
    /// assert!(!TokenType::Name.ends_run());
    /// ```
    pub fn ends_run(self) -> bool {
        self <= TokenType::YyUndef
    }
}

impl fmt::Display for TokenType {
    fn fmt(&self, f: &mut fmt::Formatter<'_>) -> fmt::Result {
        fmt::Debug::fmt(self, f)
    }
}
