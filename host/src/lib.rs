//! Safe Rust over a proved FEEL lexer.
//!
//! FEEL is the expression language of DMN. Its names may hold spaces and symbols, so what a rule's
//! tokens are depends on the names in scope. The lexer is proved against its definitions; this crate
//! only lends it memory, and no call of this crate can hand it a slice that is not what it says.
//!
//! A [`Record`] has all tokens of a text. After an edit it is repaired: what the edit cannot have
//! changed is kept, and the record is exactly that of a run over the new text.
//!
//! ```
//! use feel_lexer::{Flags, Record, Refusal, Scope, Text, TokenType, Workspace};
//!
//! # fn main() -> Result<(), Refusal> {
//! let mut scope = Scope::new();
//! scope.set_entry_name("row width")?;
//! let mut work = Workspace::new();
//!
//! let text = Text::open(b"if row width-gutter > 10 then 1 else 2")?;
//! let mut record = Record::run(text, TokenType::StartExpression, Flags::default(), &scope, &mut work)?;
//! let types: Vec<TokenType> = record.items().flat_map(|item| item.token_type()).collect();
//! use TokenType::*;
//! assert_eq!(
//!     types,
//!     [StartExpression, If, Name, Minus, Name, Gt, Numeric, Then, Numeric, Else, Numeric, YyEof]
//! );
//!
//! // The author types: `10` becomes `12.5`.
//! let repaired = record.repair(22..24, "12.5", &scope, &mut work)?;
//! assert_eq!((repaired.kept, repaired.fresh, repaired.moved), (3, 4, 5));
//! assert_eq!(record.text().to_string(), "if row width-gutter > 12.5 then 1 else 2");
//! # Ok(())
//! # }
//! ```
//!
//! Positions and ranges count characters, not bytes.
#![deny(missing_docs)]
#![deny(unsafe_code)]

mod calls;
mod characters;
mod context;
mod flags;
mod function_names;
mod items;
mod lexer;
mod record;
mod refusal;
mod repair;
mod scope;
pub mod sys;
mod text;
mod token;
mod token_type;
mod workspace;

pub use characters::Characters;
pub use context::Context;
pub use flags::Flags;
pub use function_names::is_built_in_function_name;
pub use items::{Item, Items};
pub use lexer::Lexer;
pub use record::Record;
pub use refusal::Refusal;
pub use repair::Repaired;
pub use scope::Scope;
pub use text::Text;
pub use token::{Token, Value};
pub use token_type::TokenType;
pub use workspace::Workspace;
