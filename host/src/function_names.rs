//! The names of the built-in functions.

use crate::calls;

/// Whether a name is that of a built-in function of FEEL, spelled exactly so.
///
/// A lexer reads such a name like any other: what is called is the parser's business. An editor may
/// ask this of a name before `(`.
///
/// ```
/// use feel_lexer::is_built_in_function_name;
///
/// assert!(is_built_in_function_name("string length"));
/// assert!(!is_built_in_function_name("string  length"));
/// assert!(!is_built_in_function_name("String length"));
/// ```
pub fn is_built_in_function_name(name: &str) -> bool {
    let cells: Vec<u32> = name.chars().map(u32::from).collect();
    calls::is_built_in_function_name(&cells)
}
