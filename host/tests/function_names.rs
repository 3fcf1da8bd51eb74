//! The names of the built-in functions: where they stand in a rule, and what is none.

use feel_lexer::{Flags, Record, Scope, Text, TokenType, Workspace, is_built_in_function_name};

#[test]
fn a_name_is_spelled_exactly_so() {
    for name in ["is", "abs", "date and time", "years and months duration"] {
        assert!(is_built_in_function_name(name));
        for off in [
            format!("{name} "),
            format!(" {name}"),
            format!("{name},"),
            format!("{name}s"),
            name.to_uppercase(),
            name[1..].to_string(),
            name[..name.len() - 1].to_string(),
        ] {
            assert!(!is_built_in_function_name(&off), "{off}");
        }
    }
    assert!(!is_built_in_function_name(""));
}

/// A cell is compared as a whole: U+0161 is no `a`.
#[test]
fn no_character_is_cut_to_a_byte() {
    assert!(is_built_in_function_name("any"));
    assert!(!is_built_in_function_name("\u{161}ny"));
}

#[test]
fn names_that_a_run_has_read_are_told() {
    let text: Text = "row count(string length(x), date(y))".parse().unwrap();
    let (scope, start) = (Scope::new(), TokenType::StartExpression);
    let mut work = Workspace::new();
    let record = Record::run(text, start, Flags::default(), &scope, &mut work).unwrap();
    let names = record.items().filter_map(|item| item.text());
    let told: Vec<(String, bool)> = names
        .map(|name| name.to_string())
        .map(|name| (name.clone(), is_built_in_function_name(&name)))
        .collect();
    let expected = [
        ("row count", false),
        ("string length", true),
        ("x", false),
        ("date", true),
        ("y", false),
    ];
    assert_eq!(told, expected.map(|(name, told)| (name.to_string(), told)));
}
