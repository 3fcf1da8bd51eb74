//! 01's cases, through the safe types.

use feel_lexer::{Context, Flags, Record, Scope, Text, TokenType, Value, Workspace};

/// The record of a rule, with names in scope.
fn run(rule: &str, names: &[&str], flags: Flags) -> Record {
    let mut scope = Scope::new();
    for name in names {
        scope.set_entry_name(name).unwrap();
    }
    let text: Text = rule.parse().unwrap();
    let start = TokenType::StartExpression;
    Record::run(text, start, flags, &scope, &mut Workspace::new()).unwrap()
}

/// The first name and the position behind it.
fn first_name(rule: &str, names: &[&str]) -> (String, usize) {
    let record = run(rule, names, Flags::default());
    let item = record.item(1).unwrap();
    assert_eq!(item.token_type(), Some(TokenType::Name));
    (item.text().unwrap().to_string(), item.position)
}

fn name(value: &str, position: usize) -> (String, usize) {
    (value.to_string(), position)
}

#[test]
fn row_width_is_cut_by_the_scope() {
    let rule = "row width-gutter";
    assert_eq!(first_name(rule, &["row width"]), name("row width", 9));
    let both = ["row width", "row width-gutter"];
    assert_eq!(first_name(rule, &both), name("row width-gutter", 16));
    assert_eq!(first_name(rule, &[]), name("row width-gutter", 16));
}

#[test]
fn names_are_cut_as_flattened() {
    assert_eq!(first_name("a..b", &["a..b", "a"]), name("a", 1));
    assert_eq!(first_name("a // b", &[]), name("a//b", 6));
}

#[test]
fn names_come_from_every_context_and_from_parsed_names() {
    let mut scope = Scope::new();
    let row = Context::new().variable("row width");
    scope.push(&Context::new().context("page", &row)).unwrap();
    scope.push_default().unwrap();
    scope.add_parsed_name("gutter").unwrap();
    let mut work = Workspace::new();
    let mut names = |scope: &Scope| -> Vec<String> {
        let text: Text = "row width-gutter-x".parse().unwrap();
        let start = TokenType::StartExpression;
        let record = Record::run(text, start, Flags::default(), scope, &mut work).unwrap();
        let texts = record.items().filter_map(|item| item.text());
        texts.map(|text| text.to_string()).collect()
    };
    assert_eq!(names(&scope), ["row width", "gutter", "x"]);
    scope.pop();
    scope.pop();
    assert_eq!(names(&scope), ["row width-gutter-x"]);
}

#[test]
fn numbers_have_their_digits() {
    let digits = |rule: &str| -> (String, usize) {
        let record = run(rule, &[], Flags::default());
        let item = record.item(1).unwrap();
        match item.value() {
            Value::Number {
                before,
                after,
                negative_exponent,
                exponent,
            } => {
                let sign = if negative_exponent { '-' } else { '+' };
                let digits = format!("{before}.{after}e{sign}{exponent}");
                (digits, item.position)
            }
            other => panic!("{other:?} is no number"),
        }
    };
    assert_eq!(digits(".5"), name("0.5e+", 2));
    assert_eq!(digits("1e"), name("1.e+", 2));
    assert_eq!(digits("1..5"), name("1.e+", 1));
    assert_eq!(digits("12.50E-07"), name("12.50e-07", 9));
}

#[test]
fn strings_have_their_escapes_replaced() {
    let record = run(r#""\uD83D\uDE4F""#, &[], Flags::default());
    let item = record.item(1).unwrap();
    assert_eq!(item.token_type(), Some(TokenType::String));
    assert_eq!(item.text().unwrap(), "\u{1F64F}");
    assert_eq!(item.position, 14);
}

#[test]
fn till_in_cuts_before_in() {
    let till_in = Flags {
        till_in: true,
        ..Flags::default()
    };
    let record = run("x in y", &[], till_in);
    let item = record.item(1).unwrap();
    assert_eq!(item.text().unwrap(), "x");
    assert_eq!((item.position, item.flags), (1, Flags::default()));
}

#[test]
fn unfinished_texts_end() {
    for (rule, position) in [("/*/", 3), ("", 0), ("\"", 1)] {
        let record = run(rule, &[], Flags::default());
        let item = record.item(1).unwrap();
        assert_eq!(item.token_type(), Some(TokenType::YyEof));
        assert_eq!(item.position, position);
    }
}

#[test]
fn a_type_that_is_no_start_gives_yy_error() {
    let (scope, mut work) = (Scope::new(), Workspace::new());
    let flags = Flags {
        unary_tests: true,
        ..Flags::default()
    };
    let text: Text = "1".parse().unwrap();
    let mut record = Record::run(text, TokenType::Name, flags, &scope, &mut work).unwrap();
    let only = record.item(0).unwrap();
    assert_eq!(only.token_type(), Some(TokenType::YyError));
    assert_eq!((record.len(), only.flags), (1, flags));
    // Repair keeps it.
    record.repair(0..1, "22", &scope, &mut work).unwrap();
    assert_eq!((record.len(), record.text().len()), (1, 2));
}

#[test]
fn records_print_as_the_record_program_does() {
    let record = run("if row width-gutter", &["row width"], Flags::default());
    let lines = "0 258 0 0 -\n\
                 1 283 2 12 -\n\
                 2 310 12 20 =72,6F,77,20,77,69,64,74,68\n\
                 3 303 13 24 -\n\
                 4 310 19 25 =67,75,74,74,65,72\n\
                 5 0 19 31 -\n";
    assert_eq!(record.to_string(), lines);
    let lines = run(r#"true "\u12"#, &[], Flags::default()).to_string();
    assert_eq!(lines, "0 258 0 0 -\n1 289 4 12 true\n2 R4 10 17 -\n");
}
