//! Every refusal that a call of the public types can give: number, place, carry and message.
//!
//! 9 is not among them: all memory is the types' own. src/calls/tests.rs shows it, and what else a
//! host of the C functions can cause.

use feel_lexer::{Context, Flags, Lexer, Record, Refusal, Scope, Text, TokenType, Workspace};

fn text(string: &str) -> Text {
    string.parse().unwrap()
}

/// The first token of a text, under flags.
fn first(string: &str, flags: Flags) -> Option<Refusal> {
    let (scope, mut work) = (Scope::new(), Workspace::new());
    let start = TokenType::StartExpression;
    let record = Record::run(text(string), start, flags, &scope, &mut work).unwrap();
    let refused = record.item(1).unwrap().read.err();

    // The token call gives the same and leaves the lexer at the place.
    let mut lexer = Lexer::new(start);
    if flags.till_in {
        lexer.set_till_in();
    }
    lexer.set_unary_tests();
    let opened = text(string);
    lexer.next_token(&opened, &scope, &mut work).unwrap();
    assert_eq!(lexer.next_token(&opened, &scope, &mut work).err(), refused);
    assert_eq!(lexer.position(), record.item(1).unwrap().position);
    assert_eq!(lexer.flags(), flags);
    refused
}

fn is(refusal: Option<Refusal>, numbers: (u32, usize, Option<u32>), message: &str) {
    let refusal = refusal.expect("a refusal");
    let got = (refusal.number(), refusal.place(), refusal.carry());
    assert_eq!(got, numbers);
    assert_eq!(refusal.to_string(), message);
}

const PLAIN: Flags = Flags {
    unary_tests: false,
    between: false,
    type_name: false,
    till_in: false,
    after_dot: false,
};

#[test]
fn text_too_long_is_1() {
    let message = "the text has more than 16,384 characters";
    assert_eq!(Text::open(&[b'1'; 16_384]).unwrap().len(), 16_384);
    is(Text::open(&[b'1'; 16_385]).err(), (1, 0, None), message);
    is(Text::open(&[0xFF; 65_537]).err(), (1, 0, None), message);
}

#[test]
fn edited_text_too_long_is_1() {
    let (scope, mut work) = (Scope::new(), Workspace::new());
    let long = Text::open(&[b'+'; 16_384]).unwrap();
    let start = TokenType::StartExpression;
    let mut record = Record::run(long, start, PLAIN, &scope, &mut work).unwrap();
    assert_eq!(record.len(), 16_386);
    let before = record.clone();
    let refused = record.repair(5..5, "1", &scope, &mut work).err();
    is(
        refused,
        (1, 0, None),
        "the text has more than 16,384 characters",
    );
    let refused = record.repair(5..6, &"é".repeat(100_000), &scope, &mut work);
    assert_eq!(refused, Err(Refusal::TooLong));
    assert_eq!(record, before);
    record.repair(5..6, "1", &scope, &mut work).unwrap();
    assert_eq!(record.text().len(), 16_384);
}

#[test]
fn bad_utf8_is_2() {
    let message = "no well-formed UTF-8 sequence begins at byte 3";
    is(Text::open(b"ab \xE2\x28").err(), (2, 3, None), message);
}

#[test]
fn missing_hex_digit_is_3() {
    let message = "a hexadecimal digit is due at position 5, but \" (U+0022) stands there";
    is(first(r#""\u12""#, PLAIN), (3, 5, Some(0x22)), message);
    let message = "a hexadecimal digit is due at position 3, but U+000A stands there";
    is(first("\"\\U\n", PLAIN), (3, 3, Some(0x0A)), message);
}

#[test]
fn end_at_hex_digit_is_4() {
    let message = "the text ends at position 4, where a hexadecimal digit is due";
    is(first(r#""\u1"#, PLAIN), (4, 4, None), message);
}

#[test]
fn escape_of_no_character_is_5() {
    let message = "the escape that ends at position 7 has the value DC00, which is no character";
    is(first(r#""\uDC00""#, PLAIN), (5, 7, Some(0xDC00)), message);
    let message = "the escape that ends at position 9 has the value 110000, which is no character";
    is(
        first(r#""\U110000""#, PLAIN),
        (5, 9, Some(0x11_0000)),
        message,
    );
}

#[test]
fn wrong_second_half_is_6() {
    let message = "the escape that ends at position 13 has the value 0041, but a pair's second half is due, DC00 to DFFF";
    is(
        first(r#""\uD83D\u0041""#, PLAIN),
        (6, 13, Some(0x41)),
        message,
    );
}

#[test]
fn missing_second_half_is_7() {
    let message = "the text ends behind position 7, where a pair's second half is due";
    is(first(r#""\uD83D""#, PLAIN), (7, 7, None), message);
}

#[test]
fn name_that_starts_with_in_is_8() {
    let till_in = Flags {
        till_in: true,
        ..PLAIN
    };
    let message = "a name is due at position 2, but `in` stands there";
    is(first("  in+", till_in), (8, 2, None), message);
}

#[test]
fn broken_names_are_10() {
    let message = "a name has more than 128 characters, or an entry lies deeper than 7";
    let mut scope = Scope::new();
    let name = "é".repeat(128);
    scope.set_entry_name(&name).unwrap();
    let long = name + "x";
    is(scope.set_entry_name(&long).err(), (10, 0, None), message);
    is(scope.add_parsed_name(&long).err(), (10, 0, None), message);
    let context = Context::new().variable(&long);
    is(scope.push(&context).err(), (10, 0, None), message);
    let refused = scope.set_context(&long, &Context::new()).err();
    is(refused, (10, 0, None), message);
    assert_eq!(
        (scope.contexts(), scope.entries(), scope.parsed()),
        (1, 1, 0)
    );
}

#[test]
fn entries_too_deep_are_10() {
    // Depth 0 to 7: eight names below each other.
    let mut nested = Context::new().variable("x");
    for _ in 0..7 {
        nested = Context::new().context("c", &nested);
    }
    let mut scope = Scope::new();
    scope.push(&nested).unwrap();
    assert_eq!(scope.entries(), 8);
    let deeper = Context::new().context("c", &nested);
    assert_eq!(scope.push(&deeper), Err(Refusal::BrokenScope));
    assert_eq!(scope.set_context("d", &nested), Err(Refusal::BrokenScope));
    assert_eq!((scope.contexts(), scope.entries()), (2, 8));
}

#[test]
fn scopes_over_a_limit_are_11() {
    let message = "the scope would have more than 32 contexts, 512 entries or 256 parsed names";
    let mut scope = Scope::new();
    for i in 0..Scope::MAX_ENTRIES {
        scope.set_entry_name(&format!("v{i}")).unwrap();
    }
    is(scope.set_entry_name("w").err(), (11, 0, None), message);
    scope.set_entry_name("v7").unwrap();
    for i in 0..Scope::MAX_PARSED {
        scope.add_parsed_name(&format!("p{i}")).unwrap();
    }
    is(scope.add_parsed_name("q").err(), (11, 0, None), message);
    scope.add_parsed_name("p7").unwrap();
    for _ in 1..Scope::MAX_CONTEXTS {
        scope.push_default().unwrap();
    }
    is(scope.push_default().err(), (11, 0, None), message);
    is(scope.push(&Context::new()).err(), (11, 0, None), message);
    let counts = (scope.contexts(), scope.entries(), scope.parsed());
    assert_eq!(counts, (32, 512, 256));
}

#[test]
fn position_beyond_the_text_is_12() {
    let (scope, mut work) = (Scope::new(), Workspace::new());
    let mut lexer = Lexer::new(TokenType::StartExpression);
    let long = text("1234");
    lexer.next_token(&long, &scope, &mut work).unwrap();
    lexer.next_token(&long, &scope, &mut work).unwrap();
    let refused = lexer.next_token(&text("12"), &scope, &mut work).err();
    let message = "the lexer's position 4 lies beyond the text";
    is(refused, (12, 4, None), message);
    assert_eq!(lexer.position(), 4);
}

#[test]
fn edits_outside_the_text_are_13() {
    let (scope, mut work) = (Scope::new(), Workspace::new());
    let start = TokenType::StartExpression;
    let mut record = Record::run(text("1 + 2"), start, PLAIN, &scope, &mut work).unwrap();
    let before = record.clone();
    let message = "the edit does not lie within the text";
    let refused = record.repair(4..6, "", &scope, &mut work).err();
    is(refused, (13, 0, None), message);
    #[allow(clippy::reversed_empty_ranges)]
    let refused = record.repair(3..2, "", &scope, &mut work).err();
    is(refused, (13, 0, None), message);
    assert_eq!(record, before);
}
