//! Cases for each rule by name, and all short texts over small alphabets.
//! The part of a name before its first `-` is the rule.

use crate::case::{AFTER_DOT, BETWEEN, Case, Entry, ScopeCall, TILL_IN, TYPE_NAME, UNARY_TESTS};

/// Keywords, and `item`, which is nearly one.
pub const KEYWORDS: [&str; 24] = [
    "satisfies", "external", "function", "instance", "between", "context", "return", "every", "false", "range", "null", "else", "list", "some", "then", "true",
    "and", "for", "not", "if", "in", "of", "or", "item",
];

pub const PROPERTIES: [&str; 19] = [
    "end", "end included", "start", "start included", "year", "years", "month", "months", "day", "days", "weekday", "hour", "hours", "minute", "minutes",
    "second", "seconds", "time offset", "timezone",
];

pub const TYPES: [&str; 10] =
    ["Any", "Null", "boolean", "number", "string", "date", "date and time", "time", "years and months duration", "days and time duration"];

pub const TEMPORALS: [&str; 4] = ["date", "time", "date and time", "duration"];

pub const SYMBOLS: &str = "./-'+*";

pub const WHITESPACE: [char; 28] = [
    '\n', '\u{B}', '\u{C}', '\r', '\t', ' ', '\u{85}', '\u{A0}', '\u{1680}', '\u{180E}', '\u{2000}', '\u{2001}', '\u{2002}', '\u{2003}', '\u{2004}',
    '\u{2005}', '\u{2006}', '\u{2007}', '\u{2008}', '\u{2009}', '\u{200A}', '\u{200B}', '\u{2028}', '\u{2029}', '\u{202F}', '\u{205F}', '\u{3000}', '\u{FEFF}',
];

/// Where the ranges of the classes begin and end.
const ENDS_OF_RANGES: [u32; 58] = [
    0x0, 0x09, 0x0D, 0x20, 0x30, 0x39, 0x3F, 0x41, 0x5A, 0x5F, 0x61, 0x7A, 0x85, 0xA0, 0xB7, 0xC0, 0xD6, 0xD8, 0xF6, 0xF8, 0x2FF, 0x300, 0x36F, 0x370, 0x37D,
    0x37F, 0x1680, 0x180E, 0x1FFF, 0x2000, 0x200A, 0x200B, 0x200D, 0x2028, 0x2029, 0x202F, 0x203F, 0x2040, 0x205F, 0x2070, 0x218F, 0x2C00, 0x2FEF, 0x3000,
    0x3001, 0xD7FF, 0xE000, 0xF900, 0xFDCF, 0xFDF0, 0xFEFF, 0xFFFD, 0x10000, 0xEFFFF, 0xF0000, 0xFFFFF, 0x100000, 0x10FFFF,
];

/// Characters at the ends of ranges and beside them.
pub fn edges() -> Vec<char> {
    let mut edges: Vec<char> = ENDS_OF_RANGES.iter().flat_map(|c| [c.wrapping_sub(1), *c, c + 1]).filter_map(char::from_u32).collect();
    edges.sort();
    edges.dedup();
    edges
}

/// All cases of all rules.
pub fn rules() -> Vec<Case> {
    let rules = [
        starts, words, keywords, lookaheads, whitespace, comments, numbers, escapes, hexadecimals, pairs, broken_strings, items, till_in, colons, properties,
        types, temporals, symbols, classes, flags, scopes, flattenings, lengths, tried, differences,
    ];
    rules.iter().flat_map(|rule| rule()).collect()
}

/// Texts of a rule, numbered.
fn numbered<T: Into<String>>(rule: &str, texts: impl IntoIterator<Item = T>) -> Vec<Case> {
    texts.into_iter().enumerate().map(|(i, text)| Case::new(format!("{rule}-{i}"), text)).collect()
}

/// Each front of a text, with each of some endings.
fn broken_off(whole: &str, endings: &[&str]) -> Vec<String> {
    let fronts = whole.char_indices().skip(1).map(|(end, _)| &whole[..end]).chain([whole]);
    fronts.flat_map(|front| endings.iter().map(move |ending| format!("{front}{ending}"))).collect()
}

/// The nine start types, and others, which give YyError.
fn starts() -> Vec<Case> {
    let start = |start| Case::new(format!("start-{start}"), "1").with_start(start);
    (258..=266).map(start).chain([0, 256, 257, 267, 310, 318].map(start).map(|case| case.with_flags(31))).collect()
}

/// Keywords before a space and `<`, which all of them take.
fn words() -> Vec<Case> {
    KEYWORDS.iter().map(|word| Case::new(format!("word-{word}"), format!("{word} <x")).with_flags(UNARY_TESTS)).collect()
}

/// Keywords with and without what must follow.
fn keywords() -> Vec<Case> {
    let behind = [
        "", " ", "\n", "\u{A0}", "\u{1680}", "\u{180E}", "\u{FEFF}", "\u{200B}", "(", "<", "=", "!", ">", "+", "-", "*", "/", "%", ".", ",", ")", "[", "]",
        "}", "{", ":", "\"", "'", "x", "1", "_", "//", "/*",
    ];
    let mut cases = vec![];
    for word in KEYWORDS {
        cases.push(Case::new(format!("keyword-{word}"), word));
        for (i, behind) in behind.iter().enumerate() {
            let case = Case::new(format!("keyword-{word}-{i}"), format!("{word}{behind}x"));
            if ["and", "not"].contains(&word) {
                cases.push(Case { name: format!("keyword-{word}-{i}-plain"), ..case.clone() });
            }
            cases.push(case.with_flags(UNARY_TESTS | BETWEEN));
        }
    }
    cases
}

/// Keywords that look beyond whitespace, which may go on behind the window.
fn lookaheads() -> Vec<Case> {
    let mut texts = vec![];
    for word in ["function", "context", "range", "list"] {
        for blanks in [0, 1, 2, 4, 5, 7, 8, 9, 13, 20] {
            texts.extend(["<", "(", "x", ""].map(|next| format!("{word}{}{next}", " ".repeat(blanks))));
        }
        texts.extend([format!("{word}\u{1680}\u{3000}<"), format!("{word}/**/<")]);
    }
    numbered("ahead", texts)
}

/// Each whitespace character in each place where it may matter.
fn whitespace() -> Vec<Case> {
    let places =
        ["~a", "a~b", "a~", "a+~b", "a ~b", "a~~b", "1~2", "in~x", "true~x", "a~:", "date~(", "\"a~b\"", "//a~b", "/*~*/~1", "a~in~b", "a~.~b", "item~x"];
    let case = |w: char, i: usize| {
        let case = Case::new(format!("white-{:X}-{i}", w as u32), places[i].replace('~', &w.to_string())).with_names(&["a b", "a . b"]);
        if places[i].contains("in") { case.with_flags(TILL_IN) } else { case }
    };
    WHITESPACE.iter().flat_map(|w| (0..places.len()).map(move |i| case(*w, i))).collect()
}

fn comments() -> Vec<Case> {
    let texts = [
        "/**/1", "/*/", "/*/1", "/*", "/* *", "/***/1", "/****/1", "/* * / */1", "//", "//a", "//a\n1", "//a\r1", "//a\u{85}1", "//a\u{2028}1", "/*a*/ /*b*/1",
        "/*//*/1", "// /*\n1", "/ /1", "/ *1", "1//2\n3", "1/*2*/3", "1 /2", "a//b\n1", "a/*b*/", "/*abcdefghijklmnopq*/1", "//abcdefghijklmnopq\n1",
        "/*abcdefghijklmnopq", "//abcdefghijklmnopq", "  //\n  /* */\n\t1", "/*\n*/\n//\n", "(/**/)//", "/**/", "//\n", "/**//**/", "//\n//\n",
        "/*\u{FEFF}*/\u{FEFF}1",
    ];
    numbered("comment", texts)
}

/// A number broken off at every place, with each kind of character behind it.
fn numbers() -> Vec<Case> {
    let texts = [
        ".5", "1e", "1..5", "1.", "1.e5", "1.5.5", ".5.5", "1e5.5", "00.00", "1E+", "1e-x", "1e+-5", "1ee5", "1.5e5e5", "1a", ".", "..5", ".e5", "1,5", "-1",
        "+1", "1-1", "1.-1", "007", "0x1", "1_000", "\u{661}",
    ];
    let endings = ["", ".", "e", "+", "x", " ", "\"", ".."];
    let broken = ["123456789012.345678e+901234", "12.5E-6"].map(|whole| broken_off(whole, &endings)).concat();
    numbered("number", texts.map(String::from).into_iter().chain(broken))
}

/// Every character of ASCII behind a backslash, and some others.
fn escapes() -> Vec<Case> {
    let ascii = (' '..='~').map(|c| Case::new(format!("escape-{:X}", c as u32), format!("\"a\\{c}b\" 1")));
    let others = ["\"\\\n\"", "\"\\", "\"\\\\", "\"\\\\\"", "\"\\\"", "\"\\é\"", "\"\\🙏\"", "\"'\"", "\"\t\"", "\"\u{85}\u{2028}\"", "\"\u{0}\""];
    ascii.chain(numbered("escape-other", others)).collect()
}

/// Escapes of four and six digits: broken off at each place, with each kind of character in a digit's place, and values at each edge.
fn hexadecimals() -> Vec<Case> {
    let mut texts = ["\"\\u00e9", "\"\\U01F64F", "\"abcdefghijklm\\u00E9"].map(|whole| broken_off(whole, &["", "\"", "g\"", "'", "\n", "é"])).concat();
    let values = [
        0x0, 0x1, 0x22, 0x5C, 0x7F, 0x80, 0x7FF, 0x800, 0xFFF, 0x1000, 0xD7FF, 0xD800, 0xDBFF, 0xDC00, 0xDFFF, 0xE000, 0xFFFD, 0xFFFF, 0x10000, 0x1F64F,
        0xFFFFF, 0x100000, 0x10FFFF, 0x110000, 0xFFFFFF,
    ];
    texts.extend(values.map(|value| format!("\"\\U{value:06X}\"")));
    texts.extend(values.iter().filter(|value| **value < 0x10000).map(|value| format!("\"\\u{value:04x}\"")));
    numbered("hex", texts)
}

/// Pairs: broken off at each place, halves in and out of range, four and six digits, and what stands between the halves.
fn pairs() -> Vec<Case> {
    let wholes = ["\"\\uD83D\\uDC00\"1", "\"\\U00D83D\\U00DC00\"1", "\"abcdefghijklm\\uD83D\\uDC00\"1"];
    let mut texts = wholes.map(|whole| broken_off(whole, &["", "\"", "g", "\n"])).concat();
    for first in ["D800", "D83D", "DBFF"] {
        for second in ["0000", "DBFF", "DC00", "DC3F", "DC40", "DC7F", "DC80", "DCBF", "DCC0", "DE4F", "DFFF", "E000", "FFFF"] {
            texts.push(format!("\"\\u{first}\\u{second}\""));
        }
        for second in ["00DC00", "01DC00", "00E000", "FFFFFF", "00dfbf"] {
            texts.extend([format!("\"\\u{first}\\U{second}\""), format!("\"\\U00{first}xU{second}\"")]);
        }
    }
    let between = ["xx", "xU00", "\\\\", "\"\"", "\n\n", "uu", "Uu", "\u{0}u", "é漢", "\\", "x", ""];
    texts.extend(between.map(|between| format!("\"\\uD83D{between}DC00\"")));
    numbered("pair", texts)
}

/// A string broken off at each place, with nothing, a vertical space or another line end there.
fn broken_strings() -> Vec<Case> {
    let mut texts = broken_off("\"ab\\n\\u00e9\\c'\\uD83D\\uDC00 d\\\\\\\"e\" x", &["", "\n", "\u{B}", "\u{C}", "\r", "\u{2029}z"]);
    texts.extend(["\"\"", "\"\"\"", "\"a\"\"b\"", "\"a\" \"b", "\"//\"", "\"/*\"*/"].map(String::from));
    numbered("string", texts)
}

/// Each text with no flags and an empty scope, and once more with these.
fn twice(rule: &str, texts: &[&str], flags: u32, names: &[&str]) -> Vec<Case> {
    let flagged = |(i, text): (usize, &&str)| Case::new(format!("{rule}-{i}-flagged"), *text).with_flags(flags).with_names(names);
    numbered(rule, texts.iter().copied()).into_iter().chain(texts.iter().enumerate().map(flagged)).collect()
}

fn items() -> Vec<Case> {
    let texts = [
        "item", "item ", "item x", "item.x", "item+", "items", "Item", " item", "a item", "item item", "item:", "item :", "item(", "item\u{1680}",
        "item\u{FEFF}", "item\u{1680}x", "item \u{1680}x", "item in x", "item/*", "item//x", "item.item", "/**/item", "item abcdefghijklmnopqrstuvwxyz + 1",
    ];
    twice("item", &texts, 31, &["item x", "item +", "item"])
}

/// `in` as each of the parts, with each kind of parting, under `till_in` and other flags.
fn till_in() -> Vec<Case> {
    let texts = [
        "in+", "in.", "in/", "in-x", "in'x", "in*x", "in", "in ", "in x", "  in+", "/*in*/in+x", "in(", "in:", "x in y", "x  in  y", "x in", "xin y", "x iny",
        "x in\u{1680}y", "x in \u{1680}y", "x\u{1680}in y", "x+\u{1680}in y", "x in y in z", "x in y:", "x :in", "x In y", "x in+y",
        "in+abcdefghijklmnopqrstuvwxyz", "item in x", "x+in.y", "a\u{FEFF} in b", "in\u{1680}x", "in\u{B7}", "1 in x", "x in in y",
    ];
    let mut texts = texts.map(String::from).to_vec();
    for at in 0..4 {
        for parting in ["+", ".", " ", "  \t ", " - "] {
            let mut parts = vec!["abc", "d", "efghijkl"];
            parts.insert(at, "in");
            texts.extend([parts.join(parting), format!("{} : 1", parts.join(parting))]);
        }
    }
    let case = |i: usize, flags: u32| Case::new(format!("till-{i}-{flags}"), &texts[i]).with_flags(flags).with_names(&["abc", "x in y", "abc + in"]);
    (0..texts.len()).flat_map(|i| [TILL_IN, 0, 31].map(|flags| case(i, flags))).collect()
}

fn colons() -> Vec<Case> {
    let texts = [
        "a:", "a :", "a    :", "a b\t:", "a+b :", "a//:", "a:b", "a::", "a b c:", "a+:", "a\u{1680}:", "a \u{1680}:", "date:", "date :", "date and time :1",
        "day:", "a              :", "abcdefghijklmnop:", "true:", "if :", "1:", "\"a\":", "a;", "a ;", "a(:", "item:", "x in y:",
    ];
    twice("colon", &texts, TYPE_NAME | AFTER_DOT, &["a", "a b", "date"])
}

/// Each property under `after_dot`, without it, with more behind it, and beside scope names that are as long, longer or shorter.
fn properties() -> Vec<Case> {
    let cases = |property: &str| {
        let case = |kind: &str, behind: &str| Case::new(format!("property-{}-{kind}", property.replace(' ', "_")), format!("{property}{behind}"));
        let flagged = |kind: &str, behind: &str| case(kind, behind).with_flags(AFTER_DOT);
        [
            flagged("alone", ""),
            case("plain", " x"),
            flagged("more", "  included x + 1"),
            flagged("tie", " + 1").with_names(&[property]),
            flagged("longer", " x+1").with_names(&[&format!("{property} x")]),
            flagged("shorter", " x+1").with_names(&["end", "start", "time"]),
            flagged("colon", " : 1"),
        ]
    };
    PROPERTIES.into_iter().flat_map(cases).collect()
}

/// Each type name under `type_name`, without it, before `(`, and beside a scope name.
fn types() -> Vec<Case> {
    let cases = |name: &str| {
        let case = |kind: &str, text: String| Case::new(format!("type-{}-{kind}", name.replace(' ', "_")), text).with_flags(TYPE_NAME);
        [
            case("alone", name.into()),
            case("plain", name.into()).with_flags(0),
            case("spaced", format!("{}  >", name.replace(' ', "  "))),
            case("call", format!("{name} (")),
            case("more", format!("{name} x")),
            case("symbol", format!("{name}+")),
            case("tie", format!("{name}, {name}")).with_names(&[name]),
            case("trimmed", format!("{name}-\u{1680}")),
        ]
    };
    TYPES.into_iter().flat_map(cases).collect()
}

/// Each temporal name with and without `(`, and beside a scope name.
fn temporals() -> Vec<Case> {
    let cases = |name: &str| {
        let case = |kind: &str, behind: &str| Case::new(format!("temporal-{}-{kind}", name.replace(' ', "_")), format!("{name}{behind}"));
        [
            case("call", "(\"x\")"),
            case("spaced", "          ("),
            case("alone", ""),
            case("more", " x("),
            case("symbol", "+("),
            case("tie", "(").with_names(&[name]),
            case("type", "(").with_flags(TYPE_NAME),
            case("bracket", "["),
        ]
    };
    TEMPORALS.into_iter().flat_map(cases).collect()
}

/// Each character of ASCII alone, and each pair of those that are neither letters nor digits.
fn symbols() -> Vec<Case> {
    let marks: Vec<char> = ('!'..='~').filter(char::is_ascii_punctuation).collect();
    let pair = |a: char, b: char| Case::new(format!("symbol-{:X}-{:X}", a as u32, b as u32), format!("{a}{b}1"));
    let single = ('\0'..='\x7F').map(|c| Case::new(format!("symbol-{:X}", c as u32), c));
    single.chain(marks.iter().flat_map(|a| marks.iter().map(move |b| pair(*a, *b)))).collect()
}

/// Characters at the edges of classes: first in a token, inside a word, behind a symbol, a blank and a digit, and in a string.
fn classes() -> Vec<Case> {
    let places = ["~", "a~b", "a+~+", "a ~", "1~", "\"~\\~\""];
    let case = |c: char, i: usize| Case::new(format!("class-{:X}-{i}", c as u32), places[i].replace('~', &c.to_string()));
    edges().into_iter().flat_map(|c| (0..places.len()).map(move |i| case(c, i))).collect()
}

/// All flags together, over texts in which each may matter.
fn flags() -> Vec<Case> {
    let texts = ["not(a and b", "a in b day: date(c", "and x", "not and day", "1 date", "\"\\u", "day in date", ""];
    let case = |flags, i: usize| Case::new(format!("flags-{flags}-{i}"), texts[i]).with_flags(flags).with_names(&["b"]);
    (0..32).flat_map(|flags| (0..texts.len()).map(move |i| case(flags, i))).collect()
}

pub fn variable(depth: u32, name: &str) -> Entry {
    Entry { depth, kind: 0, name: name.into() }
}

pub fn context(depth: u32, name: &str) -> Entry {
    Entry { depth, kind: 1, name: name.into() }
}

pub fn named(name: &str) -> ScopeCall {
    ScopeCall::SetEntryName(name.into())
}

pub fn parsed(name: &str) -> ScopeCall {
    ScopeCall::AddParsedName(name.into())
}

/// Parts a context's name from what is below it, so that the flattening has " . " there. The name must end in two symbols.
pub const DOT: &str = "\u{1680}.\u{1680} ";

/// Scopes: nested contexts and their keys, replacing, popping, parsed names, `set_context`.
fn scopes() -> Vec<Case> {
    use ScopeCall::{Pop, Push, SetContext};
    let nested = || vec![context(0, "a++"), variable(1, "y"), context(1, "c--"), variable(2, "d"), variable(0, "z")];
    let deep: Vec<Entry> = (0..7).map(|depth| context(depth, &format!("k{depth}++"))).chain([variable(7, "x")]).collect();
    let scopes = [
        vec![],
        vec![Pop],
        vec![Pop, Pop, named("a")],
        vec![named("a"), named("a b"), named("a b+c")],
        vec![Push(nested())],
        vec![SetContext("a++".into(), nested())],
        vec![Push(deep.clone())],
        vec![SetContext("k++".into(), deep[..7].to_vec()), named("k")],
        vec![named("a"), Push(vec![variable(0, "b")]), Pop],
        vec![named("a"), Push(vec![variable(0, "b")]), parsed("a b"), Pop, Pop],
        vec![Push(vec![context(0, "a"), variable(1, "y"), variable(0, "b"), variable(0, "a")])],
        vec![Push(vec![context(0, "a"), variable(1, "y"), context(1, "y"), variable(2, "d"), variable(1, "b")])],
        vec![Push(vec![context(0, "a"), context(1, "b"), variable(2, "y"), context(0, "a"), variable(1, "d")])],
        vec![Push(vec![context(0, "p"), context(0, "a"), variable(1, "y"), variable(0, "a")])],
        vec![Push(vec![context(0, "p"), context(1, "a"), context(2, "b"), variable(3, "y"), variable(2, "d"), context(1, "a"), variable(2, "z")])],
        vec![SetContext("p".into(), vec![]), SetContext("a".into(), vec![variable(0, "y"), context(0, "b"), variable(1, "d")]), named("a")],
        vec![SetContext("a".into(), vec![variable(0, "y")]), named("a")],
        vec![named("a"), SetContext("a".into(), vec![variable(0, "y")])],
        vec![parsed("a b"), parsed("a b"), parsed("a")],
        vec![named(""), parsed(""), named("a . b"), named("a.b")],
        vec![Push(vec![]), named("y"), Push(vec![]), named("a++ . y")],
    ];
    let chain = |names: &[&str]| names.join(DOT);
    let texts = [
        "a b+c".to_string(),
        "a.y".into(),
        "a . y".into(),
        "y ".into(),
        "d+z".into(),
        "a.b".into(),
        "x ".into(),
        "a++.y".into(),
        chain(&["a++", "y"]),
        chain(&["a++", "c--", "d"]),
        chain(&["a++", "a++", "c--", "d"]),
        chain(&["c--", "d"]),
        chain(&["k0++", "k6++", "x"]),
        chain(&["k0++", "k1++", "k2++", "k3++", "k4++", "k5++", "k6++", "x"]),
        chain(&["k++", "k0++", "k5++", "k6++"]),
    ];
    let case = |i: usize, j: usize| Case::new(format!("scope-{i}-{j}"), &texts[j]).with_scope(scopes[i].clone());
    (0..scopes.len()).flat_map(|i| (0..texts.len()).map(move |j| (i, j))).map(|(i, j)| case(i, j)).collect()
}

/// Names whose value and flattening differ, with one of the spellings in scope.
fn flattenings() -> Vec<Case> {
    let texts = [
        "a..b", "a+", "a++", "a+++", "a+-b", "a . b", "a - b", "a -b", "a- b", "a'b", "a ' b", "a' 'b", "a+\u{1680}", "a\u{1680}+b", "a\u{1680}",
        "a+\u{1680}+b", "a \u{1680}b", "a/b/c", "a*b*c", "a**b", "a-.b", "a.-b", "a+\u{180E}+b", "a+ \u{FEFF} +b", "a b  c", "a+b+c+d", "a.b.c.d", "a. .b",
        "a .b. c", "a//b", "a /*b*/",
    ];
    let case = |i: usize, j: usize| Case::new(format!("flatten-{i}-{j}"), format!("{} ", texts[i])).with_names(&[&spellings(texts[i])[j], "a"]);
    (0..texts.len()).flat_map(|i| (0..4).map(move |j| case(i, j))).collect()
}

/// A piece of text as a name in a scope may be spelled: as it stands, without spaces, with one between all parts, and flattened, nearly.
pub fn spellings(piece: &str) -> [String; 4] {
    let parts: String = piece.chars().map(|c| if SYMBOLS.contains(c) { format!(" {c} ") } else { c.to_string() }).collect();
    let spaced = parts.split_whitespace().collect::<Vec<_>>().join(" ");
    let flattened = SYMBOLS.chars().fold(spaced.clone(), |name, symbol| name.replace(&format!(" {symbol} "), &symbol.to_string()));
    [piece.trim().into(), spaced.replace(' ', ""), spaced, flattened]
}

/// Texts at and around 12, 128 and 16,384 characters, each of one long token or run.
fn lengths() -> Vec<Case> {
    [10, 11, 12, 13, 14, 126, 127, 128, 129, 130, 16_382, 16_383, 16_384].into_iter().flat_map(of_length).collect()
}

/// Texts of so many characters, at least eight, each of one long token or run.
pub fn of_length(n: usize) -> [Case; 14] {
    let texts = [
        ("word", "", "a", ""),
        ("digits", "", "1", ""),
        ("fraction", "1.", "5", ""),
        ("string", "\"", "a", "\""),
        ("open", "\"", "a", ""),
        ("undefined", "\"", "a", "\n"),
        ("blanks", "", " ", ""),
        ("block", "/*", "a", "*/"),
        ("line", "//", "a", ""),
        ("name", "a", " ", "b"),
        ("colon", "a", " ", ":"),
        ("ahead", "list", " ", "<"),
        ("escape", "\"", "a", "\\u12"),
        ("half", "\"", "a", "\\uD83D"),
    ];
    let scope = if n < 1000 { vec![named(&"a".repeat(n.min(128))), named("a b")] } else { vec![] };
    texts.map(|(kind, front, middle, back)| {
        let text = format!("{front}{}{back}", middle.repeat(n - front.len() - back.len()));
        Case::new(format!("length-{n}-{kind}"), text).with_scope(scope.clone())
    })
}

/// The inputs of 01's rules tried.
fn tried() -> Vec<Case> {
    let mut cases = numbered("tried", [".5", "1e", "1..5", "\"\\uD83D\\uDE4F\"", "\"\\uDC00\"", "\"\\uD83D\"", "a // b", "/*/", ""]);
    cases.extend([
        Case::new("tried-in", "in+").with_flags(TILL_IN),
        Case::new("tried-till-in", "x in y").with_flags(TILL_IN),
        Case::new("tried-row", "row width-gutter").with_names(&["row width"]),
        Case::new("tried-row-longer", "row width-gutter").with_names(&["row width", "row width-gutter"]),
        Case::new("tried-dots", "a..b").with_names(&["a..b", "a"]),
    ]);
    cases
}

/// The inputs of docs/DIFFERENCES.md, by the names of its entries.
fn differences() -> Vec<Case> {
    let inside = |name: &str, below: &str| vec![ScopeCall::Push(vec![context(0, name), variable(1, below)])];
    vec![
        Case::new("difference-R1", "\"\\uD83D"),
        Case::new("difference-R2", "in+").with_flags(TILL_IN),
        Case::new("difference-R3", "\"\\uD83D\\uDE4F"),
        Case::new("difference-R3-closed", "\"\\uD83D\\uDE4F\""),
        Case::new("difference-R10", "\"\\u\""),
        Case::new("difference-M1", "a+ ").with_names(&["a+"]),
        Case::new("difference-M1-dots", "a..b").with_names(&["a..b", "a"]),
        Case::new("difference-M1-plus", "a++ ").with_names(&["a++"]),
        Case::new("difference-M2", format!("a++{DOT}y")).with_scope(inside("a++", "y")),
        Case::new("difference-M2-path", "a.b").with_scope(inside("a", "b")),
        Case::new("difference-M3", "b ").with_scope(inside("a", "b")),
        Case::new("difference-M4", "if("),
        Case::new("difference-M5", "a+"),
        Case::new("difference-M6", "item+").with_names(&["item +"]),
        Case::new("difference-M6-word", "item a").with_names(&["item a"]),
        Case::new("difference-M7", "in\u{1680}"),
        Case::new("difference-M7-name", "x in\u{1680}y").with_flags(TILL_IN),
        Case::new("difference-M8", "\"\\uD83DxxDC00\""),
        Case::new("difference-M8-quote", "\"\\uD83D\" "),
        Case::new("difference-M9", "\""),
        Case::new("difference-M9-comment", "/*"),
        Case::new("difference-M10", "1e"),
        Case::new("difference-M11", "a//"),
        Case::new("difference-M11-keyword", "if/**/a"),
        Case::new("difference-M12", "//\r1"),
    ]
}

/// The inputs of docs/DIFFERENCES.md on which the port departs from the Rust without a panic: they are shown, not compared.
pub fn departures() -> Vec<Case> {
    let deep: Vec<Entry> = (0..7).map(|depth| context(depth, "a")).chain([variable(7, "x")]).collect();
    vec![Case::new("departure-R5", "a ").with_names(&["a "]), Case::new("departure-R8", "x ").with_scope(vec![ScopeCall::SetContext("a".into(), deep)])]
}

/// Pieces, of which all sequences of up to `most` are put behind `first`; under flags and in a scope.
pub struct Alphabet {
    pub name: &'static str,
    pub first: &'static str,
    pub pieces: &'static [&'static str],
    most: usize,
    flags: u32,
    pub scope: fn() -> Vec<ScopeCall>,
}

pub const fn alphabet(name: &'static str, first: &'static str, pieces: &'static [&'static str], most: usize) -> Alphabet {
    Alphabet { name, first, pieces, most, flags: 0, scope: Vec::new }
}

pub const ALPHABETS: [Alphabet; 9] = [
    alphabet("number", "", &["1", ".", "e", "+", "-"], 4),
    alphabet("string", "\"", &["\\", "u", "U", "D83D", "DC00", "00", "\"", "\n"], 3),
    alphabet("pair", "\"\\uD83D", &["\\", "u", "U", "DC", "40", "\""], 4),
    alphabet("comment", "", &["/", "*", "\n", "a", " "], 4),
    alphabet("symbol", "", &[".", "*", "!", "=", "<", ">", "-", "1"], 3),
    Alphabet {
        scope: || ["a", "a +", "a + +", "a.a", "a.. a", "a +a", "a a"].map(named).to_vec(),
        ..alphabet("name", "a", &["a", " ", "+", ".", "\u{1680}"], 4)
    },
    Alphabet { flags: TILL_IN | UNARY_TESTS, scope: || vec![named("a")], ..alphabet("till", "", &["in", "a", " ", "+", ":"], 4) },
    Alphabet {
        flags: TYPE_NAME | AFTER_DOT,
        scope: || ["date day", "day."].map(named).to_vec(),
        ..alphabet("dated", "", &["date", " ", " and time", "(", "day", "."], 3)
    },
    Alphabet {
        scope: || vec![ScopeCall::Push(vec![context(0, "p++"), context(1, "q**"), variable(2, "r"), variable(1, "p++.r")])],
        ..alphabet("nested", "p++", &["p++", "q**", "r", DOT, "."], 4)
    },
];

/// The short texts over each alphabet.
pub fn short() -> Vec<Case> {
    ALPHABETS.iter().flat_map(Alphabet::cases).collect()
}

impl Alphabet {
    fn cases(&self) -> Vec<Case> {
        let mut texts = vec![self.first.to_string()];
        let mut last = texts.clone();
        for _ in 0..self.most {
            last = last.iter().flat_map(|text| self.pieces.iter().map(move |piece| format!("{text}{piece}"))).collect();
            texts.extend(last.clone());
        }
        let case = |(i, text)| Case::new(format!("short-{}-{i}", self.name), text).with_flags(self.flags).with_scope((self.scope)());
        texts.into_iter().enumerate().map(case).collect()
    }
}
