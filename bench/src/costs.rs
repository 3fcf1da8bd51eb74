//! What costs most: texts and scopes that make the search for names slow, and long lists.

use crate::lines::{Side, port_alone, repeated};
use crate::port::Scope;
use oracle::case::{Entry, ScopeCall};

/// A name, and the go that is measured, made ready when it is wanted.
pub type Cost = (String, Box<dyn Fn() -> Side>);

/// Characters of the longest text.
const LONGEST: usize = 16_384;

/// Characters of the longest name.
const NAME: usize = 128;

/// Rows of a long list.
const MANY: usize = 32_000;

pub fn costs() -> Vec<Cost> {
    let mut costs: Vec<Cost> = vec![];
    for (what, piece) in [("`a a a ..`", "a "), ("`a+a+a..`", "a+")] {
        for (with, entries) in [
            ("`a` alone", vec![]),
            ("`a` and 56 names in eight contexts", ordinary()),
            ("`a` and eight names of 128, one below the other", (0..8).map(|i| entry(i, 1, long("x", i))).collect()),
            ("`a` and 511 contexts that share 127 characters", (0..511).map(|i| entry(0, 1, long("x", i))).collect()),
            ("`a` and 511 names that part at the second character", (0..511).map(|i| entry(0, 0, parted(i))).collect()),
        ] {
            let calls = vec![ScopeCall::Push(entries), ScopeCall::SetEntryName("a".into())];
            costs.push((format!("{what}, {LONGEST}, {with}"), Box::new(move || port_alone(&calls, &repeated(piece, LONGEST)).0)));
        }
    }
    for (what, refusal, entries) in [
        ("512 different names", 0, (0..512).map(|i| entry(0, 0, format!("name {i}"))).collect::<Vec<_>>()),
        ("32,000 different names", 11, (0..MANY).map(|i| entry(0, 0, format!("name {i}"))).collect()),
        ("32,000 names that share 127 characters", 11, (0..MANY).map(|i| entry(0, 0, long("x", i))).collect()),
        ("16,000 names, twice over", 11, (0..MANY).map(|i| entry(0, 0, format!("name {}", i % (MANY / 2)))).collect()),
        ("512 names, 62 times over", 0, (0..62 * 512).map(|i| entry(0, 0, format!("name {}", i % 512))).collect()),
        ("a context with 31,999 names below it", 11, (0..MANY).map(|i| if i == 0 { entry(0, 1, "top".into()) } else { entry(1, 0, format!("name {i}")) }).collect()),
    ] {
        costs.push((format!("a list pushed: {what}"), Box::new(move || pushed(entries.clone(), refusal))));
    }
    costs
}

fn entry(depth: u32, kind: u32, name: String) -> Entry {
    Entry { depth, kind, name }
}

/// A name of 128 characters that differs from others in its last one.
fn long(letter: &str, i: impl TryInto<u32>) -> String {
    let last = char::from_u32(0x4E00 + i.try_into().unwrap_or(0)).unwrap();
    letter.repeat(NAME - 1) + &last.to_string()
}

/// A name of 128 characters that differs from others in its second one.
fn parted(i: u32) -> String {
    format!("a{}", char::from_u32(0x4E00 + i).unwrap()) + &"x".repeat(NAME - 2)
}

/// Names as a rule's author has them, six variables in each of eight contexts.
fn ordinary() -> Vec<Entry> {
    let contexts = ["customer", "order", "ticket", "seat", "train", "fare zone", "travel date", "discount"];
    let variables = ["name", "price", "old price", "row width", "valid from", "count"];
    let below = |context: &str| std::iter::once(entry(0, 1, context.into())).chain(variables.map(|name| entry(1, 0, name.into()))).collect::<Vec<_>>();
    contexts.iter().flat_map(|context| below(context)).collect()
}

/// A list pushed onto a new scope, which is refused so or not.
fn pushed(entries: Vec<Entry>, refusal: u32) -> Side {
    let call = ScopeCall::Push(entries);
    Box::new(move || assert_eq!(Scope::opened().call(&call).0, refusal))
}
