//! The names of the built-in functions: each name of the Rust with what is a character or two off it.

use crate::commands::{Comparison, Tally};
use crate::port::{cells, require};
use feel_lexer::sys;
use oracle::rust::bif::{FUNCTION_NAMES, is_built_in_function_name};
use std::collections::BTreeSet;

/// Put into a name, before and behind it, and in place of each of its characters. The port has its names in rows parted by commas.
const CHARACTERS: &str = "abcdefghijklmnopqrstuvwxyzA ,_-.\t\n\0\u{A0}\u{3000}";

/// Names of other lists, and no name at all.
const OTHERS: [&str; 8] = ["", " ", ",", "days and time duration", "timezone", "Any", "not a function", "years and months"];

pub struct Functions {
    broken: bool,
}

impl Functions {
    /// One case for each name, and one for the others: a single block.
    pub const COUNT: u64 = FUNCTION_NAMES.len() as u64 + 1;

    pub fn new(broken: bool) -> Self {
        Self { broken }
    }
}

impl Comparison for Functions {
    fn compare(&mut self, number: u64, tally: &mut Tally) -> Result<(), String> {
        let texts = texts(number);
        tally.add("names asked for", texts.len() as u64);
        tally.add("names asked for, of built-in functions", texts.iter().filter(|text| is_built_in_function_name(text)).count() as u64);
        texts.iter().try_for_each(|text| {
            let given = is_function(text) ^ u32::from(self.broken);
            require(given == u32::from(is_built_in_function_name(text)), || format!("{text:?} gives {given}"))
        })
    }

    fn show(&mut self, number: u64) -> String {
        let said = self.compare(number, &mut Tally::default()).map_or_else(|words| words, |()| "agrees".into());
        format!("{:?}\n{said}\n", texts(number))
    }
}

fn is_function(name: &str) -> u32 {
    let name = cells(name);
    unsafe { sys::feel_is_built_in_function_name(name.as_ptr(), name.len()) }
}

fn texts(number: u64) -> BTreeSet<String> {
    match FUNCTION_NAMES.get(number as usize) {
        Some(name) => around(name),
        None => OTHERS.map(String::from).into(),
    }
}

/// A name; with a character left out, doubled, of the other case, moved by a number that a byte does not hold, replaced or put in; and in a row with others.
fn around(name: &str) -> BTreeSet<String> {
    let chars: Vec<char> = name.chars().collect();
    let with = |from: usize, to: usize, put: &[char]| [&chars[..from], put, &chars[to..]].concat().into_iter().collect::<String>();
    let mut texts = BTreeSet::from([name.into(), name.to_uppercase(), name.repeat(2)]);
    for at in 0..=chars.len() {
        texts.extend(CHARACTERS.chars().map(|c| with(at, at, &[c])));
        texts.extend([with(0, at, &[]), with(at, chars.len(), &[])]);
    }
    for (at, &c) in chars.iter().enumerate() {
        texts.extend([with(at, at + 1, &[]), with(at, at, &[c]), with(at, at + 1, &[c.to_ascii_uppercase()])]);
        texts.extend([0x100, 0x1_0000].into_iter().filter_map(|far| char::from_u32(u32::from(c) + far)).map(|c| with(at, at + 1, &[c])));
        texts.extend(CHARACTERS.chars().map(|c| with(at, at + 1, &[c])));
    }
    for other in FUNCTION_NAMES {
        texts.extend([",", " ", ""].map(|between| [name, other].join(between)));
    }
    texts
}
