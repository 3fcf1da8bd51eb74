//! Opening bytes, against the UTF-8 of Rust's own library.

use crate::commands::{Comparison, Tally};
use crate::port::Text;
use crate::runs::MAX_CHARS;
use oracle::random::{Random, random};
use std::str::from_utf8;

/// The most bytes that are opened.
const MAX_BYTES: usize = 65_536;

/// Bytes at the ends of what a sequence may begin and go on with, of which all sequences of four are opened.
const EDGES: [u8; 25] =
    [0x00, 0x41, 0x7F, 0x80, 0x8F, 0x90, 0x9F, 0xA0, 0xBF, 0xC0, 0xC1, 0xC2, 0xDF, 0xE0, 0xE1, 0xEC, 0xED, 0xEE, 0xEF, 0xF0, 0xF1, 0xF3, 0xF4, 0xF5, 0xFF];

/// All sequences of three bytes; of four edges; then texts, good and damaged; then texts around the limits.
const THREE: u64 = 1 << 24;
const FOUR: u64 = 25 * 25 * 25 * 25;
const TEXTS: u64 = 500_000;
const LARGE: u64 = 4_000;

#[derive(Default)]
pub struct Bytes {
    text: Text,
    broken: bool,
}

impl Bytes {
    pub const COUNT: u64 = THREE + FOUR + TEXTS + LARGE;

    pub fn new(broken: bool) -> Self {
        Self { broken, ..Self::default() }
    }
}

impl Comparison for Bytes {
    fn compare(&mut self, number: u64, tally: &mut Tally) -> Result<(), String> {
        let bytes = bytes(number);
        let mut r = Random(number);
        let read = from_utf8(&bytes);
        let characters = read.map_or(0, |text| text.chars().count());
        let short = number % 8 == 7 && characters > 0;
        self.text.open(&bytes, if short { characters - 1 } else { bytes.len() + 3 });
        if self.broken {
            self.text.damage(&mut r);
        }
        let (refusal, place) = match read {
            _ if bytes.len() > MAX_BYTES => (1, 0),
            Err(error) => (2, error.valid_up_to()),
            Ok(_) if characters > MAX_CHARS => (1, 0),
            Ok(_) if short => (9, 0),
            Ok(text) => {
                tally.add("byte sequences opened", 1);
                return self.text.is(text.chars().map(u32::from), characters);
            }
        };
        tally.add(&format!("byte sequences refused with {refusal}"), 1);
        self.text.is_refused(refusal, place)
    }

    fn show(&mut self, number: u64) -> String {
        let said = self.compare(number, &mut Tally::default()).map_or_else(|words| words, |()| "agrees".into());
        format!("{:02X?}\n{said}\n{:?}\n", bytes(number), from_utf8(&bytes(number)))
    }
}

fn bytes(number: u64) -> Vec<u8> {
    let Some(number) = number.checked_sub(THREE) else { return number.to_be_bytes()[5..].to_vec() };
    let Some(number) = number.checked_sub(FOUR) else { return (0..4).map(|place| EDGES[(number / 25_u64.pow(place) % 25) as usize]).collect() };
    let mut r = Random(number ^ 0xB17E_0000_0000_0000);
    let mut bytes = match number.checked_sub(TEXTS) {
        None => random(number / 8).text.into_bytes(),
        Some(_) => large(&mut r).into_bytes(),
    };
    for _ in 0..r.below(3) {
        let at = r.below(bytes.len().max(1));
        match r.below(3) {
            0 if at < bytes.len() => bytes[at] = r.pick(&EDGES),
            1 if at < bytes.len() => drop(bytes.remove(at)),
            _ => bytes.insert(at, r.pick(&EDGES)),
        }
    }
    bytes
}

/// A text of about as many characters, or bytes, as can be opened.
fn large(r: &mut Random) -> String {
    let character = r.pick(&["a", "é", "漢", "🙏"]);
    let most = MAX_CHARS.max(r.pick(&[0, MAX_BYTES / character.len()]));
    character.repeat(r.between(most - 3, most + 3))
}
