//! Where the cases of runs come from. A source numbers its cases, so that each can be made again alone.

use oracle::case::{Case, ScopeCall};
use oracle::random::{Random, blanks, character, fragment, random, scope};
use oracle::rules::{ALPHABETS, DOT, KEYWORDS, context, named, of_length, parsed, rules, spellings, variable};

pub struct Source {
    pub name: String,
    pub count: u64,
    pub case: Box<dyn FnMut(u64) -> Case>,
}

impl Source {
    fn new(name: &str, count: u64, case: impl FnMut(u64) -> Case + 'static) -> Self {
        Self { name: name.into(), count, case: Box::new(case) }
    }
}

/// All sources.
pub fn sources() -> Vec<Source> {
    let single = [rules_flagged(), starts(), lengths(), damaged(2_000_000), long(200_000), keys(40_000)];
    single.into_iter().chain(alphabets().into_iter().map(Alphabet::source)).collect()
}

/// The oracle's cases for each rule, under all flags.
fn rules_flagged() -> Source {
    let rules = rules();
    Source::new("rules", rules.len() as u64 * 32, move |number| rules[number as usize / 32].clone().with_flags(number as u32 % 32))
}

/// All start types, many that are none, under all flags.
fn starts() -> Source {
    let texts = ["", "1", "not(a"];
    let starts: Vec<u32> = (0..400).chain([999, 65_536, 0x7FFF_FFFF, 0x8000_0000, 0xFFFF_FFFE, 0xFFFF_FFFF]).collect();
    Source::new("starts", starts.len() as u64 * 32 * 3, move |number| {
        let (start, rest) = (starts[number as usize / 96], number as usize % 96);
        Case::new("", texts[rest / 32]).with_start(start).with_flags(rest as u32 % 32)
    })
}

/// One long token or run, of every length up to 300 and around each limit, two of them beyond the last.
fn lengths() -> Source {
    let around = |n: usize| n - 3..=n + 2;
    let lengths = (8..300).chain(around(1_024)).chain(around(1_045)).chain(around(4_096)).chain(around(16_384));
    let cases: Vec<Case> = lengths.flat_map(of_length).collect();
    Source::new("lengths", cases.len() as u64 * 2, move |number| cases[number as usize / 2].clone().with_flags(number as u32 % 2 * 31))
}

/// Of sixteen cases in a row one is random and good, and fifteen are damaged copies of it under any flags.
fn damaged(count: u64) -> Source {
    let mut good = (u64::MAX, Case::default());
    Source::new("random", count, move |number| {
        if good.0 != number / 16 {
            good = (number / 16, random(number / 16));
        }
        let case = good.1.clone();
        if number % 16 == 0 {
            return case;
        }
        let mut r = Random(number ^ 0xDA3A_6ED0_0000_0000);
        let text = (0..r.between(1, 3)).fold(case.text.clone(), |text, _| damage(&mut r, &text));
        Case { text, start: 258 + r.below(9) as u32, flags: r.below(32) as u32, ..case }
    })
}

/// One small damage.
fn damage(r: &mut Random, text: &str) -> String {
    let mut cells: Vec<char> = text.chars().collect();
    let at = r.between(0, cells.len());
    let end = (at + r.between(1, 4)).min(cells.len());
    let put = match r.below(8) {
        0 | 1 => vec![],
        2 => vec![character(r)],
        3 => vec![r.character("\"\\u/*+.:( \n\u{1680}in")],
        4 => [&cells[at..end], &cells[at..end]].concat(),
        5 => cells[at..end].iter().rev().copied().collect(),
        6 => fragment(r).chars().collect(),
        _ => return cells[..at].iter().collect(),
    };
    cells.splice(at..end, put);
    cells.into_iter().collect()
}

/// Tokens that end far behind their first twelve characters: the window hides all other looks.
fn long(count: u64) -> Source {
    Source::new("long", count, |number| {
        let mut r = Random(number ^ 0x1046_0000_0000_0000);
        let text: String = (0..r.between(1, 5)).map(|_| long_piece(&mut r)).collect();
        let scope = if text.len() < 2_000 { scope(&mut r, &text) } else { vec![named("a"), named("b b")] };
        Case::new("", text).with_flags(r.below(32) as u32).with_scope(scope)
    })
}

fn long_piece(r: &mut Random) -> String {
    let length = match r.below(20) {
        0..12 => r.between(8, 40),
        12..18 => r.between(100, 300),
        18 => r.between(1_000, 1_100),
        _ => r.between(3_000, 4_000),
    };
    // Among names the longest pieces would be thousands of parts, and the Rust would not come to an end: they are one word.
    let of = |r: &mut Random, characters: &str| -> String {
        let cells = (0..length).map(|_| r.character(characters));
        cells.filter(|cell| length < 100 || cell.is_alphanumeric()).collect()
    };
    match r.below(12) {
        0 => of(r, "0123456789") + r.pick(&["", ".", "..", ".5", "e", "e+1"]),
        1 => format!(".{}e-{}{}", of(r, "059"), of(r, "1"), r.pick(&["", " ", "x"])),
        2 => r.pick(&KEYWORDS).to_string() + &" ".repeat(length) + r.pick(&["<", "(", "x", "", ":"]),
        3 => of(r, "abc_é09\u{1680}") + r.pick(&["", " ", ":", "(", "+"]),
        4 => format!("a{}b{}", " ".repeat(length), r.pick(&["", ":", " (", " in c"])),
        5 => (0..r.between(1, 12)).map(|_| r.pick(&["a", "b", "in", "item", "date", "day"]).to_string() + &blanks(r) + r.pick(&["", "+", ".", "-"])).collect(),
        6 => format!("\"{}{}", of(r, "ab .\u{1680}"), r.pick(&["\"", "\"", "", "\n"])),
        7 => format!("\"{}\\u{}", of(r, "ab\\n"), r.pick(&["12\"", "D83D", "D83D\\uDC00\"", "DC00\"", "0041\" ", "D83D\\u0041\""])),
        8 => format!("/*{}{}", of(r, "ab* /"), r.pick(&["*/", ""])),
        9 => format!("//{}\n", of(r, "ab*/\"")),
        10 => " ".repeat(length),
        _ => format!("date{}and time{}", " ".repeat(length), r.pick(&["(", " (", "", ":"])),
    }
}

/// Keys of contexts in contexts, up to the longest that a scope can hold, some levels left out.
fn keys(count: u64) -> Source {
    Source::new("keys", count, |number| {
        let mut r = Random(number ^ 0x0CE1_0000_0000_0000);
        let levels = r.between(1, 8);
        let most = r.pick(&[3, 126]);
        let names: Vec<String> = (0..levels).map(|_| r.character("abc").to_string().repeat(r.between(1, most)) + r.pick(&["++", "--", "**"])).collect();
        let list = names.iter().enumerate().map(|(depth, name)| context(depth as u32, name)).collect();
        let chain: Vec<String> = names.into_iter().filter(|_| r.chance(85)).collect();
        let text = chain.join(DOT) + r.pick(&["", " ", "+", "x", ":", ", a", DOT]);
        let text = if r.chance(20) { damage(&mut r, &text) } else { text };
        Case::new("", text).with_flags(r.pick(&[0, 0, 16, 8, 31])).with_scope(vec![ScopeCall::Push(list), parsed("a + +")])
    })
}

/// Pieces, of which all sequences of up to some length are put behind each of the firsts, under each setting of flags.
struct Alphabet {
    name: String,
    firsts: Vec<String>,
    pieces: Vec<String>,
    flags: Vec<u32>,
    scope: Vec<ScopeCall>,
}

/// An alphabet has as many cases as there are below this number with whole lengths.
const MOST: u64 = 1_000_000;

impl Alphabet {
    /// A sequence for each number, shorter ones first.
    fn sequence(&self, mut number: u64) -> String {
        let mut pieces = vec![];
        while number > 0 {
            number -= 1;
            pieces.push(self.pieces[number as usize % self.pieces.len()].as_str());
            number /= self.pieces.len() as u64;
        }
        pieces.into_iter().rev().collect()
    }

    fn source(self) -> Source {
        let (firsts, settings, base) = (self.firsts.len() as u64, self.flags.len() as u64, self.pieces.len() as u64);
        let (mut count, mut power) = (1, 1);
        while (count + power * base) * firsts * settings <= MOST {
            power *= base;
            count += power;
        }
        Source::new(&self.name.clone(), count * firsts * settings, move |number| {
            let (number, flags) = (number / settings, self.flags[(number % settings) as usize]);
            let (number, first) = (number / firsts, &self.firsts[(number % firsts) as usize]);
            let text = first.clone() + &self.sequence(number);
            Case::new("", text).with_start(258 + number as u32 % 9).with_flags(flags).with_scope(self.scope.clone())
        })
    }
}

/// The oracle's alphabets, in longer texts, and others.
fn alphabets() -> Vec<Alphabet> {
    let all: Vec<u32> = (0..32).collect();
    let strings = |pieces: &[&str]| pieces.iter().map(|piece| piece.to_string()).collect::<Vec<_>>();
    let flagless = ["number", "string", "pair", "comment", "symbol"];
    let oracles = ALPHABETS.iter().map(|a| Alphabet {
        name: format!("short-{}", a.name),
        firsts: strings(&[a.first]),
        pieces: strings(a.pieces),
        flags: if flagless.contains(&a.name) { vec![0, 31] } else { all.clone() },
        scope: (a.scope)(),
    });
    let alphabet = |name: &str, firsts: &[&str], pieces: &[&str], flags: &[u32], scope: Vec<ScopeCall>| Alphabet {
        name: format!("short-{name}"),
        firsts: strings(firsts),
        pieces: strings(pieces),
        flags: flags.to_vec(),
        scope,
    };
    let names = |names: &[&str]| names.iter().map(|name| named(name)).collect::<Vec<_>>();
    let flat = ["a+b", "a - b", "a.b.a", "a'b", "a/b*a", "a..b", "a+", "b a"].iter().flat_map(|piece| spellings(piece)).map(|name| named(&name));
    let nested = [
        ScopeCall::Push(vec![context(0, "a++"), variable(1, "b"), context(1, "b++"), context(2, "c"), variable(3, "a b")]),
        ScopeCall::SetContext("c++".into(), vec![variable(0, "a"), context(0, "a++"), variable(1, "c")]),
        parsed("a.b"),
    ];
    let ascii: Vec<String> = (' '..='~').map(String::from).collect();
    let ascii: Vec<&str> = ascii.iter().map(String::as_str).collect();
    let own = [
        alphabet("ascii", &[""], &ascii, &[0], vec![]),
        alphabet("keywords", &[""], &["if", "in", "and", "not", "of", "list", "function", "true", " ", "(", "<", "x"], &all, vec![]),
        alphabet("behind", &KEYWORDS, &[" ", "\u{1680}", "(", "<", "=", "x", "/", "*"], &[0, 1, 2, 8, 31], names(&["in x", "x"])),
        alphabet("between", &[""], &["between ", "and ", "and", "not(", "not ", "1 ", "a ", "in "], &all, names(&["a"])),
        alphabet("spaces", &["a", ""], &["\u{1680}", "\u{180E}", "\u{FEFF}", " ", "a", "+", "in", "1", "\u{B7}", ":"], &all, names(&["a", "a +a", "a in"])),
        alphabet("properties", &[""], &["end", "start", " included", "day", "s", " ", ".", "+", "(", ":", "x"], &all, names(&["day s", "end", "start.end"])),
        alphabet("types", &[""], &["date", " and", " time", " ", "days", "years and months duration", "(", "+", ":", "\u{1680}"], &all, names(&["time"])),
        alphabet("items", &[""], &["item", "s", " ", ".", "+", "in", " in ", ":", "x", "\u{1680}"], &all, names(&["item x", "x", "items"])),
        alphabet("flat", &["a"], &[" ", "+", "-", ".", "'", "/", "*", "b"], &[0, 16], flat.collect()),
        alphabet("hex", &["\"\\u"], &["D", "8", "C", "0", "f", "g", "\"", "\\", "U"], &[0], vec![]),
        alphabet("paths", &["a++", "a"], &["a", "b", "c", DOT, ".", "++", " "], &[0, 16], nested.to_vec()),
    ];
    oracles.chain(own).collect()
}
