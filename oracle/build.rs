//! Turns the Rust that the port was made from into modules of this crate, by the list of edits below.
//! None of it is kept in the repository: it is read from the folder FEEL_RUST, or from where it is lent.

use std::path::{Path, PathBuf};
use std::{env, fs};

/// Where the Rust is lent, in the folder that holds the repository.
const LENT: &str = "shared/docs/src";

/// The modules: crate and file of each.
const SOURCES: [(&str, &str); 8] = [
    ("feel", "names"),
    ("feel", "bif"),
    ("feel", "bip"),
    ("feel-parser", "errors"),
    ("feel-parser", "lalr"),
    ("feel-parser", "context"),
    ("feel-parser", "scope"),
    ("feel-parser", "lexer"),
];

/// In `file` the words `find` stand so many times; each time `put` takes their place.
struct Edit {
    file: &'static str,
    find: &'static str,
    times: usize,
    put: &'static str,
}

const fn edit(file: &'static str, find: &'static str, times: usize, put: &'static str) -> Edit {
    Edit { file, find, times, put }
}

const EDITS: [Edit; 14] = [
    // Imports: from one another, or from the stand-in.
    edit("names", "use dsntk_common::", 1, "use crate::stand_in::"),
    edit("bif", "use crate::", 2, "use crate::stand_in::"),
    edit("bif", "use dsntk_common::", 1, "use crate::stand_in::"),
    edit("errors", "use dsntk_common::", 1, "use crate::stand_in::"),
    edit("lalr", "use dsntk_common::", 1, "use crate::stand_in::"),
    edit("context", "use dsntk_feel::", 3, "use crate::stand_in::"),
    edit("scope", "use crate::", 1, "use crate::rust::"),
    edit("scope", "dsntk_feel::", 3, "crate::stand_in::"),
    edit("lexer", "use crate::", 3, "use crate::rust::"),
    edit("lexer", "use dsntk_common::", 1, "use crate::stand_in::"),
    edit("lexer", "use dsntk_feel::", 3, "use crate::stand_in::"),
    // A derived conversion of errors, written out in ADDED.
    edit("errors", "#[derive(ToErrorMessage)]", 2, ""),
    // The counter. The text is looked at in `char_at` alone: it is named there twice, and nowhere else.
    edit(
        "lexer",
        "fn char_at(&self, offset: usize) -> Option<char> {",
        1,
        "fn char_at(&self, offset: usize) -> Option<char> { looked_at(self.position + offset);",
    ),
    edit("lexer", ".input", 2, ".input"),
];

/// Put behind a file: the conversion of errors; the reach and the accessor of position and flags.
const ADDED: [(&str, &str); 2] = [
    (
        "errors",
        "
impl From<LexerError> for DsntkError { fn from(e: LexerError) -> Self { Self(e.0) } }
impl From<ParserError> for DsntkError { fn from(e: ParserError) -> Self { Self(e.0) } }
",
    ),
    (
        "lexer",
        r#"
thread_local! { static REACH: std::cell::Cell<usize> = const { std::cell::Cell::new(0) }; }

/// One more than the largest index that was looked at.
#[inline(always)]
fn looked_at(index: usize) { if cfg!(feature = "reach") { REACH.with(|reach| reach.set(reach.get().max(index + 1))); } }

/// The reach since it was last asked for.
pub fn take_reach() -> usize { REACH.with(|reach| reach.replace(0)) }

impl Lexer<'_> {
  pub fn position(&self) -> usize { self.position }
  pub fn flags(&self) -> [bool; 5] { [self.unary_tests, self.between, self.type_name, self.till_in, self.after_dot] }
  /// Skips whitespace and comments from a position on.
  pub fn skip_from(&mut self, position: usize) { self.position = position; self.read_input(); }
}
"#,
    ),
];

fn main() {
    println!("cargo::rustc-check-cfg=cfg(rust_is_here)");
    println!("cargo::rerun-if-env-changed=FEEL_RUST");
    let beside = Path::new(env!("CARGO_MANIFEST_DIR")).ancestors().nth(2).unwrap_or(Path::new("/"));
    let folder = env::var("FEEL_RUST").map_or_else(|_| beside.join(LENT), PathBuf::from);
    println!("cargo::rerun-if-changed={}", folder.display());
    println!("cargo::rustc-env=FEEL_RUST={}", folder.display());
    if !folder.is_dir() {
        return;
    }
    println!("cargo::rustc-cfg=rust_is_here");
    println!("cargo::metadata=here=true");
    let out = PathBuf::from(env::var("OUT_DIR").unwrap());
    let mut modules = String::new();
    for (package, file) in SOURCES {
        let place = out.join(file).with_extension("rs");
        fs::write(&place, edited(&folder, package, file)).unwrap();
        modules += &format!("#[path = {place:?}] pub mod {file};\n");
    }
    fs::write(out.join("rust.rs"), modules).unwrap();
}

/// A source with its edits made.
fn edited(folder: &Path, package: &str, file: &str) -> String {
    let lent = folder.join(format!("src--{package}--src--{file}.rs.txt"));
    let own = folder.join(format!("{package}/src/{file}.rs"));
    let place = if lent.is_file() { lent } else { own };
    println!("cargo::rerun-if-changed={}", place.display());
    let mut source = fs::read_to_string(&place).unwrap_or_else(|e| panic!("{}: {e}", place.display()));
    for Edit { find, times, put, .. } in EDITS.iter().filter(|e| e.file == file) {
        let found = source.matches(find).count();
        assert!(found == *times, "{}: `{find}` stands there {found} times and not {times}; see the edits in build.rs", place.display());
        source = source.replace(find, put);
    }
    for (_, text) in ADDED.iter().filter(|a| a.0 == file) {
        source += text;
    }
    match file {
        "lalr" => source += &token_types(&source),
        "bif" => source += &function_names(&source),
        _ => {}
    }
    source
}

/// The list of the names that the source has as constants.
fn function_names(source: &str) -> String {
    let names: String =
        source.lines().filter_map(|line| line.strip_prefix("const BIF_")?.split_once(": &str")).map(|(name, _)| format!("BIF_{name}, ")).collect();
    format!("\npub const FUNCTION_NAMES: &[&str] = &[{names}];\n")
}

/// The way back from a number to its `TokenType`, which the tables lack, and all types with their numbers.
fn token_types(tables: &str) -> String {
    let body = tables.split("pub enum TokenType {").nth(1).and_then(|rest| rest.split('}').next()).expect("lalr.rs has the enum TokenType");
    let types: Vec<(&str, &str)> = body.split(',').filter_map(|row| row.trim().split_once(" = ")).collect();
    let rows: String = types.iter().map(|(name, number)| format!("{number} => Some(Self::{name}), ")).collect();
    let numbers: String = types.iter().map(|(name, number)| format!("({name:?}, {number}), ")).collect();
    format!(
        "\nimpl TokenType {{ pub fn from_number(number: i32) -> Option<Self> {{ match number {{ {rows} _ => None }} }} pub const NUMBERS: &[(&str, i32)] = &[{numbers}]; }}\n"
    )
}
