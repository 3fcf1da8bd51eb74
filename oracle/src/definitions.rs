//! The definitions held against the Rust: each case is an equation between what they compute and the Rust's record.
//! The equations are written into a scratch crate beside a copy of the repository's definitions and checked there by the kit.

use crate::case::{Case, Entry, ScopeCall, cells};
use crate::random::Edit;
use crate::record::{End, Record, run};
use std::fs::OpenOptions;
use std::io::Write;
use std::path::{Path, PathBuf};
use std::process::{Command, Output};
use std::{env, fs, io, iter, process};

/// Longer texts are left out: evaluating the definitions takes the square of the length.
pub const LONGEST: usize = 300;

/// Equations in one file.
const IN_A_FILE: usize = 50;

/// What the equations are about.
const EQUATIONS: &str = include_str!("equations.txt");

/// What each file of equations imports; CRATE is its crate.
const HEAD: &str = "\
use Rattle.std.specs.Prelude.{◌≡◌, refl, List, [], ◌∷◌, ℕ}
use Rattle.CRATE.specs.Answer.{answer, run, front, repaired, pushed, popped, named, context, parsed_name}
";

/// An equation: what is asked of the definitions, the record that they should give, and the case that it comes from.
pub struct Equation {
    asked: String,
    record: Record,
    pub case: String,
}

impl Equation {
    /// A run; of one that the pair mask ends, the items before.
    pub fn of_run(case: &Case, record: &Record) -> Self {
        let input = format!("{} {} {} {}", scope(&case.scope), case.start, case.flags, text(&case.text));
        let asked = match record.end {
            End::Open(_) => format!("front {} {input}", record.items.len()),
            _ => format!("run {input}"),
        };
        Self { asked, record: record.clone(), case: case.line() }
    }

    /// A repair: the old text's record becomes that of the new one. None where the Rust gives one of the two in part only.
    pub fn of_edit(edit: &Edit) -> Option<Self> {
        let [was, record] = [&edit.old, &edit.new].map(|case| run(case).filter(|record| !matches!(record.end, End::Open(_))));
        let Edit { old, from, to, put, new } = edit;
        let asked = format!("repaired {} {} ({}) {from} {to} {} {}", scope(&old.scope), old.length(), number_form(&was?), put.chars().count(), text(&new.text));
        Some(Self { asked, record: record?, case: format!("{} {from} {to} {}", old.line(), cells(put)) })
    }

    /// The same with one number of the record's last item wrong, which must be refused.
    pub fn damaged(mut self, way: usize) -> Self {
        let last = self.record.items.last_mut().expect("a record has items");
        match way % 4 {
            0 => last.reach += 1,
            1 => last.position += 1,
            2 => last.flags ^= 1 << (way / 4 % 5),
            _ => last.number += 1,
        }
        self
    }

    fn theorem(&self, i: usize) -> String {
        format!("\n-- {}\npub case_{i} : answer ({}) ≡ {}\nunfolding answer\ncase_{i} = refl\n", self.case, self.asked, number_form(&self.record))
    }
}

fn list(items: impl IntoIterator<Item = String>) -> String {
    let items: String = items.into_iter().map(|item| item + " ∷ ").collect();
    format!("({items}[])")
}

fn text(text: &str) -> String {
    list(text.chars().map(|c| format!("0x{:X}", c as u32)))
}

fn entries(entries: &[Entry]) -> String {
    list(entries.iter().map(|e| format!("({}, {}, {})", e.depth, e.kind, text(&e.name))))
}

fn scope(calls: &[ScopeCall]) -> String {
    list(calls.iter().map(|call| match call {
        ScopeCall::Push(list) => format!("pushed {}", entries(list)),
        ScopeCall::Pop => "popped".into(),
        ScopeCall::SetEntryName(name) => format!("named {}", text(name)),
        ScopeCall::SetContext(name, list) => format!("context {} {}", text(name), entries(list)),
        ScopeCall::AddParsedName(name) => format!("parsed_name {}", text(name)),
    }))
}

fn number_form(record: &Record) -> String {
    let (rows, store) = record.packed();
    let rows = list(rows.iter().map(|row| list(row.iter().map(usize::to_string))));
    format!("record {{ rows = {rows}; store = {} }}", text(&store))
}

/// A scratch repository: the definitions that the equations are about, as committed, and crates of equations beside them.
pub struct Scratch {
    folder: PathBuf,
    /// The commit that the definitions are of.
    pub commit: String,
    /// The crates that hold the definitions.
    crates: Vec<String>,
    /// What every equation is about, with all definitions open to computing.
    answer: String,
}

impl Scratch {
    pub fn new(repository: &Path) -> io::Result<Self> {
        let folder = env::temp_dir().join(format!("oracle-{}", process::id()));
        let committed = folder.join("committed");
        fs::create_dir_all(&committed)?;
        let mut scratch = Self { folder, commit: String::new(), crates: vec![], answer: String::new() };
        let git = || {
            let mut git = Command::new("git");
            git.arg("-C").arg(repository);
            git
        };
        scratch.commit = String::from_utf8_lossy(&output(git().args(["log", "-1", "--format=%h"]))?.stdout).trim().to_string();
        let archive = committed.join("crates.tar");
        output(git().args(["archive", "HEAD", "crates", "crates.txt", "-o"]).arg(&archive))?;
        output(Command::new("tar").arg("-xf").arg(&archive).arg("-C").arg(&committed))?;
        scratch.copy_definitions(&committed)?;
        Ok(scratch)
    }

    /// Copies the modules that the equations use, and those that these use. Code, proofs and what speaks of code stay behind.
    fn copy_definitions(&mut self, committed: &Path) -> io::Result<()> {
        let used = used_modules(committed)?;
        let (mut uses, mut unfoldable) = (String::new(), String::new());
        for line in fs::read_to_string(committed.join("crates.txt"))?.lines() {
            let name = line.split(':').next().unwrap_or_default();
            let modules: Vec<&Module> = used.iter().filter(|module| module.package == name).collect();
            if modules.is_empty() {
                continue;
            }
            for Module { name: module, text, .. } in &modules {
                uses += &format!("use Rattle.{name}.specs.{module} as {name}-{module}\n");
                let closed = text.lines().filter_map(|line| line.trim().strip_prefix("unfoldable pub ")?.split(' ').next());
                unfoldable += &closed.map(|definition| format!(" {name}-{module}.{definition}")).collect::<String>();
            }
            self.add_crate(name, modules.iter().map(|module| (module.name.clone(), module.text.clone())))?;
            self.crates.push(name.to_string());
        }
        self.answer = EQUATIONS.replacen("use ", &(uses + "use "), 1).replace(" EVERY UNFOLDABLE", &unfoldable);
        Ok(())
    }

    /// Writes a crate without code, over those written before.
    fn add_crate(&self, name: &str, modules: impl Iterator<Item = (String, String)>) -> io::Result<()> {
        let place = self.folder.join("crates").join(name);
        fs::create_dir_all(place.join("src"))?;
        fs::create_dir_all(place.join("specs"))?;
        fs::write(place.join("src/lib.rt"), "// Definitions alone.\n")?;
        let mut listed = String::new();
        for (module, text) in modules {
            fs::write(place.join("specs").join(&module).with_extension("antt"), text)?;
            listed += &format!("pub mod {module}\n");
        }
        fs::write(place.join("specs/Lib.antt"), listed)?;
        let mut crates = OpenOptions::new().create(true).append(true).open(self.folder.join("crates.txt"))?;
        writeln!(crates, "{name}: {}", self.crates.join(" "))
    }

    /// Checks equations as a crate of this name. Gives those that were refused, with the checker's words.
    pub fn refused(&self, name: &str, equations: &[Equation]) -> io::Result<Vec<(usize, String)>> {
        let cases = equations.chunks(IN_A_FILE).enumerate().map(|(k, part)| {
            let theorems: String = part.iter().enumerate().map(|(i, equation)| equation.theorem(k * IN_A_FILE + i)).collect();
            (format!("Cases{k}"), HEAD.replace("CRATE", name) + &theorems)
        });
        self.add_crate(name, iter::once(("Answer".to_string(), self.answer.clone())).chain(cases))?;
        let checked = Command::new("rt").arg("check").current_dir(self.folder.join("crates").join(name)).output()?;
        let said = String::from_utf8_lossy(&checked.stdout) + String::from_utf8_lossy(&checked.stderr);
        refusals(&said, checked.status.success(), equations.len())
    }
}

impl Drop for Scratch {
    fn drop(&mut self) {
        let _ = fs::remove_dir_all(&self.folder);
    }
}

/// A file of definitions in a crate's specs/.
struct Module {
    package: String,
    name: String,
    text: String,
}

/// The modules that the equations use, and those that these use.
fn used_modules(committed: &Path) -> io::Result<Vec<Module>> {
    let mut used: Vec<Module> = vec![];
    let mut wanted: Vec<(String, String)> = EQUATIONS.lines().filter_map(imported).collect();
    while let Some((package, name)) = wanted.pop() {
        if used.iter().all(|module| (&module.package, &module.name) != (&package, &name)) {
            let text = fs::read_to_string(committed.join(format!("crates/{package}/specs/{name}.antt")))?;
            wanted.extend(text.lines().filter_map(imported));
            used.push(Module { package, name, text });
        }
    }
    Ok(used)
}

/// Crate and module of an import of the repository's, which reads `use Rattle.text.specs.Classes.{..}`, also where it is handed on (`pub use`). The library's own stay as they are.
fn imported(line: &str) -> Option<(String, String)> {
    let (package, module) = line.strip_prefix("pub ").unwrap_or(line).strip_prefix("use Rattle.")?.split_once(".specs.")?;
    (package != "std").then_some((package.to_string(), module.split(['.', ' ']).next()?.to_string()))
}

/// The equations that the checker refused. An error of another kind, or none where the crate is not proved, makes the check void.
fn refusals(said: &str, proved: bool, count: usize) -> io::Result<Vec<(usize, String)>> {
    let void = |why: &str| io::Error::other(format!("the check is void, {why}:\n{said}"));
    let mut refused: Vec<(usize, String)> = vec![];
    for line in said.lines() {
        if let Some((_, words)) = line.split_once("error: ") {
            let case = words.strip_prefix("`case_").and_then(|rest| rest.split('`').next()).and_then(|digits| digits.parse().ok());
            let case = case.filter(|i| *i < count).ok_or_else(|| void("an error is about no case"))?;
            if refused.iter().all(|(i, _)| *i != case) {
                refused.push((case, "(what it computes to is not shown)".into()));
            }
        } else if let (Some((_, words)), true) = (refused.last_mut(), line.contains("computed as far as they go")) {
            *words = line.trim().chars().take(400).collect();
        }
    }
    if proved == refused.is_empty() { Ok(refused) } else { Err(void("its verdict and its errors do not go together")) }
}

/// What a command that must succeed writes.
fn output(command: &mut Command) -> io::Result<Output> {
    let output = command.output()?;
    if output.status.success() { Ok(output) } else { Err(io::Error::other(format!("{command:?}: {}", String::from_utf8_lossy(&output.stderr)))) }
}
