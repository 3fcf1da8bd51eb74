//! Colours a FEEL rule by its tokens, and shows what an edit keeps, reads afresh and moves.
//!
//!     cargo run --example colour -- 'if row width-gutter > 10 then "wide" else "narrow"' 'row width' --edit 22..24=12.5
//!
//! The first argument is the rule (- or none: standard input), further ones and those behind --name
//! are names in scope. --edit FROM..TO=TEXT replaces the characters FROM to TO, TO not included; it
//! may be given more than once. --plain labels the tokens instead of colouring them, as it is done
//! where the output is no terminal; --colour always colours.

use feel_lexer::{
    Flags, Item, Record, Repaired, Scope, Text, TokenType, Workspace, is_built_in_function_name,
};
use std::error::Error;
use std::io::{self, IsTerminal, Read};
use std::ops::Range;
use std::process::ExitCode;

/// What is coloured alike.
#[derive(Clone, Copy, PartialEq)]
enum Class {
    Keyword,
    Name,
    /// The name of a built-in function that is called.
    Function,
    Type,
    Number,
    String,
    Literal,
    Operator,
    Symbol,
    Comment,
    Space,
    /// What the last item broke off in.
    Broken,
    /// What no item was made of.
    Unread,
    /// A line end.
    Line,
}

impl Class {
    /// Those that a legend names.
    const SHOWN: [Class; 12] = [
        Class::Keyword,
        Class::Name,
        Class::Function,
        Class::Type,
        Class::Number,
        Class::String,
        Class::Literal,
        Class::Operator,
        Class::Symbol,
        Class::Comment,
        Class::Broken,
        Class::Unread,
    ];

    /// Its label, and the numbers of its colour in a terminal.
    fn look(self) -> (&'static str, &'static str) {
        match self {
            Class::Keyword => ("keyword", "1;35"),
            Class::Name => ("name", "36"),
            Class::Function => ("function", "1;36"),
            Class::Type => ("type", "1;34"),
            Class::Number => ("number", "33"),
            Class::String => ("string", "32"),
            Class::Literal => ("literal", "1;33"),
            Class::Operator => ("operator", "1"),
            Class::Symbol => ("symbol", "90"),
            Class::Comment => ("comment", "2;3"),
            Class::Space | Class::Line => ("", "0"),
            Class::Broken => ("broken", "97;41"),
            Class::Unread => ("unread", "31;9"),
        }
    }

    fn of(token_type: TokenType) -> Class {
        use TokenType::*;
        match token_type {
            Name => Class::Name,
            BuiltInTypeName | NameDateTime => Class::Type,
            Numeric => Class::Number,
            String => Class::String,
            Null | Boolean => Class::Literal,
            Eq | Ne | Lt | Le | Gt | Ge | Minus | Plus | Mul | Div | Exp => Class::Operator,
            At | Colon | Comma | Dot | Ellipsis | RightArrow | LeftBrace | RightBrace
            | LeftParen | RightParen | LeftBracket | RightBracket => Class::Symbol,
            YyEof | YyUndef | YyError => Class::Broken,
            _ => Class::Keyword,
        }
    }

    /// By the token's type, and for a name by whether it is a function's before `(`.
    fn of_item(item: &Item, next: Option<&Item>) -> Class {
        let Some(token_type) = item.token_type() else {
            return Class::Broken;
        };
        let is_called = next.is_some_and(|next| next.token_type() == Some(TokenType::LeftParen));
        let is_name = matches!(token_type, TokenType::Name | TokenType::NameDateTime);
        match item.text().filter(|_| is_called && is_name) {
            Some(name) if is_built_in_function_name(&name.to_string()) => Class::Function,
            _ => Class::of(token_type),
        }
    }
}

/// Characters of one class.
struct Piece {
    class: Class,
    range: Range<usize>,
}

impl Piece {
    fn new(class: Class, range: Range<usize>) -> Piece {
        Piece { class, range }
    }
}

fn is_space(c: char) -> bool {
    c.is_whitespace() || matches!(c, '\u{180E}' | '\u{200B}' | '\u{FEFF}')
}

/// Where the comment that begins at `from` ends, if one does.
fn comment_end(chars: &[char], from: usize) -> Option<usize> {
    let rest = &chars[from..];
    let length = match rest {
        ['/', '/', ..] => rest.iter().position(|&c| c == '\n'),
        ['/', '*', inside @ ..] => {
            let end = inside.windows(2).position(|pair| pair == ['*', '/']);
            end.map(|length| length + 4)
        }
        _ => return None,
    };
    Some(length.map_or(chars.len(), |length| from + length))
}

/// The pieces of one item: white space and comments, then the token, then white space that a name
/// has taken. A record does not say where a token begins; the text does.
fn item_pieces(chars: &[char], item: &Item, class: Class, pieces: &mut Vec<Piece>) {
    let chars = &chars[..item.position];
    let mut at = item.from;
    while at < chars.len() {
        let (class, end) = match comment_end(chars, at) {
            Some(end) => (Class::Comment, end),
            None if is_space(chars[at]) => (Class::Space, at + 1),
            None => break,
        };
        pieces.push(Piece::new(class, at..end));
        at = end;
    }
    let spaces = chars[at..]
        .iter()
        .rev()
        .take_while(|&&c| is_space(c))
        .count();
    let end = chars.len() - spaces;
    pieces.push(Piece::new(class, at..end));
    pieces.push(Piece::new(Class::Space, end..chars.len()));
}

/// Cuts a piece at line ends, which become pieces of their own.
fn put_lines(chars: &[char], piece: Piece, lines: &mut Vec<Piece>) {
    let class = piece.class;
    let mut from = piece.range.start;
    for at in piece.range.clone().filter(|&at| chars[at] == '\n') {
        lines.push(Piece::new(class, from..at));
        lines.push(Piece::new(Class::Line, at..at + 1));
        from = at + 1;
    }
    lines.push(Piece::new(class, from..piece.range.end));
}

/// All of a record's text in pieces.
fn pieces(chars: &[char], record: &Record) -> Vec<Piece> {
    let mut pieces = Vec::new();
    let mut items = record.items().peekable();
    while let Some(item) = items.next() {
        let class = Class::of_item(&item, items.peek());
        item_pieces(chars, &item, class, &mut pieces);
    }
    let read = record.items().next_back().map_or(0, |item| item.position);
    pieces.push(Piece::new(Class::Unread, read..chars.len()));
    let mut lines = Vec::new();
    for piece in pieces {
        put_lines(chars, piece, &mut lines);
    }
    lines.retain(|piece| !piece.range.is_empty());
    lines
}

/// What became of an item in a repair.
#[derive(Clone, Copy, PartialEq)]
enum Fate {
    Kept,
    Fresh,
    Moved,
    Unread,
}

impl Fate {
    fn of(index: usize, repaired: Repaired) -> Fate {
        if index < repaired.kept {
            Fate::Kept
        } else if index < repaired.kept + repaired.fresh {
            Fate::Fresh
        } else {
            Fate::Moved
        }
    }

    /// Its mark, and the numbers of its colour in a terminal.
    fn look(self) -> (char, &'static str) {
        match self {
            Fate::Kept => ('.', "2"),
            Fate::Fresh => ('^', "1;32"),
            Fate::Moved => ('>', "34"),
            Fate::Unread => (' ', "0"),
        }
    }
}

/// What became of each character's item.
fn fates(record: &Record, repaired: Repaired) -> Vec<Fate> {
    let mut fates = vec![Fate::Unread; record.text().len()];
    for (index, item) in record.items().enumerate() {
        fates[item.from..item.position].fill(Fate::of(index, repaired));
    }
    fates
}

/// A character as it may be printed: one that steers the terminal is shown by its picture.
fn printed(c: char) -> char {
    match c {
        '\t' => ' ',
        '\u{0}'..='\u{1F}' => char::from_u32(0x2400 + u32::from(c)).unwrap_or('?'),
        c if c.is_control() => '\u{2426}',
        c => c,
    }
}

struct Output {
    coloured: bool,
}

impl Output {
    fn paint(&self, colour: &str, text: &str) -> String {
        if self.coloured && colour != "0" {
            format!("\x1B[{colour}m{text}\x1B[0m")
        } else {
            text.to_string()
        }
    }

    /// Text of one class: coloured, or with its label.
    fn classed(&self, class: Class, text: &str) -> String {
        let (label, colour) = class.look();
        if self.coloured || label.is_empty() {
            self.paint(colour, text)
        } else {
            format!("{label}«{text}»")
        }
    }

    /// The rule, and where it was repaired a line of marks below each of its lines.
    fn rule(&self, record: &Record, repaired: Option<Repaired>) {
        let chars: Vec<char> = record.text().characters().chars().collect();
        let fates = repaired.map(|repaired| fates(record, repaired));
        let shown = |range: Range<usize>| chars[range].iter().copied().map(printed).collect();
        let mut lines = vec![(String::new(), 0..0)];
        for Piece { class, range } in pieces(&chars, record) {
            if class == Class::Line {
                lines.push((String::new(), range.end..range.end));
            } else if let Some((line, cells)) = lines.last_mut() {
                line.push_str(&self.classed(class, &shown(range.clone()) as &String));
                cells.end = range.end;
            }
        }
        for (line, cells) in lines {
            println!("{line}");
            if let Some(fates) = fates.as_ref().filter(|_| !cells.is_empty()) {
                // Labels take room, so the marks stand below the line without them.
                if !self.coloured {
                    println!("{}", shown(cells.clone()));
                }
                println!("{}", self.marks(&fates[cells]));
            }
        }
        if let Some(Err(refusal)) = record.items().next_back().map(|item| item.read) {
            println!("refused: {refusal}");
        }
    }

    fn marks(&self, fates: &[Fate]) -> String {
        let runs = fates.chunk_by(|a, b| a == b);
        let marks = runs.map(|run| {
            let (mark, colour) = run[0].look();
            self.paint(colour, &mark.to_string().repeat(run.len()))
        });
        marks.collect::<String>().trim_end().to_string()
    }

    /// The colours that the rule has; labels explain themselves.
    fn legend(&self, record: &Record) {
        if !self.coloured {
            return;
        }
        let chars: Vec<char> = record.text().characters().chars().collect();
        let pieces = pieces(&chars, record);
        let used = |class: &&Class| pieces.iter().any(|piece| piece.class == **class);
        let labels = Class::SHOWN.iter().filter(used);
        let labels = labels.map(|class| self.classed(*class, class.look().0));
        println!("{}", labels.collect::<Vec<String>>().join("  "));
    }

    /// How many items were kept, read afresh and moved, and how much of the text that took.
    fn summary(&self, record: &Record, repaired: Repaired, by: isize) {
        let Repaired { kept, fresh, moved } = repaired;
        let last_kept = kept.checked_sub(1).and_then(|index| record.item(index));
        let from = last_kept.map_or(0, |item| item.position);
        let mark = |fate: Fate, text: String| {
            let (mark, colour) = fate.look();
            self.paint(colour, &format!("{mark} {text}"))
        };
        println!(
            "{}   {}   {}   ({} of {} characters handed on)",
            mark(Fate::Kept, format!("kept {kept}")),
            mark(Fate::Fresh, format!("read afresh {fresh}")),
            mark(Fate::Moved, format!("moved by {by:+}: {moved}")),
            record.text().len() - from,
            record.text().len(),
        );
    }
}

/// A range of characters, and what is put in its place.
struct Edit {
    range: Range<usize>,
    put: String,
}

impl Edit {
    fn parse(argument: &str) -> Option<Edit> {
        let (range, put) = argument.split_once('=')?;
        let (from, to) = range.split_once("..")?;
        let range = from.parse().ok()?..to.parse().ok()?;
        let put = put.to_string();
        Some(Edit { range, put })
    }
}

#[derive(Default)]
struct Arguments {
    rule: Option<String>,
    names: Vec<String>,
    edits: Vec<Edit>,
    coloured: Option<bool>,
}

const USAGE: &str = "usage: colour [--plain | --colour] [--name NAME]... [--edit FROM..TO=TEXT]... [RULE [NAME]...]";

impl Arguments {
    fn read() -> Option<Arguments> {
        let mut read = Arguments::default();
        let mut arguments = std::env::args().skip(1);
        while let Some(argument) = arguments.next() {
            match argument.as_str() {
                "--plain" => read.coloured = Some(false),
                "--colour" => read.coloured = Some(true),
                "--name" => read.names.push(arguments.next()?),
                "--edit" => read.edits.push(Edit::parse(&arguments.next()?)?),
                option if option.starts_with("--") => return None,
                _ if read.rule.is_none() => read.rule = Some(argument),
                _ => read.names.push(argument),
            }
        }
        Some(read)
    }

    /// The rule as it was given, or all of standard input but a line end at its end.
    fn text(&self) -> Result<Text, Box<dyn Error>> {
        if let Some(rule) = self.rule.as_deref().filter(|&rule| rule != "-") {
            return Ok(Text::open(rule.as_bytes())?);
        }
        let mut bytes = Vec::new();
        io::stdin().read_to_end(&mut bytes)?;
        Ok(Text::open(bytes.strip_suffix(b"\n").unwrap_or(&bytes))?)
    }
}

fn show(arguments: &Arguments) -> Result<(), Box<dyn Error>> {
    let terminal = io::stdout().is_terminal() && std::env::var_os("NO_COLOR").is_none();
    let output = Output {
        coloured: arguments.coloured.unwrap_or(terminal),
    };
    let mut scope = Scope::new();
    for name in &arguments.names {
        let named = scope.set_entry_name(name);
        named.map_err(|refusal| format!("{name}: {refusal}"))?;
    }
    let mut work = Workspace::new();
    let (text, start) = (arguments.text()?, TokenType::StartExpression);
    let mut record = Record::run(text, start, Flags::default(), &scope, &mut work)?;
    output.rule(&record, None);
    output.legend(&record);
    for Edit { range, put } in &arguments.edits {
        let old_length = record.text().len();
        let repaired = record.repair(range.clone(), put, &scope, &mut work)?;
        println!("\nedit {}..{}={put}", range.start, range.end);
        output.rule(&record, Some(repaired));
        let by = record.text().len() as isize - old_length as isize;
        output.summary(&record, repaired, by);
    }
    Ok(())
}

fn main() -> ExitCode {
    let Some(arguments) = Arguments::read() else {
        eprintln!("{USAGE}");
        return ExitCode::from(2);
    };
    match show(&arguments) {
        Ok(()) => ExitCode::SUCCESS,
        Err(error) => {
            eprintln!("colour: {error}");
            ExitCode::FAILURE
        }
    }
}
