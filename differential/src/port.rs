//! The exported functions, called over slices that are painted before each call, so that a cell written by mistake is seen.

use feel_lexer::sys::{self, Name, Row, Slot};
use oracle::case::{Entry, ScopeCall};
use oracle::random::Random;
use oracle::record::{End, Item};
use std::iter::repeat_n;

/// What lent cells hold before a call: no character and no number of a record.
pub const PAINT: u32 = 0xFEED_5EED;

/// Cells and rows lent beyond those that a call needs.
const SPARE: usize = 3;

/// A call's eight numbers.
pub type Answer = [usize; 8];
const PLACE: usize = 0;
const LENGTH: usize = 2;
const ITEMS: usize = 7;

/// Before a call its answer holds these.
const NO_ANSWER: Answer = [usize::MAX; 8];

pub fn cells(text: &str) -> Vec<u32> {
    text.chars().map(u32::from).collect()
}

/// Lent cells, and what the last opening gave.
#[derive(Default)]
pub struct Text {
    pub cells: Vec<u32>,
    pub answer: Answer,
    pub refusal: u32,
}

impl Text {
    /// Opens bytes into so many cells.
    pub fn open(&mut self, bytes: &[u8], lent: usize) {
        self.answer = NO_ANSWER;
        paint(&mut self.cells, lent, PAINT);
        self.open_unpainted(bytes);
    }

    pub fn open_unpainted(&mut self, bytes: &[u8]) {
        let Self { cells, answer, .. } = self;
        self.refusal = unsafe { sys::feel_open(bytes.as_ptr(), bytes.len(), cells.as_mut_ptr(), cells.len(), answer.as_mut_ptr(), 8) };
    }

    /// Whether the opening gave these characters and left the other cells.
    pub fn is(&self, text: impl Iterator<Item = u32>, length: usize) -> Result<(), String> {
        let mut answer = [0; 8];
        answer[LENGTH] = length;
        require((self.refusal, self.answer) == (0, answer), || format!("opening gives {}, {:?}", self.refusal, self.answer))?;
        require(self.cells.iter().copied().eq(text.chain(repeat_n(PAINT, self.cells.len() - length))), || "opened cells".into())
    }

    /// Whether the opening was refused so and left all cells.
    pub fn is_refused(&self, refusal: u32, place: usize) -> Result<(), String> {
        let mut answer = [0; 8];
        answer[PLACE] = place;
        require((self.refusal, self.answer) == (refusal, answer), || format!("opening gives {}, {:?}", self.refusal, self.answer))?;
        require(self.cells.iter().all(|cell| *cell == PAINT), || "a refused opening writes".into())
    }

    pub fn damage(&mut self, r: &mut Random) {
        match r.below(3) {
            0 => self.answer[r.below(8)] ^= 1,
            1 => self.refusal ^= 1,
            _ if self.cells.is_empty() => self.answer[PLACE] ^= 1,
            _ => flip(r, &mut self.cells),
        }
    }
}

fn paint<T: Clone>(cells: &mut Vec<T>, length: usize, with: T) {
    cells.clear();
    cells.resize(length, with);
}

/// Changes one bit of one cell.
fn flip(r: &mut Random, cells: &mut [u32]) {
    cells[r.below(cells.len())] ^= 1 << r.below(20);
}

/// A lent scope.
#[derive(Clone, PartialEq)]
pub struct Scope {
    counts: [usize; 3],
    slots: Vec<Slot>,
    names: Vec<Name>,
}

impl Scope {
    pub fn opened() -> Self {
        let mut scope = Self { counts: [usize::MAX; 3], slots: vec![[PAINT; 4]; 768], names: vec![[PAINT; 128]; 768] };
        scope.reopen();
        scope
    }

    /// Opens it anew over the same slices.
    pub fn reopen(&mut self) {
        let mut answer = NO_ANSWER;
        let refusal = unsafe { sys::feel_scope_opened(self.counts.as_mut_ptr(), 3, answer.as_mut_ptr(), 8) };
        assert_eq!((refusal, answer), (0, [0; 8]), "a scope opens");
    }

    /// Stacked contexts, entries, parsed names.
    pub fn counts(&self) -> [usize; 3] {
        self.counts
    }

    /// Makes a call; an empty list goes through `push_default` where the contexts are even.
    pub fn call(&mut self, call: &ScopeCall) -> (u32, Answer) {
        let (name, (list, text)) = match call {
            ScopeCall::Push(entries) => (vec![], entry_list(entries)),
            ScopeCall::Pop => (vec![], (vec![], vec![])),
            ScopeCall::SetEntryName(name) | ScopeCall::AddParsedName(name) => (cells(name), (vec![], vec![])),
            ScopeCall::SetContext(name, entries) => (cells(name), entry_list(entries)),
        };
        let mut answer = NO_ANSWER;
        let (counts, (slots, s), (names, n)) = (self.counts.as_mut_ptr(), lent(&mut self.slots), lent(&mut self.names));
        let (name, l, list, e, text, t) = (name.as_ptr(), name.len(), list.as_ptr(), list.len(), text.as_ptr(), text.len());
        let to = answer.as_mut_ptr();
        let refusal = unsafe {
            match call {
                ScopeCall::Push(_) if e == 0 && self.counts[0] % 2 == 0 => sys::feel_scope_push_default(counts, 3, slots, s, names, n, to, 8),
                ScopeCall::Push(_) => sys::feel_scope_push(counts, 3, slots, s, names, n, list, e, text, t, to, 8),
                ScopeCall::Pop => sys::feel_scope_pop(counts, 3, slots, s, names, n, to, 8),
                ScopeCall::SetEntryName(_) => sys::feel_scope_set_entry_name(counts, 3, slots, s, names, n, name, l, to, 8),
                ScopeCall::SetContext(..) => sys::feel_scope_set_context(counts, 3, slots, s, names, n, name, l, list, e, text, t, to, 8),
                ScopeCall::AddParsedName(_) => sys::feel_scope_add_parsed_name(counts, 3, slots, s, names, n, name, l, to, 8),
            }
        };
        (refusal, answer)
    }
}

fn lent<T>(slice: &mut [T]) -> (*mut T, usize) {
    (slice.as_mut_ptr(), slice.len())
}

/// Entries as rows, and the cells that their names lie in.
fn entry_list(entries: &[Entry]) -> (Vec<Slot>, Vec<u32>) {
    let (mut list, mut names) = (vec![], vec![]);
    for entry in entries {
        let name = cells(&entry.name);
        list.push([entry.depth, entry.kind, names.len() as u32, name.len() as u32]);
        names.extend(name);
    }
    (list, names)
}

/// A lent record, and what the last call over it gave.
#[derive(Default)]
pub struct Record {
    pub rows: Vec<Row>,
    pub store: Vec<u32>,
    pub scratch: Vec<u32>,
    pub answer: Answer,
    pub refusal: u32,
}

/// An edit: the characters from `from` up to `to` of a text of `length` give way to `size` others.
#[derive(Clone, Copy, Debug)]
pub struct Edit {
    pub length: usize,
    pub from: usize,
    pub to: usize,
    pub size: usize,
}

impl Record {
    /// Slices for a text of so many characters, painted.
    pub fn paint(&mut self, length: usize) {
        self.answer = NO_ANSWER;
        paint(&mut self.rows, length + 2 + SPARE, [PAINT; 11]);
        paint(&mut self.store, length + SPARE, PAINT);
        paint(&mut self.scratch, 2 * length + SPARE, PAINT);
    }

    pub fn run(&mut self, scope: &Scope, start: u32, flags: u32, text: &[u32]) {
        self.paint(text.len());
        self.run_unpainted(scope, start, flags, text);
    }

    pub fn run_unpainted(&mut self, scope: &Scope, start: u32, flags: u32, text: &[u32]) {
        let Scope { counts, slots, names } = scope;
        let Self { rows, store, scratch, answer, .. } = self;
        #[rustfmt::skip]
        let refusal = unsafe {
            sys::feel_run(
                text.as_ptr(), text.len(), start, flags, counts.as_ptr(), 3, slots.as_ptr(), slots.len(), names.as_ptr(), names.len(),
                rows.as_mut_ptr(), rows.len(), store.as_mut_ptr(), store.len(), scratch.as_mut_ptr(), scratch.len(), answer.as_mut_ptr(), 8,
            )
        };
        self.refusal = refusal;
    }

    /// Makes this the repair of an old record; `part` is what is handed in of the new text.
    pub fn repair(&mut self, scope: &Scope, old: &Self, edit: Edit, part: &[u32]) {
        self.paint(edit.length - (edit.to - edit.from) + edit.size);
        self.repair_unpainted(scope, old, edit, part);
    }

    pub fn repair_unpainted(&mut self, scope: &Scope, old: &Self, edit: Edit, part: &[u32]) {
        let Edit { length, from, to, size } = edit;
        let Scope { counts, slots, names } = scope;
        let (old_rows, old_store) = (old.items(), old.values());
        let Self { rows, store, scratch, answer, .. } = self;
        #[rustfmt::skip]
        let refusal = unsafe {
            sys::feel_repair(
                length, old_rows.as_ptr(), old_rows.len(), old_store.as_ptr(), old_store.len(), from, to, size, part.as_ptr(), part.len(),
                counts.as_ptr(), 3, slots.as_ptr(), slots.len(), names.as_ptr(), names.len(), rows.as_mut_ptr(), rows.len(),
                store.as_mut_ptr(), store.len(), scratch.as_mut_ptr(), scratch.len(), answer.as_mut_ptr(), 8,
            )
        };
        self.refusal = refusal;
    }

    pub fn items(&self) -> &[Row] {
        &self.rows[..self.answer[ITEMS].min(self.rows.len())]
    }

    pub fn values(&self) -> &[u32] {
        &self.store[..self.answer[LENGTH].min(self.store.len())]
    }

    /// What the call left beside the record: scratch zero, the rest of rows and store untouched, no other number in the answer.
    pub fn leftovers(&self) -> Result<(), String> {
        let mut answer = [0; 8];
        (answer[LENGTH], answer[ITEMS]) = (self.answer[LENGTH], self.answer[ITEMS]);
        require(self.answer == answer, || format!("answer {:?}", self.answer))?;
        require(self.scratch.iter().all(|cell| *cell == 0), || "scratch is not zero".into())?;
        require(self.rows[self.items().len()..].as_flattened().iter().all(|cell| *cell == PAINT), || "a row behind the last is written".into())?;
        require(self.store[self.values().len()..].iter().all(|cell| *cell == PAINT), || "a cell behind the values is written".into())
    }

    /// Whether the call was refused so, with place 0, and left all slices.
    pub fn is_refused(&self, refusal: u32) -> Result<(), String> {
        require((self.refusal, self.answer) == (refusal, [0; 8]), || format!("{}, {:?} and not refused with {refusal}", self.refusal, self.answer))?;
        self.leftovers()
    }

    /// The record as the oracle prints its own.
    pub fn printed(&self) -> String {
        let text = |from: u32, length: u32| self.values().iter().skip(from as usize).take(length as usize).map(|cell| char::from_u32(*cell).unwrap_or('?'));
        let item = |row: &Row| Item {
            refused: row[0] == 1,
            number: row[1],
            position: row[2] as usize,
            flags: row[3],
            reach: row[4] as usize,
            value: text(row[5], row[6]).collect(),
            lengths: [row[7], row[8], row[9]].map(|length| length as usize),
            extra: row[10],
        };
        let refused = if self.refusal == 0 { String::new() } else { format!("refused with {}, {:?}\n", self.refusal, self.answer) };
        refused + &oracle::record::Record { items: self.items().iter().map(item).collect(), end: End::Whole }.printed()
    }

    /// Changes one number: of the front rows, mostly, or of another slice.
    pub fn damage(&mut self, r: &mut Random, front: usize) {
        match r.below(10) {
            0 => self.answer[r.below(8)] ^= 1,
            1 => flip(r, &mut self.scratch),
            2 => flip(r, self.rows.as_flattened_mut().last_chunk_mut::<SPARE>().unwrap()),
            3 => flip(r, self.store.last_chunk_mut::<SPARE>().unwrap()),
            _ => flip(r, self.rows[..front].as_flattened_mut()),
        }
    }
}

pub fn require(holds: bool, otherwise: impl FnOnce() -> String) -> Result<(), String> {
    if holds { Ok(()) } else { Err(otherwise()) }
}

/// A lent lexer with its output and scratch, and what the last call gave.
#[derive(Default)]
pub struct Lexer {
    /// Position, flags, whether a start token is due, its type.
    pub state: [usize; 4],
    pub out: Vec<u32>,
    pub scratch: Vec<u32>,
    pub answer: Answer,
    pub refusal: u32,
}

impl Lexer {
    pub fn open(&mut self, start: u32, flags: u32) {
        self.state = [0, flags as usize, 1, start as usize];
    }

    /// Slices for a text of so many characters, painted.
    pub fn paint(&mut self, length: usize) {
        self.answer = NO_ANSWER;
        paint(&mut self.out, length + SPARE, PAINT);
        paint(&mut self.scratch, 2 * length + SPARE, PAINT);
    }

    pub fn next_token(&mut self, scope: &Scope, text: &[u32]) {
        self.paint(text.len());
        self.next_unpainted(scope, text);
    }

    pub fn next_unpainted(&mut self, scope: &Scope, text: &[u32]) {
        let Scope { counts, slots, names } = scope;
        let Self { state, out, scratch, answer, .. } = self;
        #[rustfmt::skip]
        let refusal = unsafe {
            sys::feel_next_token(
                state.as_mut_ptr(), 4, text.as_ptr(), text.len(), counts.as_ptr(), 3, slots.as_ptr(), slots.len(), names.as_ptr(), names.len(),
                out.as_mut_ptr(), out.len(), scratch.as_mut_ptr(), scratch.len(), answer.as_mut_ptr(), 8,
            )
        };
        self.refusal = refusal;
    }

    /// Whether the last call gave this item: state, answer, value at the front of the output, its rest untouched, scratch zero.
    pub fn gave(&self, row: &Row, value: impl Iterator<Item = u32>) -> Result<(), String> {
        let [refused, number, position, flags, _, _, length, before, after, exponent, extra] = row.map(|number| number as usize);
        let (refusal, answer) = match refused {
            0 => (0, [position, number, length, before, after, exponent, extra, 0]),
            _ => (number, [position, 0, 0, 0, 0, 0, extra, 0]),
        };
        require((self.refusal as usize, self.answer) == (refusal, answer), || format!("a call gives {}, {:?}, for {row:?}", self.refusal, self.answer))?;
        require(self.state == [position, flags, 0, 0], || format!("state {:?} behind {row:?}", self.state))?;
        require(self.out.iter().copied().eq(value.chain(repeat_n(PAINT, self.out.len() - length))), || format!("output for {row:?}"))?;
        require(self.scratch.iter().all(|cell| *cell == 0), || "scratch is not zero".into())
    }

    pub fn damage(&mut self, r: &mut Random) {
        match r.below(5) {
            0 => self.answer[r.below(8)] ^= 1,
            1 => self.state[r.below(4)] ^= 1,
            2 => self.refusal ^= 1,
            3 => flip(r, &mut self.scratch),
            _ => flip(r, &mut self.out),
        }
    }
}
