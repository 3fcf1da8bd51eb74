//! A record repaired after an edit.

use crate::calls::{self, Answer, Request, Room};
use crate::items::{FLAGS, POSITION, REACH};
use crate::record::Record;
use crate::refusal::Refusal;
use crate::scope::Scope;
use crate::sys::Row;
use crate::text::Text;
use crate::workspace::{Workspace, front};
use std::mem;
use std::ops::Range;

/// What a repair did with the items: an editor draws the fresh ones anew and moves the others.
///
/// ```
/// use feel_lexer::{Flags, Record, Scope, Text, TokenType, Workspace};
///
/// let text = Text::open(b"[1, 2, 3, 4, 5, 6, 7]")?;
/// let (scope, mut work) = (Scope::new(), Workspace::new());
/// let mut record = Record::run(text, TokenType::StartExpression, Flags::default(), &scope, &mut work)?;
/// let repaired = record.repair(16..17, "60", &scope, &mut work)?;
/// assert_eq!(record.len(), repaired.kept + repaired.fresh + repaired.moved);
/// assert_eq!((repaired.kept, repaired.fresh, repaired.moved), (5, 8, 4));
/// # Ok::<(), feel_lexer::Refusal>(())
/// ```
#[derive(Clone, Copy, Debug, PartialEq, Eq, Hash)]
pub struct Repaired {
    /// Items at the front that the edit cannot have changed.
    pub kept: usize,
    /// Items behind them that were read afresh.
    pub fresh: usize,
    /// Items at the end that are the old ones, their positions and reaches moved.
    pub moved: usize,
}

/// How many items an edit at `from` keeps: those before the first that looked beyond it.
fn kept_items(rows: &[Row], from: usize) -> usize {
    let beyond = rows.iter().position(|row| row[REACH] as usize > from);
    beyond.unwrap_or(rows.len())
}

impl Record {
    /// Replaces a range of the text and repairs the items: the record is then that of a run over the
    /// new text, with the start type and the flags of the old one.
    ///
    /// Only the text from the last kept item on is read. Where the scope is another one than that of
    /// the record, or has changed, kept items could be wrong: the new text is run over whole.
    ///
    /// # Errors
    ///
    /// [`Refusal::BrokenRequest`] where the range does not lie within the text, then
    /// [`Refusal::TooLong`] where the new text has more than 16,384 characters. Text and record then
    /// stay as they are.
    ///
    /// ```
    /// use feel_lexer::{Flags, Record, Refusal, Scope, Text, TokenType, Workspace};
    ///
    /// let (scope, mut work) = (Scope::new(), Workspace::new());
    /// let mut run = |rule: &[u8]| {
    ///     Record::run(Text::open(rule)?, TokenType::StartExpression, Flags::default(), &scope, &mut work)
    /// };
    /// let mut record = run(b"1 + 2")?;
    /// let expected = run(b"1 - \"a\"")?;
    ///
    /// record.repair(2..5, "- \"a\"", &scope, &mut work)?;
    /// assert_eq!(record, expected);
    /// assert_eq!(record.repair(2..8, "", &scope, &mut work), Err(Refusal::BrokenRequest));
    /// # Ok::<(), Refusal>(())
    /// ```
    pub fn repair(
        &mut self,
        range: Range<usize>,
        replacement: &str,
        scope: &Scope,
        work: &mut Workspace,
    ) -> Result<Repaired, Refusal> {
        if range.start > range.end || range.end > self.text.len() {
            return Err(Refusal::BrokenRequest);
        }
        let rest = self.text.len() - range.len();
        let size = size_within(replacement, Text::MAX_CHARS - rest).ok_or(Refusal::TooLong)?;
        let edit = Edit { range, size };
        // The start token has looked at nothing and is always kept, so 0 means another scope.
        let kept = if self.stamp == scope.stamp() {
            kept_items(self.rows(), edit.range.start)
        } else {
            0
        };
        let start = self.position_behind(kept);
        self.put_part(start, &edit.range, replacement, work);
        let answer = if kept == 0 {
            self.run_part(scope, work)?
        } else {
            self.repair_part(&edit, rest + size, scope, work)?
        };
        Ok(self.take_over(start, kept, &edit, &answer, scope, work))
    }

    /// The position behind the first items, so many.
    fn position_behind(&self, items: usize) -> usize {
        let last = items.checked_sub(1);
        last.map_or(0, |i| self.rows[i][POSITION] as usize)
    }

    /// Lays out the new text from `start` on.
    fn put_part(
        &self,
        start: usize,
        range: &Range<usize>,
        replacement: &str,
        work: &mut Workspace,
    ) {
        let old = &self.text.cells;
        work.part.clear();
        work.part.extend_from_slice(&old[start..range.start]);
        work.part.extend(replacement.chars().map(u32::from));
        work.part.extend_from_slice(&old[range.end..]);
    }

    /// Runs over the part, which is the whole new text.
    fn run_part(&self, scope: &Scope, work: &mut Workspace) -> Result<Answer, Refusal> {
        let (start_type, flags) = self.opening();
        let n = work.part.len();
        let room = Room {
            rows: front(&mut work.rows, n + 2),
            store: front(&mut work.store, n),
            scratch: front(&mut work.scratch, 2 * n),
        };
        calls::run(&work.part, start_type, flags, &scope.lent, room)
    }

    /// Repairs with the part, which is what the new text of n characters has behind the last kept item.
    fn repair_part(
        &self,
        edit: &Edit,
        n: usize,
        scope: &Scope,
        work: &mut Workspace,
    ) -> Result<Answer, Refusal> {
        let request = Request {
            old_length: self.text.len(),
            old_rows: self.rows(),
            old_store: self.store(),
            from: edit.range.start,
            to: edit.range.end,
            size: edit.size,
            part: &work.part,
        };
        let room = Room {
            rows: front(&mut work.rows, n + 2),
            store: front(&mut work.store, n),
            scratch: front(&mut work.scratch, 2 * n),
        };
        calls::repair(&request, &scope.lent, room)
    }

    /// Makes the new text and its record this one's; the old rows and store are the workspace's next.
    fn take_over(
        &mut self,
        start: usize,
        kept: usize,
        edit: &Edit,
        answer: &Answer,
        scope: &Scope,
        work: &mut Workspace,
    ) -> Repaired {
        let moved = if kept == 0 {
            0
        } else {
            moved_items(self.rows(), &work.rows[..answer.items], kept, edit)
        };
        self.text.cells.truncate(start);
        self.text.cells.extend_from_slice(&work.part);
        mem::swap(&mut self.rows, &mut work.rows);
        mem::swap(&mut self.store, &mut work.store);
        self.holds(answer, scope);
        Repaired {
            kept,
            fresh: answer.items - kept - moved,
            moved,
        }
    }
}

/// A range replaced by so many characters.
struct Edit {
    range: Range<usize>,
    size: usize,
}

impl Edit {
    /// Where a position of the new text lay in the old one, if it lies behind the edit.
    fn old_position(&self, position: usize) -> Option<usize> {
        let behind = position.checked_sub(self.range.start + self.size)?;
        Some(self.range.end + behind)
    }
}

/// The number of characters, if there are no more than so many. Stops counting there.
fn size_within(replacement: &str, most: usize) -> Option<usize> {
    let size = replacement.chars().take(most + 1).count();
    (size <= most).then_some(size)
}

/// How many old items follow: those behind the first match of a new item with an old one. They
/// match where the old one, moved, has the position and the flags; neither is its record's last.
fn moved_items(old: &[Row], new: &[Row], kept: usize, edit: &Edit) -> usize {
    let (old, new) = (&old[..old.len() - 1], &new[..new.len() - 1]);
    let matched = new.iter().skip(kept - 1).find_map(|row| {
        let position = edit.old_position(row[POSITION] as usize)?;
        let found = old.binary_search_by_key(&position, |old| old[POSITION] as usize);
        let index = found.ok()?;
        (old[index][FLAGS] == row[FLAGS]).then_some(index)
    });
    matched.map_or(0, |index| old.len() - index)
}
