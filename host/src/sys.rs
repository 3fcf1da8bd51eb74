//! The C functions as they are exported: a slice is a pointer and a count, and a row counts as one.
//!
//! include/feel_lexer.h says of each what it takes, what it writes and what it refuses. A host in
//! Rust needs none of them: the types of this crate call them.
//!
//! # Safety
//!
//! The functions check every number that they are handed. Of each slice they rely on this: the
//! pointer is not null and is aligned, the elements that the count says are there and initialised,
//! and a slice that is written overlaps no other of the call.
//!
//! ```
//! use feel_lexer::sys;
//!
//! let mut cells = [0u32; 8];
//! let mut answer = [0usize; 8];
//! // SAFETY: pointers and lengths of three slices that do not overlap.
//! let refusal = unsafe {
//!     sys::feel_open("häh".as_ptr(), 4, cells.as_mut_ptr(), 8, answer.as_mut_ptr(), 8)
//! };
//! assert_eq!((refusal, answer[2]), (0, 3));
//! assert_eq!(cells[..3], [0x68, 0xE4, 0x68]);
//! ```

#![allow(unsafe_code)]

/// One slot of a scope: context, depth, kind, name length.
pub type Slot = [u32; 4];
/// The characters of one name.
pub type Name = [u32; 128];
/// One item of a record.
pub type Row = [u32; 11];

/// Every program that this crate is part of refers to the function of its version, whatever else it
/// calls: with an archive of another version it does not link.
#[used]
static LINKED: unsafe extern "C" fn() -> u32 = feel_lexer_version_1;

unsafe extern "C" {
    /// The version of the exported functions, which is part of this one's name.
    pub fn feel_lexer_version_1() -> u32;

    /// Opens UTF-8: one cell a character.
    pub fn feel_open(
        bytes: *const u8,
        bytes_len: usize,
        cells: *mut u32,
        cells_len: usize,
        answer: *mut usize,
        answer_len: usize,
    ) -> u32;

    /// Whether a name is that of a built-in function: 1 or 0.
    pub fn feel_is_built_in_function_name(name: *const u32, name_len: usize) -> u32;

    /// Opens a scope with one empty context.
    pub fn feel_scope_opened(
        scope: *mut usize,
        scope_len: usize,
        answer: *mut usize,
        answer_len: usize,
    ) -> u32;

    /// Pushes an empty context.
    pub fn feel_scope_push_default(
        scope: *mut usize,
        scope_len: usize,
        slots: *const Slot,
        slots_len: usize,
        names: *const Name,
        names_len: usize,
        answer: *mut usize,
        answer_len: usize,
    ) -> u32;

    /// Pushes an entry list as one context.
    pub fn feel_scope_push(
        scope: *mut usize,
        scope_len: usize,
        slots: *mut Slot,
        slots_len: usize,
        names: *mut Name,
        names_len: usize,
        list: *const Slot,
        list_len: usize,
        cells: *const u32,
        cells_len: usize,
        answer: *mut usize,
        answer_len: usize,
    ) -> u32;

    /// Pops the last context.
    pub fn feel_scope_pop(
        scope: *mut usize,
        scope_len: usize,
        slots: *const Slot,
        slots_len: usize,
        names: *const Name,
        names_len: usize,
        answer: *mut usize,
        answer_len: usize,
    ) -> u32;

    /// Names a variable in the last context.
    pub fn feel_scope_set_entry_name(
        scope: *mut usize,
        scope_len: usize,
        slots: *mut Slot,
        slots_len: usize,
        names: *mut Name,
        names_len: usize,
        name: *const u32,
        name_len: usize,
        answer: *mut usize,
        answer_len: usize,
    ) -> u32;

    /// Names a context with an entry list in the last context.
    pub fn feel_scope_set_context(
        scope: *mut usize,
        scope_len: usize,
        slots: *mut Slot,
        slots_len: usize,
        names: *mut Name,
        names_len: usize,
        name: *const u32,
        name_len: usize,
        list: *const Slot,
        list_len: usize,
        cells: *const u32,
        cells_len: usize,
        answer: *mut usize,
        answer_len: usize,
    ) -> u32;

    /// Adds a parsed name.
    pub fn feel_scope_add_parsed_name(
        scope: *mut usize,
        scope_len: usize,
        slots: *mut Slot,
        slots_len: usize,
        names: *mut Name,
        names_len: usize,
        name: *const u32,
        name_len: usize,
        answer: *mut usize,
        answer_len: usize,
    ) -> u32;

    /// The next token.
    pub fn feel_next_token(
        lexer: *mut usize,
        lexer_len: usize,
        text: *const u32,
        text_len: usize,
        scope: *const usize,
        scope_len: usize,
        slots: *const Slot,
        slots_len: usize,
        names: *const Name,
        names_len: usize,
        out: *mut u32,
        out_len: usize,
        scratch: *mut u32,
        scratch_len: usize,
        answer: *mut usize,
        answer_len: usize,
    ) -> u32;

    /// The record of a whole text.
    pub fn feel_run(
        text: *const u32,
        text_len: usize,
        start_type: u32,
        flags: u32,
        scope: *const usize,
        scope_len: usize,
        slots: *const Slot,
        slots_len: usize,
        names: *const Name,
        names_len: usize,
        rows: *mut Row,
        rows_len: usize,
        store: *mut u32,
        store_len: usize,
        scratch: *mut u32,
        scratch_len: usize,
        answer: *mut usize,
        answer_len: usize,
    ) -> u32;

    /// The record of an edited text, from that of the old one.
    pub fn feel_repair(
        old_length: usize,
        old_rows: *const Row,
        old_rows_len: usize,
        old_store: *const u32,
        old_store_len: usize,
        from: usize,
        to: usize,
        size: usize,
        part: *const u32,
        part_len: usize,
        scope: *const usize,
        scope_len: usize,
        slots: *const Slot,
        slots_len: usize,
        names: *const Name,
        names_len: usize,
        rows: *mut Row,
        rows_len: usize,
        store: *mut u32,
        store_len: usize,
        scratch: *mut u32,
        scratch_len: usize,
        answer: *mut usize,
        answer_len: usize,
    ) -> u32;
}
