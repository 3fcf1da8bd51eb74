//! The exported functions over Rust's slices: the only module with unsafe code.
//!
//! Every function here is safe whatever it is handed. The library checks all numbers itself and
//! relies only on what a slice of Rust is anyway: its pointer is not null and is aligned, its
//! elements are there and initialised, and one that is lent to be written overlaps no other.
#![allow(unsafe_code)]

use crate::refusal::Refusal;
use crate::sys::{self, Name, Row, Slot};

/// What a call answers.
pub(crate) struct Answer {
    pub token_type: u32,
    pub length: usize,
    pub before: usize,
    pub after: usize,
    pub exponent: usize,
    pub extra: u32,
    pub items: usize,
}

/// A scope as it is lent: its counts, and the rows beside them.
#[derive(Clone)]
pub(crate) struct Lent {
    pub counts: [usize; 3],
    pub slots: Vec<Slot>,
    pub names: Vec<Name>,
}

/// Where a run or a repair writes.
pub(crate) struct Room<'a> {
    pub rows: &'a mut [Row],
    pub store: &'a mut [u32],
    pub scratch: &'a mut [u32],
}

/// What a repair is asked: the old record, the edit, and the new text from the last kept position on.
pub(crate) struct Request<'a> {
    pub old_length: usize,
    pub old_rows: &'a [Row],
    pub old_store: &'a [u32],
    pub from: usize,
    pub to: usize,
    pub size: usize,
    pub part: &'a [u32],
}

type Numbers = [usize; 8];

/// An answer by its numbers. Extra numbers and token types are all made from 32 bits.
fn answered(number: u32, a: Numbers) -> Result<Answer, Refusal> {
    if number != 0 {
        return Err(Refusal::new(number, a[0], a[6] as u32));
    }
    Ok(Answer {
        token_type: a[1] as u32,
        length: a[2],
        before: a[3],
        after: a[4],
        exponent: a[5],
        extra: a[6] as u32,
        items: a[7],
    })
}

pub(crate) fn open(bytes: &[u8], cells: &mut [u32]) -> Result<Answer, Refusal> {
    let mut answer = Numbers::default();
    // SAFETY: pointers and lengths of slices; cells and answer are lent to this call alone.
    let number = unsafe {
        sys::feel_open(
            bytes.as_ptr(),
            bytes.len(),
            cells.as_mut_ptr(),
            cells.len(),
            answer.as_mut_ptr(),
            answer.len(),
        )
    };
    answered(number, answer)
}

pub(crate) fn is_built_in_function_name(name: &[u32]) -> bool {
    // SAFETY: pointer and length of a slice, which is only read.
    let told = unsafe { sys::feel_is_built_in_function_name(name.as_ptr(), name.len()) };
    told == 1
}

pub(crate) fn scope_opened(counts: &mut [usize]) -> Result<Answer, Refusal> {
    let mut answer = Numbers::default();
    // SAFETY: pointers and lengths of slices; counts and answer are lent to this call alone.
    let number = unsafe {
        sys::feel_scope_opened(
            counts.as_mut_ptr(),
            counts.len(),
            answer.as_mut_ptr(),
            answer.len(),
        )
    };
    answered(number, answer)
}

pub(crate) fn scope_push_default(s: &mut Lent) -> Result<Answer, Refusal> {
    let mut answer = Numbers::default();
    // SAFETY: pointers and lengths of slices; counts and answer are lent to this call alone.
    let number = unsafe {
        sys::feel_scope_push_default(
            s.counts.as_mut_ptr(),
            s.counts.len(),
            s.slots.as_ptr(),
            s.slots.len(),
            s.names.as_ptr(),
            s.names.len(),
            answer.as_mut_ptr(),
            answer.len(),
        )
    };
    answered(number, answer)
}

pub(crate) fn scope_push(s: &mut Lent, list: &[Slot], cells: &[u32]) -> Result<Answer, Refusal> {
    let mut answer = Numbers::default();
    // SAFETY: pointers and lengths of slices; the scope and answer are lent to this call alone.
    let number = unsafe {
        sys::feel_scope_push(
            s.counts.as_mut_ptr(),
            s.counts.len(),
            s.slots.as_mut_ptr(),
            s.slots.len(),
            s.names.as_mut_ptr(),
            s.names.len(),
            list.as_ptr(),
            list.len(),
            cells.as_ptr(),
            cells.len(),
            answer.as_mut_ptr(),
            answer.len(),
        )
    };
    answered(number, answer)
}

pub(crate) fn scope_pop(s: &mut Lent) -> Result<Answer, Refusal> {
    let mut answer = Numbers::default();
    // SAFETY: pointers and lengths of slices; counts and answer are lent to this call alone.
    let number = unsafe {
        sys::feel_scope_pop(
            s.counts.as_mut_ptr(),
            s.counts.len(),
            s.slots.as_ptr(),
            s.slots.len(),
            s.names.as_ptr(),
            s.names.len(),
            answer.as_mut_ptr(),
            answer.len(),
        )
    };
    answered(number, answer)
}

pub(crate) fn scope_set_entry_name(s: &mut Lent, name: &[u32]) -> Result<Answer, Refusal> {
    let mut answer = Numbers::default();
    // SAFETY: pointers and lengths of slices; the scope and answer are lent to this call alone.
    let number = unsafe {
        sys::feel_scope_set_entry_name(
            s.counts.as_mut_ptr(),
            s.counts.len(),
            s.slots.as_mut_ptr(),
            s.slots.len(),
            s.names.as_mut_ptr(),
            s.names.len(),
            name.as_ptr(),
            name.len(),
            answer.as_mut_ptr(),
            answer.len(),
        )
    };
    answered(number, answer)
}

pub(crate) fn scope_set_context(
    s: &mut Lent,
    name: &[u32],
    list: &[Slot],
    cells: &[u32],
) -> Result<Answer, Refusal> {
    let mut answer = Numbers::default();
    // SAFETY: pointers and lengths of slices; the scope and answer are lent to this call alone.
    let number = unsafe {
        sys::feel_scope_set_context(
            s.counts.as_mut_ptr(),
            s.counts.len(),
            s.slots.as_mut_ptr(),
            s.slots.len(),
            s.names.as_mut_ptr(),
            s.names.len(),
            name.as_ptr(),
            name.len(),
            list.as_ptr(),
            list.len(),
            cells.as_ptr(),
            cells.len(),
            answer.as_mut_ptr(),
            answer.len(),
        )
    };
    answered(number, answer)
}

pub(crate) fn scope_add_parsed_name(s: &mut Lent, name: &[u32]) -> Result<Answer, Refusal> {
    let mut answer = Numbers::default();
    // SAFETY: pointers and lengths of slices; the scope and answer are lent to this call alone.
    let number = unsafe {
        sys::feel_scope_add_parsed_name(
            s.counts.as_mut_ptr(),
            s.counts.len(),
            s.slots.as_mut_ptr(),
            s.slots.len(),
            s.names.as_mut_ptr(),
            s.names.len(),
            name.as_ptr(),
            name.len(),
            answer.as_mut_ptr(),
            answer.len(),
        )
    };
    answered(number, answer)
}

pub(crate) fn next_token(
    lexer: &mut [usize],
    text: &[u32],
    s: &Lent,
    out: &mut [u32],
    scratch: &mut [u32],
) -> Result<Answer, Refusal> {
    let mut answer = Numbers::default();
    // SAFETY: pointers and lengths of slices; lexer, out, scratch and answer are lent to this call
    // alone.
    let number = unsafe {
        sys::feel_next_token(
            lexer.as_mut_ptr(),
            lexer.len(),
            text.as_ptr(),
            text.len(),
            s.counts.as_ptr(),
            s.counts.len(),
            s.slots.as_ptr(),
            s.slots.len(),
            s.names.as_ptr(),
            s.names.len(),
            out.as_mut_ptr(),
            out.len(),
            scratch.as_mut_ptr(),
            scratch.len(),
            answer.as_mut_ptr(),
            answer.len(),
        )
    };
    answered(number, answer)
}

pub(crate) fn run(
    text: &[u32],
    start_type: u32,
    flags: u32,
    s: &Lent,
    room: Room<'_>,
) -> Result<Answer, Refusal> {
    let mut answer = Numbers::default();
    // SAFETY: pointers and lengths of slices; the room and answer are lent to this call alone.
    let number = unsafe {
        sys::feel_run(
            text.as_ptr(),
            text.len(),
            start_type,
            flags,
            s.counts.as_ptr(),
            s.counts.len(),
            s.slots.as_ptr(),
            s.slots.len(),
            s.names.as_ptr(),
            s.names.len(),
            room.rows.as_mut_ptr(),
            room.rows.len(),
            room.store.as_mut_ptr(),
            room.store.len(),
            room.scratch.as_mut_ptr(),
            room.scratch.len(),
            answer.as_mut_ptr(),
            answer.len(),
        )
    };
    answered(number, answer)
}

pub(crate) fn repair(request: &Request<'_>, s: &Lent, room: Room<'_>) -> Result<Answer, Refusal> {
    let mut answer = Numbers::default();
    // SAFETY: pointers and lengths of slices; the room and answer are lent to this call alone.
    let number = unsafe {
        sys::feel_repair(
            request.old_length,
            request.old_rows.as_ptr(),
            request.old_rows.len(),
            request.old_store.as_ptr(),
            request.old_store.len(),
            request.from,
            request.to,
            request.size,
            request.part.as_ptr(),
            request.part.len(),
            s.counts.as_ptr(),
            s.counts.len(),
            s.slots.as_ptr(),
            s.slots.len(),
            s.names.as_ptr(),
            s.names.len(),
            room.rows.as_mut_ptr(),
            room.rows.len(),
            room.store.as_mut_ptr(),
            room.store.len(),
            room.scratch.as_mut_ptr(),
            room.scratch.len(),
            answer.as_mut_ptr(),
            answer.len(),
        )
    };
    answered(number, answer)
}

#[cfg(test)]
mod tests;
