//! A scope that is not three numbers is a broken one: 10, at its place in the order of each call.
//! The types always lend three, so these are calls of the exported functions.

use feel_lexer::sys::{self, Name, Row, Slot};

const START: usize = 258;
const EMPTY: [usize; 3] = [1, 0, 0];
const FEWER: [usize; 2] = [1, 0];
const MORE: [usize; 4] = [1, 0, 0, 0];

/// A number returned, and the place in the answer.
type Refused = (u32, usize);

fn opened(scope: &mut [usize], numbers: usize) -> u32 {
    let mut answer = vec![7; numbers];
    // SAFETY: pointers and lengths of two slices that do not overlap.
    unsafe {
        sys::feel_scope_opened(
            scope.as_mut_ptr(),
            scope.len(),
            answer.as_mut_ptr(),
            answer.len(),
        )
    }
}

fn popped(scope: &mut [usize], rows: usize, numbers: usize) -> u32 {
    let (slots, names) = rows_beside(rows);
    let mut answer = vec![7; numbers];
    // SAFETY: pointers and lengths of slices that do not overlap.
    unsafe {
        sys::feel_scope_pop(
            scope.as_mut_ptr(),
            scope.len(),
            slots.as_ptr(),
            slots.len(),
            names.as_ptr(),
            names.len(),
            answer.as_mut_ptr(),
            answer.len(),
        )
    }
}

fn named(scope: &mut [usize], name: &[u32], numbers: usize) -> u32 {
    let (mut slots, mut names) = rows_beside(768);
    let mut answer = vec![7; numbers];
    // SAFETY: pointers and lengths of slices that do not overlap.
    let number = unsafe {
        sys::feel_scope_set_entry_name(
            scope.as_mut_ptr(),
            scope.len(),
            slots.as_mut_ptr(),
            slots.len(),
            names.as_mut_ptr(),
            names.len(),
            name.as_ptr(),
            name.len(),
            answer.as_mut_ptr(),
            answer.len(),
        )
    };
    assert_eq!(number == 0, slots[0] != [0; 4]);
    number
}

fn rows_beside(rows: usize) -> (Vec<Slot>, Vec<Name>) {
    (vec![[0; 4]; rows], vec![[0; 128]; rows])
}

fn asked(lexer: [usize; 4], text: &[u32], scope: &[usize], room: usize) -> Refused {
    let (slots, names) = rows_beside(768);
    let (mut out, mut scratch) = (vec![7; room], vec![7; 2 * room]);
    let (mut state, mut answer) = (lexer, [7; 8]);
    // SAFETY: pointers and lengths of slices that do not overlap.
    let number = unsafe {
        sys::feel_next_token(
            state.as_mut_ptr(),
            state.len(),
            text.as_ptr(),
            text.len(),
            scope.as_ptr(),
            scope.len(),
            slots.as_ptr(),
            slots.len(),
            names.as_ptr(),
            names.len(),
            out.as_mut_ptr(),
            out.len(),
            scratch.as_mut_ptr(),
            scratch.len(),
            answer.as_mut_ptr(),
            answer.len(),
        )
    };
    assert!(scratch.iter().all(|&cell| cell == 0));
    assert_eq!(number == 0, state != lexer);
    (number, answer[0])
}

fn run(text: &[u32], flags: u32, scope: &[usize], room: usize) -> Refused {
    let (slots, names) = rows_beside(768);
    let mut rows: Vec<Row> = vec![[7; 11]; room + 2];
    let (mut store, mut scratch) = (vec![7; room], vec![7; 2 * room]);
    let mut answer = [7; 8];
    // SAFETY: pointers and lengths of slices that do not overlap.
    let number = unsafe {
        sys::feel_run(
            text.as_ptr(),
            text.len(),
            START as u32,
            flags,
            scope.as_ptr(),
            scope.len(),
            slots.as_ptr(),
            slots.len(),
            names.as_ptr(),
            names.len(),
            rows.as_mut_ptr(),
            rows.len(),
            store.as_mut_ptr(),
            store.len(),
            scratch.as_mut_ptr(),
            scratch.len(),
            answer.as_mut_ptr(),
            answer.len(),
        )
    };
    assert_eq!(number == 0, rows[0] != [7; 11]);
    (number, answer[0])
}

/// The empty text gets the part, in place of nothing.
fn repaired(to: usize, part: &[u32], scope: &[usize], room: usize) -> Refused {
    let old: [Row; 2] = [
        [0, START as u32, 0, 0, 0, 0, 0, 0, 0, 0, 0],
        [0, 0, 0, 0, 12, 0, 0, 0, 0, 0, 0],
    ];
    let (slots, names) = rows_beside(768);
    let mut rows: Vec<Row> = vec![[7; 11]; room + 2];
    let (mut store, mut scratch) = (vec![7; room], vec![7; 2 * room]);
    let (no_store, mut answer) = ([0; 0], [7; 8]);
    // SAFETY: pointers and lengths of slices that do not overlap.
    let number = unsafe {
        sys::feel_repair(
            0,
            old.as_ptr(),
            old.len(),
            no_store.as_ptr(),
            no_store.len(),
            0,
            to,
            part.len(),
            part.as_ptr(),
            part.len(),
            scope.as_ptr(),
            scope.len(),
            slots.as_ptr(),
            slots.len(),
            names.as_ptr(),
            names.len(),
            rows.as_mut_ptr(),
            rows.len(),
            store.as_mut_ptr(),
            store.len(),
            scratch.as_mut_ptr(),
            scratch.len(),
            answer.as_mut_ptr(),
            answer.len(),
        )
    };
    assert_eq!(number == 0, rows[0] != [7; 11]);
    (number, answer[0])
}

#[test]
fn scope_calls_refuse_9_10_11() {
    let (mut fewer, mut three, mut more) = (FEWER, [7; 3], MORE);
    assert_eq!((opened(&mut fewer, 7), opened(&mut fewer, 8)), (9, 10));
    assert_eq!((opened(&mut more, 7), opened(&mut more, 8)), (9, 10));
    assert_eq!((opened(&mut three, 7), opened(&mut three, 8)), (9, 0));
    assert_eq!((fewer, three, more), (FEWER, EMPTY, MORE));

    assert_eq!(
        (popped(&mut more, 0, 7), popped(&mut more, 768, 8)),
        (9, 10)
    );
    assert_eq!(popped(&mut [], 768, 8), 10);
    assert_eq!(popped(&mut three, 768, 8), 0);
    assert_eq!((three, more), ([0, 0, 0], MORE));

    let (name, long) = ([0x61], [0x61; 129]);
    assert_eq!(
        (named(&mut fewer, &name, 7), named(&mut fewer, &name, 8)),
        (9, 10)
    );
    assert_eq!((named(&mut EMPTY.clone(), &long, 8), fewer), (10, FEWER));
    assert_eq!(named(&mut EMPTY.clone(), &name, 8), 0);
}

#[test]
fn the_token_call_refuses_9_1_12_10_9() {
    let (text, long) = ([0x31; 2], vec![0x31; 16_385]);
    for scope in [&FEWER[..], &MORE] {
        assert_eq!(asked([3, 0, 0, START], &long, scope, 0), (9, 0));
        assert_eq!(asked([20_000, 0, 0, 0], &long, scope, 0), (1, 20_000));
        assert_eq!(asked([3, 0, 0, 0], &text, scope, 0), (12, 3));
        assert_eq!(asked([1, 0, 0, 0], &text, scope, 0), (10, 1));
        assert_eq!(asked([1, 0, 0, 0], &text, scope, 2), (10, 1));
    }
    assert_eq!(asked([1, 0, 0, 0], &text, &EMPTY, 0), (9, 1));
    assert_eq!(asked([1, 0, 0, 0], &text, &EMPTY, 2), (0, 2));
}

#[test]
fn a_run_refuses_9_1_10_9() {
    let (text, long) = ([0x31; 2], vec![0x31; 16_385]);
    for scope in [&FEWER[..], &MORE] {
        assert_eq!(run(&long, 32, scope, 0), (9, 0));
        assert_eq!(run(&long, 31, scope, 0), (1, 0));
        assert_eq!(run(&text, 31, scope, 0), (10, 0));
        assert_eq!(run(&text, 31, scope, 2), (10, 0));
    }
    assert_eq!(run(&text, 31, &EMPTY, 0), (9, 0));
    assert_eq!(run(&text, 31, &EMPTY, 2), (0, 0));
}

#[test]
fn a_repair_refuses_13_1_10_9() {
    let (text, long) = ([0x31; 2], vec![0x31; 16_385]);
    for scope in [&FEWER[..], &MORE] {
        assert_eq!(repaired(1, &long, scope, 0), (13, 0));
        assert_eq!(repaired(0, &long, scope, 0), (1, 0));
        assert_eq!(repaired(0, &text, scope, 0), (10, 0));
        assert_eq!(repaired(0, &text, scope, 2), (10, 0));
    }
    assert_eq!(repaired(0, &text, &EMPTY, 0), (9, 0));
    assert_eq!(repaired(0, &text, &EMPTY, 2), (0, 0));
}
