//! What no call of the public types can cause: slices too short, scopes and records that are broken.

use super::*;

const START: u32 = 258;

/// An opened scope with so many rows.
fn scope(rows: usize) -> Lent {
    Lent {
        counts: [1, 0, 0],
        slots: vec![[0; 4]; rows],
        names: vec![[0; 128]; rows],
    }
}

fn cells(text: &str) -> Vec<u32> {
    text.chars().map(u32::from).collect()
}

/// A run into so many rows, store cells and scratch cells, all of them 7 before.
fn run_into(text: &[u32], s: &Lent, sizes: [usize; 3]) -> (Result<Answer, Refusal>, bool) {
    let (mut rows, mut store) = (vec![[7; 11]; sizes[0]], vec![7; sizes[1]]);
    let mut scratch = vec![7; sizes[2]];
    let room = Room {
        rows: &mut rows,
        store: &mut store,
        scratch: &mut scratch,
    };
    let answer = run(text, START, 0, s, room);
    assert!(scratch.iter().all(|&cell| cell == 0));
    let untouched = rows.iter().flatten().chain(&store).all(|&cell| cell == 7);
    (answer, untouched)
}

/// A refusal that has left rows and store as they were.
fn refused((answer, untouched): (Result<Answer, Refusal>, bool)) -> Refusal {
    assert!(untouched);
    answer.err().unwrap()
}

#[test]
fn opening_without_room_is_9() {
    let mut out = [7; 2];
    assert_eq!(open(b"abc", &mut out).err(), Some(Refusal::ShortSlice));
    assert_eq!(out, [7, 7]);
}

#[test]
fn shapes_are_9() {
    let (mut out, mut scratch) = ([7; 1], [7; 2]);
    for lexer in [
        &mut [0, 0, 1][..],
        &mut [0, 32, 1, 258],
        &mut [0, 0, 0, 258],
    ] {
        let before = lexer.to_vec();
        let answer = next_token(lexer, &[0x31], &scope(768), &mut out, &mut scratch);
        assert_eq!(answer.err(), Some(Refusal::ShortSlice));
        assert_eq!((&*lexer, out, scratch), (&before[..], [7], [0, 0]));
    }
    let room = Room {
        rows: &mut [[0; 11]; 2],
        store: &mut [],
        scratch: &mut [],
    };
    let answer = run(&[], START, 32, &scope(768), room);
    assert_eq!(answer.err(), Some(Refusal::ShortSlice));
}

#[test]
fn short_slices_are_9() {
    let text = cells("a-b");
    assert!(run_into(&text, &scope(768), [5, 3, 6]).0.is_ok());
    for sizes in [[4, 3, 6], [5, 2, 6], [5, 3, 5]] {
        let answer = run_into(&text, &scope(768), sizes);
        assert_eq!(refused(answer), Refusal::ShortSlice);
    }
}

#[test]
fn long_texts_are_1() {
    let text = vec![0x31; 16_385];
    let answer = run_into(&text, &scope(0), [0, 0, 0]);
    assert_eq!(refused(answer), Refusal::TooLong);
    let mut lexer = [20_000, 0, 1, 258];
    let answer = next_token(&mut lexer, &text, &scope(0), &mut [], &mut []);
    assert_eq!(answer.err(), Some(Refusal::TooLong));
    assert_eq!(lexer, [20_000, 0, 1, 258]);
}

#[test]
fn broken_scopes_are_10() {
    let answer = run_into(&cells("a"), &scope(767), [0, 0, 0]);
    assert_eq!(refused(answer), Refusal::BrokenScope);
    let opened = scope_opened(&mut [0; 2]).err();
    assert_eq!(opened, Some(Refusal::BrokenScope));
    let mut s = scope(768);
    s.counts = [33, 0, 0];
    assert_eq!(scope_pop(&mut s).err(), Some(Refusal::BrokenScope));
    assert_eq!(s.counts, [33, 0, 0]);
}

#[test]
fn broken_lists_are_10() {
    let mut s = scope(768);
    let names = cells("ab");
    let kind = [[0, 2, 0, 1]];
    let outside = [[0, 0, 1, 2]];
    let no_parent = [[1, 0, 0, 1]];
    let below_a_variable = [[0, 0, 0, 1], [1, 0, 1, 1]];
    for list in [&kind[..], &outside, &no_parent, &below_a_variable] {
        let answer = scope_push(&mut s, list, &names);
        assert_eq!(answer.err(), Some(Refusal::BrokenScope));
        let answer = scope_set_context(&mut s, &names, list, &names);
        assert_eq!(answer.err(), Some(Refusal::BrokenScope));
    }
    let no_scalar = scope_set_entry_name(&mut s, &[0xD800]);
    assert_eq!(no_scalar.err(), Some(Refusal::BrokenScope));
    assert_eq!(s.counts, [1, 0, 0]);
    assert!(s.slots.iter().flatten().all(|&cell| cell == 0));
}

#[test]
fn broken_records_are_13() {
    let start = [0, START, 0, 0, 0, 0, 0, 0, 0, 0, 0];
    let end = [0, 0, 1, 0, 13, 0, 0, 0, 0, 0, 0];
    let repaired = |old_rows: &[Row], part: &[u32]| {
        let request = Request {
            old_length: 1,
            old_rows,
            old_store: &[],
            from: 0,
            to: 1,
            size: 1,
            part,
        };
        let mut rows = [[7; 11]; 3];
        let room = Room {
            rows: &mut rows,
            store: &mut [7],
            scratch: &mut [7, 7],
        };
        let answer = repair(&request, &scope(768), room);
        assert_eq!(answer.is_err(), rows == [[7; 11]; 3]);
        answer.map(|answer| answer.items).map_err(|r| r.number())
    };
    let space = [0x20];
    assert_eq!(repaired(&[start, end], &space), Ok(2));
    assert_eq!(repaired(&[start, end], &[]), Err(13));
    assert_eq!(repaired(&[start], &space), Err(13));
    assert_eq!(repaired(&[], &space), Err(13));
    let mut beyond = end;
    beyond[4] = 14;
    assert_eq!(repaired(&[start, beyond], &space), Err(13));
}
