//! The worked marks of single calls, P1 to P12 first.

use super::*;
use crate::calls::{hierarchy, ladder, next, open_pairs, read, write};

fn asks(state: &State) -> Result<Option<(usize, usize)>, Refusal> {
    next(state.0, &state.1)
}

/// A tell that must be refused and change nothing.
fn tell_refused(state: &State, fact: (u64, u64, bool), number: u8) {
    let (session, mut table) = state.clone();
    let reply = tell(session, &mut table, fact.0, fact.1, fact.2);
    assert_eq!(reply, (refused(number), session));
    assert_eq!(table, state.1);
}

#[test]
fn p1_one_class_is_done() {
    assert_eq!(asks(&fresh_state(1)), Ok(None));
}

#[test]
fn p2_to_p5_a_yes_settles_a_no() {
    let p2 = fresh_state(3);
    assert_eq!(p2.1, [1, 0, 0, 0, 1, 0, 0, 0, 1]);
    assert_eq!(left_open(&p2).len(), 6);
    assert_eq!(asks(&p2), Ok(Some((0, 1))));
    let p3 = told(&p2, &[(0, 2, NO)]);
    assert_eq!(p3.1, [1, 0, 2, 0, 1, 0, 0, 0, 1]);
    assert_eq!(left_open(&p3).len(), 5);
    let p4 = told(&p3, &[(0, 1, YES)]);
    assert_eq!(p4.1, [1, 1, 2, 0, 1, 2, 0, 0, 1]);
    assert_eq!(left_open(&p4), [(1, 0), (2, 0), (2, 1)]);
    tell_refused(&p4, (1, 2, YES), 6);
}

#[test]
fn p6_to_p8_chains_and_groups() {
    let p6 = told(&fresh_state(3), &[(0, 1, YES), (1, 2, YES)]);
    assert_eq!(p6.1[2], 1);
    assert_eq!(left_open(&p6), [(1, 0), (2, 0), (2, 1)]);
    let p7 = told(&p6, &[(2, 0, NO)]);
    assert_eq!(left_open(&p7), [(1, 0), (2, 1)]);
    let p8 = told(&p7, &[(2, 1, YES)]);
    assert_eq!(left_open(&p8), []);
    assert_eq!(asks(&p8), Ok(None));
    let (mut heads, mut steps) = ([7; 4], [7; 4]);
    assert_eq!(hierarchy(p8.0, &p8.1, &mut heads, &mut steps), Ok(1));
    assert_eq!((heads, steps), ([0, 1, 1, 7], [0, 1, 7, 7]));
}

#[test]
fn p9_and_p10_the_diagonal() {
    let state = fresh_state(3);
    tell_refused(&state, (1, 1, NO), 6);
    assert_eq!(answered(&state, 1, 1, YES), state);
}

#[test]
fn p11_steps_and_ladders() {
    let (session, table) = p11();
    assert_eq!(left_open(&(session, table.clone())), []);
    let (mut heads, mut steps) = ([7; 4], [7; 8]);
    assert_eq!(hierarchy(session, &table, &mut heads, &mut steps), Ok(4));
    assert_eq!(heads, [0, 1, 2, 3]);
    assert_eq!(steps, [0, 1, 0, 2, 1, 3, 2, 3]);
    let mut rungs = [7; 4];
    assert_eq!(ladder(session, &table, 0, 3, &mut rungs), Ok(3));
    assert_eq!(rungs, [0, 1, 3, 7]);
    assert_eq!(ladder(session, &table, 1, 2, &mut rungs), refused(9));
    assert_eq!(rungs, [0, 1, 3, 7]);
}

#[test]
fn p12_the_book_of_p8() {
    let (session, table) = p8();
    let expected = hex("01 00 01 03 02 00 08 00 01 00 02 01 02 02 01 03 00 04 01 00 02 00");
    let mut book = [0xaa; 24];
    assert_eq!(write(session, &table, &mut book), Ok(22));
    assert_eq!(book[..22], expected);
    assert_eq!(book[22..], [0xaa, 0xaa]);
    let mut back = vec![7; 9];
    assert_eq!(read(&expected, &mut back), (Ok(()), session));
    assert_eq!(back, table);
}

#[test]
fn class_counts_and_table_lengths() {
    let mut table = vec![5; 129 * 129];
    assert_eq!(fresh(128, &mut table), (Ok(()), session(128, 0)));
    assert_eq!(table[128 * 128..], vec![5; 257]);
    let before = table.clone();
    assert_eq!(fresh(129, &mut table), (refused(1), session(0, 0)));
    assert_eq!(fresh(0, &mut table), (refused(1), session(0, 0)));
    assert_eq!(fresh(u64::MAX, &mut table), (refused(1), session(0, 0)));
    assert_eq!(table, before);
    assert_eq!(fresh(3, &mut [5; 9]), (Ok(()), session(3, 0)));
    let mut short = [5; 8];
    assert_eq!(fresh(3, &mut short), (refused(2), session(0, 0)));
    assert_eq!(short, [5; 8]);
    assert_eq!(next(session(3, 0), &[1; 8]), refused(2));
    assert_eq!(next(session(129, 0), &table), refused(1));
}

#[test]
fn short_buffers() {
    let (session, table) = p11();
    let (mut heads, mut steps) = ([7; 4], [7; 7]);
    let short_steps = hierarchy(session, &table, &mut heads, &mut steps);
    assert_eq!((short_steps, heads, steps), (refused(8), [7; 4], [7; 7]));
    let (mut heads, mut steps) = ([7; 3], [7; 8]);
    let short_heads = hierarchy(session, &table, &mut heads, &mut steps);
    assert_eq!((short_heads, heads, steps), (refused(8), [7; 3], [7; 8]));
    let mut rungs = [7; 2];
    let short_rungs = ladder(session, &table, 0, 3, &mut rungs);
    assert_eq!((short_rungs, rungs), (refused(8), [7; 2]));
    let mut book = [7; 21];
    let short_book = write(session, &table, &mut book);
    assert_eq!((short_book, book), (refused(8), [7; 21]));
}

/// Those of P1 to P4, P6 to P8 and P11, and of 128 fresh classes.
#[test]
fn counts_of_open_pairs() {
    let count = |state: &State| open_pairs(state.0, &state.1);
    assert_eq!(count(&fresh_state(1)), Ok(0));
    let p2 = fresh_state(3);
    assert_eq!(count(&p2), Ok(6));
    let p3 = told(&p2, &[(0, 2, NO)]);
    assert_eq!(count(&p3), Ok(5));
    assert_eq!(count(&told(&p3, &[(0, 1, YES)])), Ok(3));
    let p6 = told(&p2, &[(0, 1, YES), (1, 2, YES)]);
    assert_eq!(count(&p6), Ok(3));
    assert_eq!(count(&told(&p6, &[(2, 0, NO)])), Ok(2));
    assert_eq!(count(&p8()), Ok(0));
    assert_eq!(count(&p11()), Ok(0));
    assert_eq!(count(&fresh_state(128)), Ok(128 * 128 - 128));
}

#[test]
fn open_pairs_of_lent_bytes() {
    let fresh = [1, 0, 0, 0, 1, 0, 0, 0, 1, 0, 3];
    // Bytes from n*n on are no marks, open or other.
    assert_eq!(open_pairs(session(3, 0), &fresh), Ok(6));
    assert_eq!(open_pairs(session(3, 0), &fresh[..8]), refused(2));
    assert_eq!(open_pairs(session(0, 0), &fresh), refused(1));
    assert_eq!(open_pairs(session(129, 9), &[]), refused(1));
    assert_eq!(open_pairs(session(4, 9), &[3; 15]), refused(2));
    // One class open to itself, and a tally that is too high besides.
    assert_eq!(open_pairs(session(1, 9), &[0]), refused(3));
    assert_eq!(open_pairs(session(3, 1), &fresh), refused(4));
    assert_eq!(open_pairs(session(3, u64::MAX), &fresh), refused(4));
}

/// "From any moment on, answers counted since plus pairs still open never
/// exceed the pairs open at that moment."
#[test]
fn open_pairs_fall_with_answers() {
    let mut state = fresh_state(3);
    let mut open = vec![open_pairs(state.0, &state.1)];
    for (a, b, yes) in [
        (0, 1, YES),
        (1, 2, YES),
        (0, 2, YES),
        (2, 0, NO),
        (2, 1, YES),
    ] {
        state = answered(&state, a, b, yes);
        open.push(open_pairs(state.0, &state.1));
    }
    assert_eq!(open, [Ok(6), Ok(5), Ok(3), Ok(3), Ok(2), Ok(0)]);
    assert_eq!(state.0, session(3, 4));
}

#[test]
fn tables_that_are_not_sound() {
    let not_transitive = [1, 1, 0, 0, 1, 1, 0, 0, 1];
    let mark_of_3 = [1, 0, 3, 0, 1, 0, 0, 0, 1];
    let diagonal_open = [1, 0, 0, 0, 0, 0, 0, 0, 1];
    let diagonal_no = [1, 0, 0, 0, 2, 0, 0, 0, 1];
    // No (0, 2) and yes (0, 1) with (1, 2) open, then no (0, 2) and yes (1, 2)
    // with (0, 1) open.
    let not_pruned_above = [1, 1, 2, 0, 1, 0, 0, 0, 1];
    let not_pruned_below = [1, 0, 2, 0, 1, 1, 0, 0, 1];
    let tables = [
        not_transitive,
        mark_of_3,
        diagonal_open,
        diagonal_no,
        not_pruned_above,
        not_pruned_below,
    ];
    for table in tables {
        assert_eq!(next(session(3, 0), &table), refused(3));
        tell_refused(&(session(3, 99), table.to_vec()), (5, 5, NO), 3);
    }
    let mark_of_3_after_the_end = [1, 0, 0, 0, 1, 0, 0, 0, 1, 3];
    let asked = next(session(3, 0), &mark_of_3_after_the_end);
    assert_eq!(asked, Ok(Some((0, 1))));
}

#[test]
fn pairs_on_the_wrong_side_stay_open() {
    // "Pruning below c and above d" is the error: with 0 under 1 and 2 under
    // 3, no (1, 2) settles nothing on (0, 3), and no (0, 3) settles (1, 2).
    let state = told(&fresh_state(4), &[(0, 1, YES), (2, 3, YES)]);
    assert_eq!(told(&state, &[(1, 2, NO)]).1[3], 0);
    assert_eq!(told(&state, &[(0, 3, NO)]).1[4 + 2], 2);
}

#[test]
fn tallies_too_high() {
    let (_, table) = fresh_state(3);
    assert_eq!(next(session(3, 1), &table), refused(4));
    tell_refused(&(session(3, 1), table.clone()), (9, 9, NO), 4);
    tell_refused(&(session(3, u64::MAX), table), (0, 1, NO), 4);
    let (_, settled) = p8();
    assert_eq!(next(session(3, 6), &settled), Ok(None));
    assert_eq!(next(session(3, 7), &settled), refused(4));
}

#[test]
fn what_an_answer_counts() {
    let one = answered(&fresh_state(3), 0, 1, YES);
    assert_eq!(one.0, session(3, 1));
    let two = answered(&one, 1, 2, YES);
    assert_eq!(two.0, session(3, 2));
    // A derived mark, and the same answer again.
    assert_eq!(answered(&two, 0, 2, YES), two);
    assert_eq!(answered(&two, 1, 2, YES), two);
    // "Counting an answer before the refusal is known" is the error.
    let (session, mut table) = two.clone();
    let reply = answer(session, &mut table, 0, 2, NO);
    assert_eq!((reply, table), ((refused(6), session), two.1));
}

#[test]
fn orders_of_refusals() {
    let open = fresh_state(3);
    tell_refused(&open, (3, 0, YES), 5);
    tell_refused(&open, (0, 3, NO), 5);
    tell_refused(&open, (u64::MAX, u64::MAX, NO), 5);
    let rungs = &mut [];
    assert_eq!(ladder(open.0, &open.1, 3, 0, rungs), refused(5));
    assert_eq!(ladder(open.0, &open.1, 0, 1, rungs), refused(7));
    assert_eq!(hierarchy(open.0, &open.1, &mut [], &mut []), refused(7));
    let settled = p8();
    assert_eq!(ladder(settled.0, &settled.1, 1, 0, rungs), refused(9));
    assert_eq!(ladder(settled.0, &settled.1, 0, 1, rungs), refused(8));
}

#[test]
fn groups_and_rungs() {
    // In a group of two, both steps up stay: 0 and 1 are equal, under 2.
    let facts = [(0, 1, YES), (1, 0, YES), (1, 2, YES), (2, 0, NO)];
    let (session, table) = told(&fresh_state(3), &facts);
    let (mut heads, mut steps) = ([7; 3], [7; 2]);
    assert_eq!(hierarchy(session, &table, &mut heads, &mut steps), Ok(1));
    assert_eq!((heads, steps), ([0, 0, 2], [0, 2]));
    // Equal classes give one rung, and b need not be a head.
    let mut rungs = [7; 2];
    assert_eq!(ladder(session, &table, 1, 0, &mut rungs), Ok(1));
    assert_eq!(rungs, [0, 7]);
    let (session, table) = p8();
    assert_eq!(ladder(session, &table, 0, 2, &mut rungs), Ok(2));
    assert_eq!(rungs, [0, 1]);
}

#[test]
fn one_class() {
    let (session, table) = fresh_state(1);
    let (mut heads, mut book) = ([7; 1], [7; 10]);
    assert_eq!(hierarchy(session, &table, &mut heads, &mut []), Ok(0));
    assert_eq!(heads, [0]);
    assert_eq!(write(session, &table, &mut book), Ok(10));
    assert_eq!(book[..], hex("01 00 01 01 02 00 00 03 00 00"));
}

#[test]
fn the_writer_takes_open_pairs() {
    let (session, table) = told(&fresh_state(3), &[(0, 1, YES)]);
    let mut book = [7; 12];
    assert_eq!(write(session, &table, &mut book), Ok(12));
    assert_eq!(book[..], hex("01 00 01 03 02 00 02 00 01 03 00 00"));
}

#[test]
fn the_session_comes_back_as_given() {
    let mut table = vec![1];
    for given in [session(0, 5), session(129, 7), session(200, 0)] {
        let told = tell(given, &mut table, 0, 0, YES);
        assert_eq!(told, (refused(1), given));
        let answered = answer(given, &mut table, 0, 0, YES);
        assert_eq!(answered, (refused(1), given));
    }
}
