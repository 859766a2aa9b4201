//! Document 01's worked marks, bytes worked by hand, document 02's clips
//! and the protocol of docs/SWEEP.md. Expected values are typed in from the
//! documents.

mod books;
mod calls;
mod clips;
mod print;
mod random;
mod sweep;

use crate::calls::{answer, fresh, tell};
use crate::refusal::{Refusal, Session};

/// A session and its table.
type State = (Session, Vec<u8>);

/// The bytes of a hex text such as "01 00 ff".
fn hex(text: &str) -> Vec<u8> {
    text.split_whitespace()
        .map(|byte| u8::from_str_radix(byte, 16).unwrap())
        .collect()
}

fn session(classes: u64, tests: u64) -> Session {
    Session { classes, tests }
}

fn refused<T>(number: u8) -> Result<T, Refusal> {
    Err(Refusal::new(number))
}

fn refused_at(number: u8, place: usize) -> Result<(), Refusal> {
    Err(Refusal { number, place })
}

/// A fresh table of n classes.
fn fresh_state(n: u64) -> State {
    let mut table = vec![9; (n * n) as usize];
    assert_eq!(fresh(n, &mut table), (Ok(()), session(n, 0)));
    (session(n, 0), table)
}

const YES: bool = true;
const NO: bool = false;

/// Tells facts that must be accepted.
fn told(state: &State, facts: &[(u64, u64, bool)]) -> State {
    let (session, mut table) = state.clone();
    for &(a, b, yes) in facts {
        assert_eq!(tell(session, &mut table, a, b, yes), (Ok(()), session));
    }
    (session, table)
}

/// Gives an answer that must be accepted.
fn answered(state: &State, a: u64, b: u64, yes: bool) -> State {
    let (session, mut table) = state.clone();
    let (result, session) = answer(session, &mut table, a, b, yes);
    assert_eq!(result, Ok(()));
    (session, table)
}

/// The open pairs in row order, as the table's bytes have them.
fn left_open(state: &State) -> Vec<(usize, usize)> {
    let (session, table) = state;
    let n = session.classes as usize;
    (0..n * n)
        .filter(|&i| table[i] == 0)
        .map(|i| (i / n, i % n))
        .collect()
}

/// P8: n 3, yes (0, 1), (1, 2), no (2, 0), yes (2, 1).
fn p8() -> State {
    let facts = [(0, 1, YES), (1, 2, YES), (2, 0, NO), (2, 1, YES)];
    told(&fresh_state(3), &facts)
}

/// P11: n 4, yes (0,1), (0,2), (1,3), (2,3), no (1,2), (2,1).
fn p11() -> State {
    let facts = [
        (0, 1, YES),
        (0, 2, YES),
        (1, 3, YES),
        (2, 3, YES),
        (1, 2, NO),
        (2, 1, NO),
    ];
    told(&fresh_state(4), &facts)
}
