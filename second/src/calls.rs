//! What each public call must answer, for any class count, tally, table,
//! class numbers and buffer lengths. A refused call changes no lent byte, with
//! reading as the one exception.

use crate::book;
use crate::classes::{pairs, MOST_CLASSES};
use crate::facts::{Fact, Facts};
use crate::hierarchy::Hierarchy;
use crate::marks::{Mark, Marks};
use crate::refusal::{Refusal, Session};

/// Whether a call was refused, and the session it gives back.
pub type Reply = (Result<(), Refusal>, Session);

/// "Fresh gives yes on the diagonal, open elsewhere, tally 0." Refusals 1, 2.
pub fn fresh(classes: u64, table: &mut [u8]) -> Reply {
    match room(classes, table) {
        Ok(n) => {
            Facts::none(n).marks().put(table);
            (Ok(()), Session { classes, tests: 0 })
        }
        Err(refusal) => (Err(refusal), Session::NONE),
    }
}

/// "Tell takes a fact and never counts." Refusals 1 to 4, then 5, 6.
pub fn tell(session: Session, table: &mut [u8], a: u64, b: u64, yes: bool) -> Reply {
    match take(session, table, a, b, yes) {
        Ok(_) => (Ok(()), session),
        Err(refusal) => (Err(refusal), session),
    }
}

/// "Answer takes a fact and adds one to the tally exactly when that pair was
/// open before the call and the fact is accepted." Refusals as for tell.
pub fn answer(session: Session, table: &mut [u8], a: u64, b: u64, yes: bool) -> Reply {
    match take(session, table, a, b, yes) {
        Ok(before) => {
            let counted = u64::from(before == Mark::Open);
            let tests = session.tests + counted;
            (Ok(()), Session { tests, ..session })
        }
        Err(refusal) => (Err(refusal), session),
    }
}

/// A trial clip, document 02's item 1: "no member of the set lies under a
/// non-member". `played` has a flag for each class, set for the members.
/// "Clips aren't counted as tests." Refusals 1 to 4, then 5, 6.
pub fn clip(session: Session, table: &mut [u8], played: &[bool; MOST_CLASSES]) -> Reply {
    (take_clip(session, table, played), session)
}

/// "Next names the first open pair"; nothing when it says done. Refusals 1 to 4.
pub fn next(session: Session, table: &[u8]) -> Result<Option<(usize, usize)>, Refusal> {
    Ok(given(session, table)?.first_open())
}

/// The count of open pairs among the n*n. Refusals 1 to 4.
pub fn open_pairs(session: Session, table: &[u8]) -> Result<usize, Refusal> {
    Ok(given(session, table)?.open_pairs())
}

/// "Hierarchy writes n heads, a byte each in class order, to one buffer and
/// the direct steps to another, two bytes each, ordered by a and then b; it
/// returns their count." Refusals 1 to 4, then 7, 8.
pub fn hierarchy(
    session: Session,
    table: &[u8],
    heads: &mut [u8],
    steps: &mut [u8],
) -> Result<usize, Refusal> {
    let marks = given(session, table)?;
    Refusal::when(marks.open_pairs() > 0, 7)?;
    let hierarchy = Hierarchy::of(&marks);
    let direct_steps = hierarchy.direct_steps();
    let step_classes: Vec<usize> = direct_steps.iter().flat_map(|&(a, b)| [a, b]).collect();
    let heads_short = heads.len() < hierarchy.heads().len();
    Refusal::when(heads_short || steps.len() < step_classes.len(), 8)?;
    put_classes(heads, hierarchy.heads());
    put_classes(steps, &step_classes);
    Ok(direct_steps.len())
}

/// The ladder from a to b, "one byte a rung; the count is returned". Refusals
/// 1 to 4, then 5, 7, 9, 8.
pub fn ladder(
    session: Session,
    table: &[u8],
    a: u64,
    b: u64,
    rungs: &mut [u8],
) -> Result<usize, Refusal> {
    let marks = given(session, table)?;
    let (a, b) = (class(&marks, a)?, class(&marks, b)?);
    Refusal::when(marks.open_pairs() > 0, 7)?;
    Refusal::when(!marks.is_yes(a, b), 9)?;
    let ladder = Hierarchy::of(&marks).ladder(a, b);
    Refusal::when(rungs.len() < ladder.len(), 8)?;
    put_classes(rungs, &ladder);
    Ok(ladder.len())
}

/// The writer: the book of the table's marks; "returns the length". Refusals 1
/// to 4, then 8.
pub fn write(session: Session, table: &[u8], book: &mut [u8]) -> Result<usize, Refusal> {
    let written = book::written(&given(session, table)?);
    let room = book.get_mut(..written.len()).ok_or(Refusal::new(8))?;
    room.copy_from_slice(&written);
    Ok(written.len())
}

/// Reading: "the table and session are those after the facts before" the
/// fault. "If no class count was accepted the table is untouched and the
/// session is n 0, tally 0": the marks of 0 classes are no bytes.
pub fn read(book: &[u8], table: &mut [u8]) -> Reply {
    let reading = book::read(book, table.len());
    reading.facts.marks().put(table);
    let session = Session {
        classes: reading.facts.n() as u64,
        tests: reading.tests,
    };
    (reading.refusal.map_or(Ok(()), Err), session)
}

/// Refusals 1, 2: "n is 0 or above 128", "table shorter than n*n". Gives n.
fn room(classes: u64, table: &[u8]) -> Result<usize, Refusal> {
    let n = usize::try_from(classes).unwrap_or(usize::MAX);
    Refusal::when(n == 0 || n > MOST_CLASSES, 1)?;
    Refusal::when(table.len() < n * n, 2)?;
    Ok(n)
}

/// "Every other call except reading starts 1, 2, 3, 4": 3 is "table not
/// sound", 4 "tally plus open pairs exceeds n*n-n". Gives the table's marks.
fn given(session: Session, table: &[u8]) -> Result<Marks, Refusal> {
    let n = room(session.classes, table)?;
    let marks = Marks::of_table(n, table)
        .filter(Marks::sound)
        .ok_or(Refusal::new(3))?;
    let most = (n * n - n) as u64;
    let open = marks.open_pairs() as u64;
    Refusal::when(session.tests.saturating_add(open) > most, 4)?;
    Ok(marks)
}

/// Refusal 5: "a class number is n or more".
fn class(marks: &Marks, number: u64) -> Result<usize, Refusal> {
    let number = usize::try_from(number).unwrap_or(usize::MAX);
    Refusal::when(number >= marks.n(), 5)?;
    Ok(number)
}

/// What tell and answer share: the table becomes that of its own marks and the
/// fact, all taken as facts. Gives the mark that the pair had before.
fn take(session: Session, table: &mut [u8], a: u64, b: u64, yes: bool) -> Result<Mark, Refusal> {
    let marks = given(session, table)?;
    let (a, b) = (class(&marks, a)?, class(&marks, b)?);
    let mut facts = Facts::of_marks(&marks);
    take_fact(&mut facts, Fact { a, b, yes })?;
    facts.marks().put(table);
    Ok(marks.at(a, b))
}

/// Refusal 6: "the fact contradicts".
fn take_fact(facts: &mut Facts, fact: Fact) -> Result<(), Refusal> {
    Refusal::when(facts.contradicts(fact), 6)?;
    facts.accept(fact);
    Ok(())
}

/// "The same outcome as telling all those noes one by one, in any order, or
/// nothing changed if one of them contradicts": they are added one by one to
/// the table's own marks taken as facts, and the table is made at the end.
fn take_clip(
    session: Session,
    table: &mut [u8],
    played: &[bool; MOST_CLASSES],
) -> Result<(), Refusal> {
    let marks = given(session, table)?;
    let n = marks.n();
    Refusal::when(played[n..].contains(&true), 5)?;
    let mut facts = Facts::of_marks(&marks);
    for (a, b) in pairs(n).filter(|&(a, b)| played[a] && !played[b]) {
        take_fact(&mut facts, Fact { a, b, yes: false })?;
    }
    facts.marks().put(table);
    Ok(())
}

/// Class numbers, a byte each, from the start of a buffer on: "bytes past
/// those written keep their values".
fn put_classes(buffer: &mut [u8], classes: &[usize]) {
    for (byte, &class) in buffer.iter_mut().zip(classes) {
        *byte = book::byte(class);
    }
}
