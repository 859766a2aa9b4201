//! "What the printing program writes."

use crate::book::{self, Reading};
use crate::hierarchy::Hierarchy;
use crate::refusal::Refusal;

/// The input buffer. Refusal 15 is "program only, before all others: input
/// above 32,768 bytes".
pub const MOST_INPUT: usize = 32_768;

/// "One table of 16,384 marks."
const TABLE: usize = 16_384;

/// What is printed for an input. Of an input above 32,768 bytes any part that
/// is longer than that will do.
pub fn printed(input: &[u8]) -> String {
    match accepted(input) {
        Ok(reading) => report(&reading),
        Err(refusal) => format!("R {} {}\n", refusal.number, refusal.place),
    }
}

fn accepted(input: &[u8]) -> Result<Reading, Refusal> {
    Refusal::when_at(input.len() > MOST_INPUT, 15, MOST_INPUT)?;
    let reading = book::read(input, TABLE);
    match reading.refusal {
        Some(refusal) => Err(refusal),
        None => Ok(reading),
    }
}

/// "Accepted: `N n T t O o` (classes, tally, open pairs). If o is above 0,
/// `Q a b`, the next question. Else one `C i h` per class (class, head), then
/// one `E a b` per direct step."
fn report(reading: &Reading) -> String {
    let marks = reading.facts.marks();
    let (n, tests, open) = (marks.n(), reading.tests, marks.open_pairs());
    let mut lines = vec![format!("N {n} T {tests} O {open}\n")];
    match marks.first_open() {
        Some((a, b)) => lines.push(format!("Q {a} {b}\n")),
        None => lines.extend(hierarchy_lines(&Hierarchy::of(&marks))),
    }
    lines.concat()
}

fn hierarchy_lines(hierarchy: &Hierarchy) -> Vec<String> {
    let heads = hierarchy.heads().iter().enumerate();
    let steps = hierarchy.direct_steps();
    heads
        .map(|(class, head)| format!("C {class} {head}\n"))
        .chain(steps.iter().map(|(a, b)| format!("E {a} {b}\n")))
        .collect()
}
