//! The worked marks of books, and bytes worked by hand.

use super::*;
use crate::calls::read;

/// A table of nine bytes that no call has written to.
const UNTOUCHED: [u8; 9] = [0xaa; 9];

/// The fresh table of n 3.
const FRESH: [u8; 9] = [1, 0, 0, 0, 1, 0, 0, 0, 1];

/// What reading a book gives on a table of nine bytes, and the table.
fn reading(text: &str) -> (Result<(), Refusal>, Session, [u8; 9]) {
    let mut table = UNTOUCHED;
    let (result, session) = read(&hex(text), &mut table);
    (result, session, table)
}

/// A book refused before a class count was accepted.
fn refused_whole(text: &str, number: u8) {
    let expected = (refused(number), session(0, 0), UNTOUCHED);
    assert_eq!(reading(text), expected, "{text}");
}

/// A book of n 3 refused before any fact.
fn refused_on_fresh(text: &str, number: u8, place: usize) {
    let expected = (refused_at(number, place), session(3, 0), FRESH);
    assert_eq!(reading(text), expected, "{text}");
}

#[test]
fn worked_books() {
    refused_whole("01 00", 10);
    refused_whole("07 00 00", 11);
    refused_whole("02 00 00", 12);
    refused_whole("01 00 02 03 03", 13);
    refused_on_fresh("01 00 01 03 04 00 03 01 00 02", 14, 7);
}

#[test]
fn heads_before_tags() {
    refused_whole("07", 10);
    refused_on_fresh("01 00 01 03 01", 10, 4);
    refused_on_fresh("01 00 01 03 09 00", 10, 4);
}

#[test]
fn first_fields() {
    refused_whole("", 12);
    refused_whole("00 00 00", 11);
    refused_whole("02 00 03", 12);
    refused_whole("01 00 05", 13);
    refused_whole("01 00 00", 13);
    refused_whole("01 00 01", 10);
    refused_whole("01 00 01 00", 1);
    refused_whole("01 00 01 81", 1);
    refused_whole("01 00 01 ff 09", 1);
    refused_whole("01 00 01 04", 2);
}

#[test]
fn second_class_counts() {
    refused_on_fresh("01 00 01 03 01 00 07", 12, 4);
    refused_on_fresh("01 00 01 03 01 00 01", 12, 4);
    refused_on_fresh("01 00 01 03 01 00 01 03", 12, 4);
    let after_a_fact = reading("01 00 01 03 04 00 03 00 01 01 01 00 01 02");
    let table = [1, 1, 0, 0, 1, 0, 0, 0, 1];
    assert_eq!(after_a_fact, (refused_at(12, 10), session(3, 1), table));
}

#[test]
fn lengths_and_contents() {
    refused_on_fresh("01 00 01 03 02 00 05 00", 13, 4);
    refused_on_fresh("01 00 01 03 04 00 02 00 01", 13, 4);
    refused_on_fresh("01 00 01 03 09 00 00", 11, 4);
    // A field cut in its last fact applies nothing.
    refused_on_fresh("01 00 01 03 02 00 04 00 01 01", 10, 4);
    refused_on_fresh("01 00 01 03 04 00 06 00 01 01 01 02", 10, 4);
    // The length's high byte comes first.
    refused_on_fresh("01 00 01 03 02 02 00 00 01", 10, 4);
}

#[test]
fn whole_fields_are_enough() {
    let fresh = (Ok(()), session(3, 0), FRESH);
    assert_eq!(reading("01 00 01 03"), fresh);
    let empty_fields = reading("01 00 01 03 04 00 00 03 00 00 02 00 00");
    assert_eq!(empty_fields, fresh);
}

#[test]
fn faults_of_facts() {
    // The place is that of the byte a, also when b or the verdict is at fault.
    refused_on_fresh("01 00 01 03 02 00 02 03 00", 5, 7);
    refused_on_fresh("01 00 01 03 03 00 02 00 03", 5, 7);
    refused_on_fresh("01 00 01 03 03 00 02 01 01", 6, 7);
    // Within one fact 14 comes before 5 and 6.
    refused_on_fresh("01 00 01 03 04 00 03 09 09 02", 14, 7);
    // A fault in the first fact comes before a 14 in the second.
    refused_on_fresh("01 00 01 03 04 00 06 01 01 00 00 01 02", 6, 7);
    refused_on_fresh("01 00 01 03 04 00 06 09 01 00 00 01 02", 5, 7);
}

#[test]
fn facts_before_a_fault_stay() {
    let table = [1, 1, 2, 0, 1, 2, 0, 0, 1];
    let third = reading("01 00 01 03 03 00 02 00 02 04 00 06 00 01 01 01 02 01");
    assert_eq!(third, (refused_at(6, 15), session(3, 1), table));
}

#[test]
fn told_facts_and_settled_pairs_do_not_count() {
    // Told yes (0, 1), (1, 2); answered yes (0, 2), which is derived, yes (1,
    // 1) and no (2, 1), which settles (2, 0) too, for 0 is under 1.
    let book = "01 00 01 03 02 00 04 00 01 01 02 04 00 09 00 02 01 01 01 01 02 01 00";
    let table = [1, 1, 1, 0, 1, 1, 2, 2, 1];
    assert_eq!(reading(book), (Ok(()), session(3, 1), table));
}

#[test]
fn bytes_past_the_marks_are_not_written() {
    let mut table = UNTOUCHED;
    let (result, given) = read(&hex("01 00 01 02 02 00 02 00 01"), &mut table);
    assert_eq!((result, given), (Ok(()), session(2, 0)));
    assert_eq!(table[..4], [1, 1, 0, 1]);
    assert_eq!(table[4..], UNTOUCHED[4..]);
}

#[test]
fn the_library_reads_any_length() {
    let mut book = hex("01 00 01 03");
    for _ in 0..20_000 {
        book.extend([2, 0, 0]);
    }
    let mut table = UNTOUCHED;
    assert_eq!(read(&book, &mut table), (Ok(()), session(3, 0)));
    assert_eq!(table, FRESH);
}
