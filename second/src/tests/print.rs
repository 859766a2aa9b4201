//! What the printing program prints.

use super::hex;
use crate::print::printed;

#[test]
fn the_printed_example_and_its_cut() {
    let book = hex("01 00 01 03 02 00 06 00 01 01 02 02 01 04 00 03 01 00 00");
    let whole = "N 3 T 1 O 0\nC 0 0\nC 1 1\nC 2 1\nE 0 1\n";
    assert_eq!(printed(&book), whole);
    let cut = &book[..book.len() - 6];
    assert_eq!(printed(cut), "N 3 T 0 O 2\nQ 1 0\n");
}

#[test]
fn worked_books() {
    let printed = |text| printed(&hex(text));
    assert_eq!(printed(""), "R 12 0\n");
    assert_eq!(printed("01 00"), "R 10 0\n");
    assert_eq!(printed("07 00 00"), "R 11 0\n");
    assert_eq!(printed("02 00 00"), "R 12 0\n");
    assert_eq!(printed("01 00 02 03 03"), "R 13 0\n");
    assert_eq!(printed("01 00 01 03 04 00 03 01 00 02"), "R 14 7\n");
    assert_eq!(printed("01 00 01 81"), "R 1 0\n");
    assert_eq!(printed("01 00 01 01"), "N 1 T 0 O 0\nC 0 0\n");
    // Refused: one line, though a fact before was taken.
    assert_eq!(printed("01 00 01 02 04 00 03 00 01 01 00"), "R 10 10\n");
}

#[test]
fn steps_of_p11() {
    let book = "01 00 01 04 02 00 08 00 01 00 02 01 03 02 03 03 00 04 01 02 02 01";
    let expected = "N 4 T 0 O 0\nC 0 0\nC 1 1\nC 2 2\nC 3 3\nE 0 1\nE 0 2\nE 1 3\nE 2 3\n";
    assert_eq!(printed(&hex(book)), expected);
}

#[test]
fn the_longest_input() {
    // 4 bytes, an empty field of 3 and one of 3 + 32,758.
    let mut book = hex("01 00 01 80 03 00 00 02 7f f6");
    book.resize(32_768, 5);
    assert_eq!(printed(&book), "N 128 T 0 O 16256\nQ 0 1\n");
    book.push(2);
    assert_eq!(printed(&book), "R 15 32768\n");
    assert_eq!(printed(&[9; 70_000]), "R 15 32768\n");
    assert_eq!(printed(&[9; 32_768]), "R 11 0\n");
}

#[test]
fn the_longest_full_book() {
    // A chain of 128 classes, all pairs told in row order: 32,522 bytes.
    let told = |tag: u8, yes: bool| {
        let pairs = (0..128u8).flat_map(|a| (0..128u8).map(move |b| (a, b)));
        let side = pairs.filter(move |&(a, b)| a != b && (a < b) == yes);
        let contents: Vec<u8> = side.flat_map(|(a, b)| [a, b]).collect();
        [vec![tag], hex("3f 80"), contents].concat()
    };
    let book = [hex("01 00 01 80"), told(2, true), told(3, false)].concat();
    assert_eq!(book.len(), 32_522);
    let lines = printed(&book);
    assert!(lines.starts_with("N 128 T 0 O 0\nC 0 0\n"));
    assert!(lines.contains("\nC 127 127\nE 0 1\nE 1 2\n"));
    assert!(lines.ends_with("\nE 126 127\n"));
    assert_eq!(lines.lines().count(), 1 + 128 + 127);
}
