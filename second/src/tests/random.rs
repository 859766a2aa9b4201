//! Random books: they are the same each time, and what is said of them holds
//! together.

use super::session;
use crate::books::book;
use crate::calls::{answer, fresh, next, read, tell, write};
use crate::draw::Draw;
use crate::facts::{Fact, Facts};
use crate::marks::{Mark, Marks};
use crate::print::printed;

#[test]
fn one_seed_one_book() {
    for seed in 0..200 {
        assert_eq!(book(seed), book(seed));
    }
    assert_ne!(book(1), book(2));
}

/// Every refusal that the printing program can give in a book comes up, and
/// accepted books with and without open pairs do.
#[test]
fn books_of_every_kind() {
    let lines: Vec<String> = (0..600).map(|seed| printed(&book(seed))).collect();
    for number in [1, 5, 6, 10, 11, 12, 13, 14, 15] {
        let start = format!("R {number} ");
        assert!(lines.iter().any(|line| line.starts_with(&start)), "{start}");
    }
    assert!(lines.iter().any(|line| line.contains("\nE ")));
    assert!(lines.iter().any(|line| line.contains("\nQ ")));
}

/// The table that a book leaves is sound, is the table of its own marks, and
/// is read back from the book that the writer gives.
#[test]
fn tables_after_books() {
    for seed in 0..300 {
        let mut table = vec![0; 16_384];
        let (_, after) = read(&book(seed), &mut table);
        let n = after.classes as usize;
        if n == 0 || n > 24 {
            continue;
        }
        let marks = Marks::of_table(n, &table).unwrap();
        assert!(marks.sound());
        assert_eq!(Facts::of_marks(&marks).marks(), marks);
        assert!(next(after, &table).is_ok());
        let mut written = vec![0; 32_522];
        let length = write(after, &table, &mut written).unwrap();
        let mut back = vec![0; 16_384];
        let (result, given) = read(&written[..length], &mut back);
        assert_eq!((result, given), (Ok(()), session(after.classes, 0)));
        assert_eq!(back[..n * n], table[..n * n]);
    }
}

/// Facts given one call at a time and the same facts in a book agree.
#[test]
fn calls_and_books_agree() {
    for seed in 0..300 {
        let n = 1 + seed % 6;
        let mut draw = Draw::scattered(seed);
        let mut table = vec![0; 36];
        let (_, mut session) = fresh(n, &mut table);
        let mut book = vec![1, 0, 1, n as u8];
        for _ in 0..12 {
            let (a, b, yes) = (draw.below(n), draw.below(n), draw.once_in(2));
            let counted = draw.once_in(2);
            let call = if counted { answer } else { tell };
            let (result, given) = call(session, &mut table, a, b, yes);
            session = given;
            let told = [3 - u8::from(yes), 0, 2, a as u8, b as u8];
            let answered = [4, 0, 3, a as u8, b as u8, u8::from(yes)];
            let field: &[u8] = if counted { &answered } else { &told };
            let longer = [&book, field].concat();
            let mut other = vec![0; 36];
            let (read_result, read_session) = read(&longer, &mut other);
            assert_eq!(read_result.is_ok(), result.is_ok());
            assert_eq!((read_session, &other), (session, &table));
            if result.is_ok() {
                book = longer;
            }
        }
    }
}

/// The table of some facts has at each pair the mark that is searched for when
/// that pair alone is asked.
#[test]
fn marks_of_all_pairs_and_of_one() {
    for seed in 0..300 {
        let mut draw = Draw::scattered(seed);
        let n = 1 + draw.index(14);
        let mut facts = Facts::none(n);
        for _ in 0..3 * n {
            let (a, b, yes) = (draw.index(n), draw.index(n), draw.once_in(2));
            let fact = Fact { a, b, yes };
            if !facts.contradicts(fact) {
                facts.accept(fact);
            }
        }
        assert_eq!(facts.marks(), Marks::new(n, |a, b| facts.mark(a, b)));
    }
}

/// "The diagonal is yes, the yes marks are transitive, and whenever (c, d) is
/// no, (c, a) is yes and (b, d) is yes, (a, b) is no", class by class.
fn sound_class_by_class(marks: &Marks) -> bool {
    let all = || 0..marks.n();
    let yes = |a, b| marks.is_yes(a, b);
    let no = |a, b| marks.at(a, b) == Mark::No;
    let transitive = |a, b, c| !(yes(a, b) && yes(b, c)) || yes(a, c);
    let pruned = |a, b, c, d| !(no(c, d) && yes(c, a) && yes(b, d)) || no(a, b);
    all().all(|a| yes(a, a))
        && all().all(|a| all().all(|b| all().all(|c| transitive(a, b, c))))
        && all().all(|a| all().all(|b| all().all(|c| all().all(|d| pruned(a, b, c, d)))))
}

/// Every table of three classes, and tables of more with a byte changed.
#[test]
fn soundness_class_by_class() {
    let mut sound = 0;
    for number in 0..3u32.pow(9) {
        let bytes: Vec<u8> = (0..9).map(|i| (number / 3u32.pow(i) % 3) as u8).collect();
        let marks = Marks::of_table(3, &bytes).unwrap();
        assert_eq!(marks.sound(), sound_class_by_class(&marks), "{bytes:?}");
        sound += usize::from(marks.sound());
    }
    // The 29 orders of three classes, all pairs settled, and tables with open
    // pairs.
    assert!(sound > 29);
    for seed in 0..300 {
        let mut table = vec![0; 16_384];
        let n = read(&book(seed), &mut table).1.classes as usize;
        if n == 0 || n > 24 {
            continue;
        }
        let mut draw = Draw::scattered(seed);
        table[draw.index(n * n)] = draw.below(3) as u8;
        let marks = Marks::of_table(n, &table).unwrap();
        assert_eq!(marks.sound(), sound_class_by_class(&marks), "seed {seed}");
    }
}
