//! "The fact book": reading one fact after the other, and writing.

use crate::classes::MOST_CLASSES;
use crate::facts::{Fact, Facts};
use crate::marks::{Mark, Marks};
use crate::refusal::Refusal;

/// A field: "one-byte tag, two-byte length (high byte first), that many
/// bytes". `place` is the index of its tag byte in the book.
struct Field<'a> {
    place: usize,
    tag: u8,
    contents: &'a [u8],
}

/// How far the reading of a book came: everything before the first fault.
pub struct Reading {
    /// The accepted facts; of 0 classes as long as no class count is accepted.
    pub facts: Facts,
    /// The answers accepted on open pairs.
    pub tests: u64,
    pub refusal: Option<Refusal>,
}

/// "Reading applies facts left to right on a fresh table", here one that has
/// `room` bytes.
pub fn read(book: &[u8], room: usize) -> Reading {
    let mut reading = Reading {
        facts: Facts::none(0),
        tests: 0,
        refusal: None,
    };
    reading.refusal = reading.take_book(book, room).err();
    reading
}

impl Reading {
    /// "In a book an empty one gives 12"; otherwise it is a run of fields.
    fn take_book(&mut self, book: &[u8], room: usize) -> Result<(), Refusal> {
        Refusal::when(book.is_empty(), 12)?;
        let mut place = 0;
        while place < book.len() {
            let field = field_at(book, place)?;
            match (field.tag, field.contents) {
                (1, &[n]) => self.take_class_count(n, place, room)?,
                _ => self.take_facts(&field)?,
            }
            place += 3 + field.contents.len();
        }
        Ok(())
    }

    /// "Then tag 1 gives 1, 2."
    fn take_class_count(&mut self, n: u8, place: usize, room: usize) -> Result<(), Refusal> {
        let n = usize::from(n);
        Refusal::when_at(n == 0 || n > MOST_CLASSES, 1, place)?;
        Refusal::when_at(room < n * n, 2, place)?;
        self.facts = Facts::none(n);
        Ok(())
    }

    fn take_facts(&mut self, field: &Field) -> Result<(), Refusal> {
        let size = fact_size(field.tag);
        for (index, bytes) in field.contents.chunks(size).enumerate() {
            self.take_fact(field.tag, bytes)
                .map_err(|number| Refusal::at(number, field.place + 3 + index * size))?;
        }
        Ok(())
    }

    /// "Each fact 14, 5, 6." A told fact never counts; an answer counts when
    /// its pair was open. Gives the refusal's number.
    fn take_fact(&mut self, tag: u8, bytes: &[u8]) -> Result<(), u8> {
        let (a, b, yes) = match (tag, bytes) {
            (2, &[a, b]) => (a, b, true),
            (3, &[a, b]) => (a, b, false),
            (_, &[a, b, 1]) => (a, b, true),
            (_, &[a, b, 0]) => (a, b, false),
            _ => return Err(14),
        };
        let (a, b) = (usize::from(a), usize::from(b));
        if a >= self.facts.n() || b >= self.facts.n() {
            return Err(5);
        }
        let fact = Fact { a, b, yes };
        if self.facts.contradicts(fact) {
            return Err(6);
        }
        if tag == 4 && self.facts.mark(a, b) == Mark::Open {
            self.tests += 1;
        }
        self.facts.accept(fact);
        Ok(())
    }
}

/// The field whose tag byte is at `place`: "a field gives 10 (head bytes), 11,
/// 12, 13, 10 (contents)".
fn field_at(book: &[u8], place: usize) -> Result<Field<'_>, Refusal> {
    let rest = book.get(place..).unwrap_or_default();
    let &[tag, high, low, ref after @ ..] = rest else {
        return Err(Refusal::at(10, place));
    };
    let length = usize::from(u16::from_be_bytes([high, low]));
    let first = place == 0;
    Refusal::when_at(!(1..=4).contains(&tag), 11, place)?;
    Refusal::when_at(first != (tag == 1), 12, place)?;
    Refusal::when_at(!length_allowed(tag, length), 13, place)?;
    let contents = after.get(..length).ok_or(Refusal::at(10, place))?;
    Ok(Field {
        place,
        tag,
        contents,
    })
}

/// Tag 1 has length 1, tags 2 and 3 an even length, tag 4 a multiple of 3.
fn length_allowed(tag: u8, length: usize) -> bool {
    match tag {
        1 => length == 1,
        _ => length.is_multiple_of(fact_size(tag)),
    }
}

/// The bytes of one fact: a, b, and for an answer its verdict.
pub fn fact_size(tag: u8) -> usize {
    if tag == 4 {
        3
    } else {
        2
    }
}

/// "The writer gives tag 1, then one tag 2 with every yes pair and one tag 3
/// with every no pair off the diagonal, each in row order."
pub fn written(marks: &Marks) -> Vec<u8> {
    let mut book = vec![1, 0, 1, byte(marks.n())];
    put_pairs(&mut book, 2, marks, Mark::Yes);
    put_pairs(&mut book, 3, marks, Mark::No);
    book
}

fn put_pairs(book: &mut Vec<u8>, tag: u8, marks: &Marks, mark: Mark) {
    let contents: Vec<u8> = marks
        .pairs_marked(mark)
        .filter(|(a, b)| a != b)
        .flat_map(|(a, b)| [byte(a), byte(b)])
        .collect();
    let length = u16::try_from(contents.len()).unwrap_or(u16::MAX);
    book.push(tag);
    book.extend(length.to_be_bytes());
    book.extend(contents);
}

/// A number below 256, as all class numbers and class counts are, as a byte.
pub fn byte(number: usize) -> u8 {
    u8::try_from(number).unwrap_or(u8::MAX)
}
