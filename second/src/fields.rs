//! Fields on their way into a random book.

use crate::book::byte;
use crate::draw::Draw;
use crate::facts::Fact;

/// `length` is what the field's head says; only damage makes it differ from
/// the contents.
#[derive(Clone, Debug)]
pub struct Field {
    pub tag: u8,
    pub length: u16,
    pub contents: Vec<u8>,
}

impl Field {
    pub fn new(tag: u8, contents: Vec<u8>) -> Field {
        let length = u16::try_from(contents.len()).unwrap_or(u16::MAX);
        Field {
            tag,
            length,
            contents,
        }
    }

    pub fn class_count(n: u8) -> Field {
        Field::new(1, vec![n])
    }

    /// Makes the head say how long the contents are.
    pub fn measure(&mut self) {
        *self = Field::new(self.tag, std::mem::take(&mut self.contents));
    }

    /// The bytes it takes in a book.
    pub fn size(&self) -> usize {
        3 + self.contents.len()
    }
}

/// The bytes of a run of fields.
pub fn bytes_of(fields: &[Field]) -> Vec<u8> {
    let mut bytes = Vec::new();
    for field in fields {
        bytes.push(field.tag);
        bytes.extend(field.length.to_be_bytes());
        bytes.extend(&field.contents);
    }
    bytes
}

/// The fields of a book without fault.
pub fn split(book: &[u8]) -> Vec<Field> {
    let mut fields = Vec::new();
    let mut rest = book;
    while let &[tag, high, low, ref after @ ..] = rest {
        let length = usize::from(u16::from_be_bytes([high, low])).min(after.len());
        fields.push(Field::new(tag, after[..length].to_vec()));
        rest = &after[length..];
    }
    fields
}

/// The facts as fields: told, as answers or both, many facts to a field or
/// few, with empty fields between.
pub fn fields_of(draw: &mut Draw, facts: &[Fact]) -> Vec<Field> {
    let mut facts = facts.to_vec();
    if draw.once_in(2) {
        facts.sort_by_key(|fact| !fact.yes);
    }
    let answers = draw.below(5);
    let break_once_in = [2, 10, 100_000][draw.index(3)];
    let empty_once_in = [5, 1_000][draw.index(2)];
    let mut fields: Vec<Field> = Vec::new();
    for fact in facts {
        let answer = draw.below(4) < answers;
        let tag = if answer { 4 } else { told_tag(fact) };
        let same = fields.last().is_some_and(|field| field.tag == tag);
        if !same || draw.once_in(break_once_in) {
            if draw.once_in(empty_once_in) {
                fields.push(Field::new(2 + draw.below(3) as u8, Vec::new()));
            }
            fields.push(Field::new(tag, Vec::new()));
        }
        if let Some(field) = fields.last_mut() {
            field.contents.extend(fact_bytes(tag, fact));
        }
    }
    fields.iter_mut().for_each(Field::measure);
    fields
}

fn told_tag(fact: Fact) -> u8 {
    if fact.yes {
        2
    } else {
        3
    }
}

fn fact_bytes(tag: u8, fact: Fact) -> Vec<u8> {
    let mut bytes = vec![byte(fact.a), byte(fact.b)];
    if tag == 4 {
        bytes.push(u8::from(fact.yes));
    }
    bytes
}
