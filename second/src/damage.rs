//! What can be wrong with a book.

use crate::book::fact_size;
use crate::draw::Draw;
use crate::fields::{bytes_of, Field};

/// The bytes of a book of these fields, the first of them tag 1, with
/// something wrong: in its bytes, or in its fields before they are written.
pub fn damage(draw: &mut Draw, mut fields: Vec<Field>) -> Vec<u8> {
    let kind = draw.below(16);
    if kind >= 5 {
        damage_fields(draw, kind, &mut fields);
        return bytes_of(&fields);
    }
    let mut bytes = bytes_of(&fields);
    damage_bytes(draw, kind, &mut bytes);
    bytes
}

fn damage_bytes(draw: &mut Draw, kind: u64, bytes: &mut Vec<u8>) {
    let place = draw.index(bytes.len());
    match kind {
        0 => bytes.truncate(place),
        1 => bytes[place] = draw.below(256) as u8,
        2 => bytes[place] = draw.below(6) as u8,
        3 => bytes.insert(place, draw.below(6) as u8),
        _ => {
            bytes.remove(place);
        }
    }
}

fn damage_fields(draw: &mut Draw, kind: u64, fields: &mut Vec<Field>) {
    match kind {
        5 => wrong_length(draw, fields),
        6 => wrong_tag(draw, fields),
        7 => second_class_count(draw, fields),
        8 | 9 => wrong_verdict(draw, fields),
        10 | 11 => class_too_large(draw, fields),
        12 => diagonal_no(draw, fields),
        13 => first_field(draw, fields),
        14 => one_byte_more(draw, fields),
        _ => head_cut(draw, fields),
    }
}

fn any_field<'a>(draw: &mut Draw, fields: &'a mut [Field]) -> &'a mut Field {
    let place = draw.index(fields.len());
    &mut fields[place]
}

/// A head that says one byte more or less, or anything.
fn wrong_length(draw: &mut Draw, fields: &mut [Field]) {
    let field = any_field(draw, fields);
    field.length = match draw.below(4) {
        0 => field.length.wrapping_add(1),
        1 => field.length.wrapping_sub(1),
        2 => field.length.wrapping_add(6),
        _ => draw.below(65_536) as u16,
    };
}

fn wrong_tag(draw: &mut Draw, fields: &mut [Field]) {
    let field = any_field(draw, fields);
    field.tag = match draw.below(3) {
        0 => [0, 5, 255][draw.index(3)],
        1 => draw.below(256) as u8,
        _ => 1 + draw.below(4) as u8,
    };
}

/// "Tag 1 again", whatever it says.
fn second_class_count(draw: &mut Draw, fields: &mut Vec<Field>) {
    let mut field = fields[0].clone();
    match draw.below(4) {
        0 => field.length = draw.below(8) as u16,
        1 => field.contents = vec![draw.below(256) as u8],
        _ => {}
    }
    let place = 1 + draw.index(fields.len());
    fields.insert(place, field);
}

/// A fact somewhere after the first field: its field and the place of its
/// first byte there. Where there is none, a field with one is added.
fn any_fact(draw: &mut Draw, fields: &mut Vec<Field>, tags: &[u8]) -> (usize, usize) {
    let fits = |field: &Field| tags.contains(&field.tag) && !field.contents.is_empty();
    let places: Vec<usize> = (0..fields.len()).filter(|&i| fits(&fields[i])).collect();
    if places.is_empty() {
        fields.push(Field::new(4, vec![0, 0, 1]));
        return (fields.len() - 1, 0);
    }
    let place = places[draw.index(places.len())];
    let size = fact_size(fields[place].tag);
    let facts = fields[place].contents.len() / size;
    (place, size * draw.index(facts))
}

/// "Verdict neither 0 nor 1", at times with other faults in the same fact.
fn wrong_verdict(draw: &mut Draw, fields: &mut Vec<Field>) {
    let (place, first) = any_fact(draw, fields, &[4]);
    let fact = &mut fields[place].contents[first..];
    fact[2] = if draw.once_in(4) {
        2 + draw.below(254) as u8
    } else {
        2
    };
    if draw.once_in(4) {
        fact[draw.index(2)] = 250;
    }
}

/// A class number of n or a little more, or far more.
fn class_too_large(draw: &mut Draw, fields: &mut Vec<Field>) {
    let n = fields[0].contents.first().copied().unwrap_or(0);
    let (place, first) = any_fact(draw, fields, &[2, 3, 4]);
    let class = match draw.below(4) {
        0 | 1 => n,
        2 => n.saturating_add(1),
        _ => 255,
    };
    fields[place].contents[first + draw.index(2)] = class;
}

/// A no about a class and itself, told or as an answer.
fn diagonal_no(draw: &mut Draw, fields: &mut Vec<Field>) {
    let n = fields[0].contents.first().map_or(1, |&n| u64::from(n));
    let a = draw.below(n) as u8;
    let field = match draw.below(2) {
        0 => Field::new(3, vec![a, a]),
        _ => Field::new(4, vec![a, a, 0]),
    };
    let place = 1 + draw.index(fields.len());
    fields.insert(place, field);
}

/// No tag 1, a later one, one of another length, or another class count.
fn first_field(draw: &mut Draw, fields: &mut Vec<Field>) {
    match draw.below(4) {
        0 => {
            fields.remove(0);
        }
        1 => {
            let other = draw.index(fields.len());
            fields.swap(0, other);
        }
        2 => {
            let length = 2 * draw.index(2);
            fields[0] = Field::new(1, vec![3; length]);
        }
        _ => fields[0] = Field::class_count(draw.below(256) as u8),
    }
}

/// Contents that are one byte too long for their tag, with a head that says so.
fn one_byte_more(draw: &mut Draw, fields: &mut [Field]) {
    let field = any_field(draw, fields);
    field.contents.push(draw.below(3) as u8);
    field.measure();
}

/// One or two bytes after the last field: less than a head.
fn head_cut(draw: &mut Draw, fields: &mut [Field]) {
    let bytes = (0..1 + draw.below(2)).map(|_| draw.below(6) as u8);
    if let Some(field) = fields.last_mut() {
        field.contents.extend(bytes);
    }
}
