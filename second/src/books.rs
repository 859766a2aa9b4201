//! Random books, good and damaged.

use crate::book::{byte, written};
use crate::classes::MOST_CLASSES;
use crate::damage::damage;
use crate::draw::Draw;
use crate::facts::{Fact, Facts};
use crate::fields::{bytes_of, fields_of, split, Field};
use crate::hidden::{spoil, Hidden};
use crate::print::MOST_INPUT;

/// A random book; from one seed always the same.
pub fn book(seed: u64) -> Vec<u8> {
    let mut draw = Draw::scattered(seed);
    match draw.below(25) {
        0 => odd(&mut draw),
        1 => long(&mut draw),
        _ => usual(&mut draw),
    }
}

/// Hardly a book: nothing, a few bytes, or a class count that is refused.
fn odd(draw: &mut Draw) -> Vec<u8> {
    match draw.below(5) {
        0 => Vec::new(),
        1 => (0..1 + draw.below(12))
            .map(|_| draw.below(6) as u8)
            .collect(),
        2 => vec![1, 0, 1, draw.below(256) as u8],
        _ => {
            let n = [0, 129, 255][draw.index(3)];
            let mut fields = good_fields(draw);
            fields[0] = Field::class_count(n);
            bytes_of(&fields)
        }
    }
}

/// A book near or above the longest input, mostly without damage.
fn long(draw: &mut Draw) -> Vec<u8> {
    let target = match draw.below(6) {
        0 | 1 => MOST_INPUT,
        2 => MOST_INPUT + 1,
        3 => MOST_INPUT - 1 - draw.index(4),
        4 => MOST_INPUT + 2 + draw.index(4),
        _ => MOST_INPUT + draw.index(40_000),
    };
    let mut fields = good_fields(draw);
    pad(draw, &mut fields, target);
    if draw.once_in(5) {
        return damage(draw, fields);
    }
    bytes_of(&fields)
}

fn usual(draw: &mut Draw) -> Vec<u8> {
    let fields = good_fields(draw);
    if draw.below(5) < 2 {
        return damage(draw, fields);
    }
    bytes_of(&fields)
}

/// The fields of a book that agrees with a hidden order, or nearly does. The
/// first is tag 1.
fn good_fields(draw: &mut Draw) -> Vec<Field> {
    let n = class_count(draw);
    let hidden = Hidden::drawn(draw, n);
    let mut facts = hidden.some_facts(draw);
    if draw.below(3) > 0 {
        facts.extend(hidden.settling_facts(draw, &facts));
    }
    if draw.once_in(6) {
        spoil(draw, n, &mut facts);
    }
    if draw.once_in(6) {
        return split(&written_after(n, &facts));
    }
    let mut fields = vec![Field::class_count(byte(n))];
    fields.extend(fields_of(draw, &facts));
    fields
}

/// Mostly small, at times up to 128.
fn class_count(draw: &mut Draw) -> usize {
    match draw.below(20) {
        0..=14 => 1 + draw.index(8),
        15..=17 => 9 + draw.index(24),
        18 => 33 + draw.index(96),
        _ => MOST_CLASSES - draw.index(2),
    }
}

/// The book that the writer gives after these facts, those that contradict
/// left out.
fn written_after(n: usize, facts: &[Fact]) -> Vec<u8> {
    let mut known = Facts::none(n);
    for &fact in facts {
        if !known.contradicts(fact) {
            known.accept(fact);
        }
    }
    written(&known.marks())
}

/// Adds fields that say nothing new until the book has `target` bytes or
/// hardly fewer: an empty one where an even number is missing, otherwise one
/// with yes facts of the diagonal.
fn pad(draw: &mut Draw, fields: &mut Vec<Field>, target: usize) {
    let n = fields[0].contents.first().map_or(1, |&n| u64::from(n));
    let most = [400, 30_000][draw.index(2)];
    loop {
        let size: usize = fields.iter().map(Field::size).sum();
        let missing = target.saturating_sub(size);
        if missing < 3 {
            return;
        }
        let facts = match missing % 2 {
            0 => 0,
            _ => ((missing - 3) / 2).min(most),
        };
        let classes = (0..facts).map(|_| draw.below(n) as u8);
        fields.push(Field::new(2, classes.flat_map(|a| [a, a]).collect()));
    }
}
