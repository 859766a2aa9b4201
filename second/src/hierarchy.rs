//! "Groups, direct steps, ladders", for a sound table with no open pair.

use crate::classes::pairs;
use crate::marks::Marks;

pub struct Hierarchy<'a> {
    marks: &'a Marks,
    heads: Vec<usize>,
}

impl<'a> Hierarchy<'a> {
    pub fn of(marks: &'a Marks) -> Hierarchy<'a> {
        let heads = (0..marks.n()).map(|a| head(marks, a)).collect();
        Hierarchy { marks, heads }
    }

    /// The head of each class, in class order.
    pub fn heads(&self) -> &[usize] {
        &self.heads
    }

    fn is_head(&self, a: usize) -> bool {
        self.heads[a] == a
    }

    /// "A direct step from head a to head b: a is under b, they differ, and
    /// no third head c has a under c and c under b." Other members of a group
    /// are no heads, so they stand in no step's way.
    fn is_direct_step(&self, a: usize, b: usize) -> bool {
        let between = |c: usize| self.marks.is_yes(a, c) && self.marks.is_yes(c, b);
        let third = |c: usize| self.is_head(c) && c != a && c != b;
        self.is_head(a)
            && self.is_head(b)
            && a != b
            && self.marks.is_yes(a, b)
            && !(0..self.marks.n()).any(|c| third(c) && between(c))
    }

    /// The direct steps, "ordered by a and then b".
    pub fn direct_steps(&self) -> Vec<(usize, usize)> {
        pairs(self.marks.n())
            .filter(|&(a, b)| self.is_direct_step(a, b))
            .collect()
    }

    /// "The ladder from a to b starts at the head of a. Each next rung is the
    /// lowest-numbered head directly above the last rung and under b, and what
    /// remains is the ladder from that rung on. It ends at the head of b."
    /// Asked only where a is under b.
    pub fn ladder(&self, a: usize, b: usize) -> Vec<usize> {
        let mut rungs = vec![self.heads[a]];
        if self.heads[a] != self.heads[b] {
            let next = self.next_rung(self.heads[a], b);
            rungs.extend(next.into_iter().flat_map(|rung| self.ladder(rung, b)));
        }
        rungs
    }

    fn next_rung(&self, last: usize, b: usize) -> Option<usize> {
        (0..self.marks.n()).find(|&y| self.is_direct_step(last, y) && self.marks.is_yes(y, b))
    }
}

/// "The head of a class is the lowest number equal to it (under each other
/// both ways)."
fn head(marks: &Marks, a: usize) -> usize {
    let equal = |c: &usize| marks.is_yes(a, *c) && marks.is_yes(*c, a);
    (0..marks.n()).find(equal).unwrap_or(a)
}
