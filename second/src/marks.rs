//! The marks of a table, and what document 01 says of them.

use crate::classes::{pairs, Classes};

#[derive(Clone, Copy, Debug, PartialEq, Eq)]
pub enum Mark {
    Open,
    Yes,
    No,
}

impl Mark {
    /// "0 open, 1 yes, 2 no"; any other byte is no mark.
    pub fn of_byte(byte: u8) -> Option<Mark> {
        match byte {
            0 => Some(Mark::Open),
            1 => Some(Mark::Yes),
            2 => Some(Mark::No),
            _ => None,
        }
    }

    pub fn byte(self) -> u8 {
        match self {
            Mark::Open => 0,
            Mark::Yes => 1,
            Mark::No => 2,
        }
    }
}

/// The n*n marks of a table: "the mark of (a, b) stands at index a*n+b".
#[derive(Clone, Debug, PartialEq, Eq)]
pub struct Marks {
    n: usize,
    marks: Vec<Mark>,
}

impl Marks {
    pub fn new(n: usize, mark: impl Fn(usize, usize) -> Mark) -> Marks {
        let marks = pairs(n).map(|(a, b)| mark(a, b)).collect();
        Marks { n, marks }
    }

    /// The first n*n bytes of a table; nothing if one of them is no mark or
    /// the table is shorter.
    pub fn of_table(n: usize, table: &[u8]) -> Option<Marks> {
        let bytes = table.get(..n * n)?;
        let marks: Option<Vec<Mark>> = bytes.iter().map(|&byte| Mark::of_byte(byte)).collect();
        marks.map(|marks| Marks { n, marks })
    }

    /// Puts the marks into the first n*n bytes: "bytes from n*n on are never
    /// read or written".
    pub fn put(&self, table: &mut [u8]) {
        for (byte, mark) in table.iter_mut().zip(&self.marks) {
            *byte = mark.byte();
        }
    }

    pub fn n(&self) -> usize {
        self.n
    }

    pub fn at(&self, a: usize, b: usize) -> Mark {
        self.marks[a * self.n + b]
    }

    pub fn is_yes(&self, a: usize, b: usize) -> bool {
        self.at(a, b) == Mark::Yes
    }

    /// The pairs with this mark, in row order.
    pub fn pairs_marked(&self, mark: Mark) -> impl Iterator<Item = (usize, usize)> + '_ {
        pairs(self.n).filter(move |&(a, b)| self.at(a, b) == mark)
    }

    pub fn open_pairs(&self) -> usize {
        self.pairs_marked(Mark::Open).count()
    }

    /// "The first open pair, rows in rising order and then columns."
    pub fn first_open(&self) -> Option<(usize, usize)> {
        self.pairs_marked(Mark::Open).next()
    }

    /// "A table is sound when its n*n marks are 0, 1 or 2, the diagonal is
    /// yes, the yes marks are transitive, and whenever (c, d) is no, (c, a) is
    /// yes and (b, d) is yes, (a, b) is no." The first is so for all `Marks`.
    pub fn sound(&self) -> bool {
        let diagonal = (0..self.n).all(|a| self.is_yes(a, a));
        diagonal && self.transitive() && self.pruned()
    }

    fn transitive(&self) -> bool {
        let above = self.rows(Mark::Yes);
        self.pairs_marked(Mark::Yes)
            .all(|(a, b)| above[b].within(above[a]))
    }

    fn pruned(&self) -> bool {
        let (above, below) = (self.rows(Mark::Yes), self.columns(Mark::Yes));
        let no = self.rows(Mark::No);
        self.pairs_marked(Mark::No)
            .all(|(c, d)| above[c].members().all(|a| below[d].within(no[a])))
    }

    /// At each a: every b such that (a, b) has this mark.
    fn rows(&self, mark: Mark) -> Vec<Classes> {
        let mut rows = vec![Classes::default(); self.n];
        for (a, b) in self.pairs_marked(mark) {
            rows[a] = rows[a].with(b);
        }
        rows
    }

    /// At each b: every a such that (a, b) has this mark.
    fn columns(&self, mark: Mark) -> Vec<Classes> {
        let mut columns = vec![Classes::default(); self.n];
        for (a, b) in self.pairs_marked(mark) {
            columns[b] = columns[b].with(a);
        }
        columns
    }
}
