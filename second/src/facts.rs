//! "Known and possible": what the accepted facts settle, found by searching
//! the facts themselves each time it is asked.

use crate::classes::{pairs, Classes};
use crate::marks::{Mark, Marks};

/// A yes or a no about one ordered pair: "a under b", or not.
#[derive(Clone, Copy, Debug, PartialEq, Eq)]
pub struct Fact {
    pub a: usize,
    pub b: usize,
    pub yes: bool,
}

/// The facts accepted so far about classes 0 to n-1. The order in which they
/// came and how often each came make no difference to what they settle.
#[derive(Clone, Debug)]
pub struct Facts {
    n: usize,
    /// At a: every b with a yes fact (a, b).
    yes_up: Vec<Classes>,
    /// At b: every a with a yes fact (a, b).
    yes_down: Vec<Classes>,
    /// At c: every d with a no fact (c, d).
    no_up: Vec<Classes>,
}

impl Facts {
    pub fn none(n: usize) -> Facts {
        Facts {
            n,
            yes_up: vec![Classes::default(); n],
            yes_down: vec![Classes::default(); n],
            no_up: vec![Classes::default(); n],
        }
    }

    /// "Each sound table is the table of its own marks taken as facts."
    pub fn of_marks(marks: &Marks) -> Facts {
        let mut facts = Facts::none(marks.n());
        for (a, b) in pairs(marks.n()) {
            match marks.at(a, b) {
                Mark::Yes => facts.accept(Fact { a, b, yes: true }),
                Mark::No => facts.accept(Fact { a, b, yes: false }),
                Mark::Open => {}
            }
        }
        facts
    }

    pub fn n(&self) -> usize {
        self.n
    }

    /// Adds a fact about classes below n.
    pub fn accept(&mut self, fact: Fact) {
        let Fact { a, b, yes } = fact;
        if yes {
            self.yes_up[a] = self.yes_up[a].with(b);
            self.yes_down[b] = self.yes_down[b].with(a);
        } else {
            self.no_up[a] = self.no_up[a].with(b);
        }
    }

    /// "(a, b) is yes exactly when a = b or a chain of yes facts leads from a
    /// to b."
    pub fn is_yes(&self, a: usize, b: usize) -> bool {
        self.above(a).has(b)
    }

    /// Every b with (a, b) yes.
    fn above(&self, a: usize) -> Classes {
        chained(&self.yes_up, a)
    }

    /// "(a, b) is no exactly when there is a no fact (c, d) such that (c, a)
    /// is yes and (b, d) is yes."
    pub fn is_no(&self, a: usize, b: usize) -> bool {
        self.noes_under(a).meets(self.above(b))
    }

    /// Every d with a no fact (c, d) such that (c, a) is yes.
    fn noes_under(&self, a: usize) -> Classes {
        let below = chained(&self.yes_down, a);
        below
            .members()
            .fold(Classes::default(), |noes, c| noes.or(self.no_up[c]))
    }

    pub fn mark(&self, a: usize, b: usize) -> Mark {
        mark_of(self.is_yes(a, b), || self.is_no(a, b))
    }

    /// "A yes fact on a pair marked no, or a no fact on a pair marked yes,
    /// contradicts."
    pub fn contradicts(&self, fact: Fact) -> bool {
        if fact.yes {
            self.is_no(fact.a, fact.b)
        } else {
            self.is_yes(fact.a, fact.b)
        }
    }

    /// The table of these facts: the mark of every pair. What is above a class
    /// and the noes under it are searched for once a class, not once a pair.
    pub fn marks(&self) -> Marks {
        let above: Vec<Classes> = (0..self.n).map(|a| self.above(a)).collect();
        let noes: Vec<Classes> = (0..self.n).map(|a| self.noes_under(a)).collect();
        Marks::new(self.n, |a, b| {
            mark_of(above[a].has(b), || noes[a].meets(above[b]))
        })
    }
}

/// Yes goes before no: no accepted facts make a pair both.
fn mark_of(yes: bool, no: impl Fn() -> bool) -> Mark {
    if yes {
        Mark::Yes
    } else if no() {
        Mark::No
    } else {
        Mark::Open
    }
}

/// The classes that a chain of steps leads to from `start`, and `start`
/// itself. `steps` has at each class the classes one step away.
fn chained(steps: &[Classes], start: usize) -> Classes {
    let mut found = Classes::only(start);
    let mut waiting = vec![start];
    while let Some(class) = waiting.pop() {
        for next in steps[class].without(found).members() {
            found = found.with(next);
            waiting.push(next);
        }
    }
    found
}
