//! A hidden order and facts that agree with it, so that long books are
//! accepted and pairs get settled.

use crate::classes::pairs;
use crate::draw::Draw;
use crate::facts::{Fact, Facts};
use crate::marks::Mark;

pub struct Hidden {
    n: usize,
    order: Facts,
}

impl Hidden {
    /// The order of random yes facts: few of them, so that little is under
    /// anything, or many, so that there are groups and long ladders.
    pub fn drawn(draw: &mut Draw, n: usize) -> Hidden {
        let mut order = Facts::none(n);
        let count = draw.index(2 * n + 1);
        let rising = draw.below(3) > 0;
        for _ in 0..count {
            let (a, b) = (draw.index(n), draw.index(n));
            // Facts that all lead to higher numbers make no groups; a few
            // that lead back make small ones.
            let turned = rising && a > b && !draw.once_in(8);
            let (a, b) = if turned { (b, a) } else { (a, b) };
            order.accept(Fact { a, b, yes: true });
        }
        Hidden { n, order }
    }

    /// What the order says of a pair.
    fn fact(&self, a: usize, b: usize) -> Fact {
        let yes = self.order.is_yes(a, b);
        Fact { a, b, yes }
    }

    /// Facts on random pairs, the diagonal among them.
    pub fn some_facts(&self, draw: &mut Draw) -> Vec<Fact> {
        let n = self.n;
        let most = match draw.below(4) {
            0 => 1,
            1 => n,
            2 => 4 * n,
            _ => (n * n).min(2_000),
        };
        let count = draw.index(most + 1);
        (0..count)
            .map(|_| self.fact(draw.index(n), draw.index(n)))
            .collect()
    }

    /// Facts that with those before settle all pairs, or many of them. Mostly
    /// they are on pairs that are open when their turn comes, in row order
    /// (the order in which they are asked) or in any.
    pub fn settling_facts(&self, draw: &mut Draw, before: &[Fact]) -> Vec<Fact> {
        let mut known = Facts::none(self.n);
        before.iter().for_each(|&fact| known.accept(fact));
        let open_only = !draw.once_in(8);
        let mut facts = Vec::new();
        for (a, b) in self.pairs_to_settle(draw) {
            if open_only && known.mark(a, b) != Mark::Open {
                continue;
            }
            let fact = self.fact(a, b);
            known.accept(fact);
            facts.push(fact);
        }
        facts
    }

    fn pairs_to_settle(&self, draw: &mut Draw) -> Vec<(usize, usize)> {
        let mut order: Vec<(usize, usize)> = pairs(self.n).collect();
        if draw.once_in(2) {
            shuffle(draw, &mut order);
        }
        if draw.once_in(4) {
            order.truncate(draw.index(order.len() + 1));
        }
        order
    }
}

fn shuffle<T>(draw: &mut Draw, items: &mut [T]) {
    for last in (1..items.len()).rev() {
        items.swap(last, draw.index(last + 1));
    }
}

/// Turns the verdict of a fact or two around, or puts in facts that know
/// nothing of the order.
pub fn spoil(draw: &mut Draw, n: usize, facts: &mut Vec<Fact>) {
    for _ in 0..1 + draw.index(2) {
        let place = draw.index(facts.len() + 1);
        match facts.get_mut(place) {
            Some(fact) if draw.once_in(2) => fact.yes = !fact.yes,
            _ => facts.insert(place, drawn_fact(draw, n)),
        }
    }
}

fn drawn_fact(draw: &mut Draw, n: usize) -> Fact {
    Fact {
        a: draw.index(n),
        b: draw.index(n),
        yes: draw.once_in(2),
    }
}
