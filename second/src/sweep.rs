//! The random calls of docs/SWEEP.md and what each must answer. Draws happen
//! in the order in which that page names them.

use std::io::{self, Write};

use crate::calls;
use crate::classes::MOST_CLASSES;
use crate::draw::{digest, Draw};
use crate::lines::Lines;
use crate::refusal::Session;

/// The most classes where the input does not say. A round of more than these
/// has other numbers of calls.
const FEW_CLASSES: usize = 12;

/// "After 400 such answers `next` is not called again."
const MOST_ANSWERS: usize = 400;

/// "Five buffers of bytes, all 0 at the start and kept from round to round",
/// and what else is kept.
pub struct Sweep<W: Write> {
    draw: Draw,
    /// The most classes of a round.
    most: usize,
    table: Vec<u8>,
    spare: Vec<u8>,
    heads: Vec<u8>,
    steps: Vec<u8>,
    book: Vec<u8>,
    /// "The length of the book last written."
    length: usize,
    n: usize,
    /// So many bytes of `table` and `spare` are lent in this round.
    lent: usize,
    session: Session,
    lines: Lines<W>,
}

/// What a call is given, with trouble or without.
struct Given {
    session: Session,
    /// So many bytes of `table` are lent.
    lent: usize,
    /// A byte of `table` that was changed: its place and old value.
    changed: Option<(usize, u8)>,
}

impl<W: Write> Sweep<W> {
    /// `most` is from 1 to 128.
    pub fn new(seed: u64, most: usize, out: W) -> Sweep<W> {
        Sweep {
            draw: Draw::new(seed),
            most,
            table: vec![0; 16_386],
            spare: vec![0; 16_386],
            heads: vec![0; 130],
            steps: vec![0; 32_768],
            book: vec![0; 32_778],
            length: 0,
            n: 1,
            lent: 1,
            session: Session::NONE,
            lines: Lines::new(out),
        }
    }

    /// "A round."
    pub fn round(&mut self) -> io::Result<()> {
        let wide = self.draw.index(8) == 0;
        self.n = 1 + self.draw.index(if wide { self.most } else { 5 });
        self.lent = self.n * self.n + self.draw.index(3);
        self.session = Session {
            classes: self.n as u64,
            tests: 0,
        };
        let given = self.trouble();
        if !self.fresh(given)? {
            let given = self.no_trouble();
            self.fresh(given)?;
        }
        let many = self.n > FEW_CLASSES;
        if many && self.draw.below(2) == 1 {
            self.tell_row()?;
        }
        let spread = if many { 145 } else { self.n * self.n + 1 };
        let calls = 4 + self.draw.index(spread);
        self.calls(calls)?;
        self.settle_all()?;
        let calls = 4 + self.draw.index(5);
        self.calls(calls)
    }

    /// "`tell` is called without trouble for each class a from 0 to n - 2: a is
    /// under a + 1."
    fn tell_row(&mut self) -> io::Result<()> {
        for a in 0..self.n as u64 - 1 {
            let given = self.no_trouble();
            self.tell(given, a, a + 1, true)?;
        }
        Ok(())
    }

    fn calls(&mut self, count: usize) -> io::Result<()> {
        (0..count).try_for_each(|_| self.call())
    }

    /// "While it asks, `answer` is called without trouble on the pair asked,
    /// with a verdict drawn, and then `next` again; but after 400 such answers
    /// `next` is not called again."
    fn settle_all(&mut self) -> io::Result<()> {
        for _ in 0..MOST_ANSWERS {
            let given = self.no_trouble();
            if !self.next(given)? {
                break;
            }
        }
        Ok(())
    }

    pub fn flush(&mut self) -> io::Result<()> {
        self.lines.flush()
    }

    /// A call with trouble: "`k = draw 19` says which, after the trouble."
    fn call(&mut self) -> io::Result<()> {
        let given = self.trouble();
        match self.draw.index(19) {
            0..=4 => self.drawn_tell(given),
            5..=8 => self.drawn_answer(given),
            9 | 10 => self.next(given).map(|_| ()),
            11 => self.hierarchy(given),
            12 | 13 => self.ladder(given),
            14 => self.write(given),
            15 => self.read(given),
            16 | 17 => self.clip(given),
            _ => self.open_pairs(given),
        }
    }

    fn no_trouble(&self) -> Given {
        Given {
            session: self.session,
            lent: self.lent,
            changed: None,
        }
    }

    /// "Trouble": what is wrong with the next call, if anything.
    fn trouble(&mut self) -> Given {
        let mut given = self.no_trouble();
        let square = self.n * self.n;
        match self.draw.index(12) {
            0 => {
                let i = self.draw.index(square);
                let m = self.draw.below(4) as u8;
                given.changed = Some((i, self.table[i]));
                self.table[i] = m;
            }
            1 => given.session.tests = self.draw.below(square as u64 + 1),
            2 => given.session.classes = [0, self.n as u64 + 1, 200][self.draw.index(3)],
            3 => given.lent = self.draw.index(square),
            _ => {}
        }
        given
    }

    /// What stays after a call: the session if it was accepted, and otherwise
    /// what was there before the trouble.
    fn settle(&mut self, accepted: bool, session: Session, given: &Given) {
        if accepted {
            self.session = session;
        } else {
            self.put_back(given);
        }
    }

    /// "The byte gets its old value back."
    fn put_back(&mut self, given: &Given) {
        if let Some((i, old)) = given.changed {
            self.table[i] = old;
        }
    }

    /// Gives whether the call was accepted.
    fn fresh(&mut self, given: Given) -> io::Result<bool> {
        let table = &mut self.table[..given.lent];
        let (result, session) = calls::fresh(given.session.classes, table);
        let digests = [digest(table)];
        self.lines.session('F', result, session, &digests)?;
        self.settle(result.is_ok(), session, &given);
        Ok(result.is_ok())
    }

    fn drawn_tell(&mut self, given: Given) -> io::Result<()> {
        let (a, b, yes) = (self.class(), self.class(), self.verdict());
        self.tell(given, a, b, yes)
    }

    fn tell(&mut self, given: Given, a: u64, b: u64, yes: bool) -> io::Result<()> {
        let table = &mut self.table[..given.lent];
        let (result, session) = calls::tell(given.session, table, a, b, yes);
        let digests = [digest(table)];
        self.lines.session('T', result, session, &digests)?;
        self.settle(result.is_ok(), session, &given);
        Ok(())
    }

    fn drawn_answer(&mut self, given: Given) -> io::Result<()> {
        let (a, b, yes) = (self.class(), self.class(), self.verdict());
        self.answer(given, a, b, yes)
    }

    fn answer(&mut self, given: Given, a: u64, b: u64, yes: bool) -> io::Result<()> {
        let table = &mut self.table[..given.lent];
        let (result, session) = calls::answer(given.session, table, a, b, yes);
        let digests = [digest(table)];
        self.lines.session('A', result, session, &digests)?;
        self.settle(result.is_ok(), session, &given);
        Ok(())
    }

    /// "`next`, and then, if it asks and only then, `answer` without trouble
    /// on the pair asked with a verdict drawn." Gives whether it asks.
    fn next(&mut self, given: Given) -> io::Result<bool> {
        let table = &self.table[..given.lent];
        let result = calls::next(given.session, table);
        self.lines.question(result, digest(table))?;
        self.settle(result.is_ok(), given.session, &given);
        if let Ok(Some((a, b))) = result {
            let yes = self.verdict();
            let given = self.no_trouble();
            self.answer(given, a as u64, b as u64, yes)?;
            return Ok(true);
        }
        Ok(false)
    }

    fn hierarchy(&mut self, given: Given) -> io::Result<()> {
        let n = self.n;
        let heads_lent = match self.draw.index(4) {
            0 => self.draw.index(n + 1),
            _ => n + self.draw.index(3),
        };
        let steps_lent = match self.draw.index(4) {
            0 => self.draw.index(2 * n),
            _ => 2 * n * n,
        };
        let table = &self.table[..given.lent];
        let heads = &mut self.heads[..heads_lent];
        let steps = &mut self.steps[..steps_lent];
        let result = calls::hierarchy(given.session, table, heads, steps);
        let digests = [digest(table), digest(heads), digest(steps)];
        self.lines.count('H', result, &digests)?;
        self.settle(result.is_ok(), given.session, &given);
        Ok(())
    }

    fn ladder(&mut self, given: Given) -> io::Result<()> {
        let (a, b) = (self.class(), self.class());
        let lent = match self.draw.index(4) {
            0 => self.draw.index(3),
            _ => self.n + self.draw.index(2),
        };
        let table = &self.table[..given.lent];
        let rungs = &mut self.heads[..lent];
        let result = calls::ladder(given.session, table, a, b, rungs);
        let digests = [digest(table), digest(rungs)];
        self.lines.count('L', result, &digests)?;
        self.settle(result.is_ok(), given.session, &given);
        Ok(())
    }

    fn write(&mut self, given: Given) -> io::Result<()> {
        let longest = 10 + 2 * self.n * self.n;
        let lent = match self.draw.index(4) {
            0 => self.draw.index(longest),
            _ => longest,
        };
        let table = &self.table[..given.lent];
        let book = &mut self.book[..lent];
        let result = calls::write(given.session, table, book);
        let digests = [digest(table), digest(book)];
        if let Ok(count) = result {
            self.length = count;
        }
        self.lines.count('W', result, &digests)?;
        self.settle(result.is_ok(), given.session, &given);
        Ok(())
    }

    /// "`read` never changes" the session, and "after a `read` a changed byte
    /// of `table` always gets its old value back".
    fn read(&mut self, given: Given) -> io::Result<()> {
        let d = self.draw.index(4);
        if d == 0 && self.length > 0 {
            let i = self.draw.index(self.length);
            self.book[i] = self.draw.below(6) as u8;
        }
        let lent = match d {
            1 => self.draw.index(self.length + 1),
            _ => self.length,
        };
        let spare = &mut self.spare[..self.lent];
        let book = &self.book[..lent];
        let (result, session) = calls::read(book, spare);
        let digests = [digest(spare), digest(book)];
        self.lines.session('R', result, session, &digests)?;
        self.put_back(&given);
        Ok(())
    }

    fn clip(&mut self, given: Given) -> io::Result<()> {
        let played = self.played();
        let table = &mut self.table[..given.lent];
        let (result, session) = calls::clip(given.session, table, &played);
        let digests = [digest(table)];
        self.lines.session('C', result, session, &digests)?;
        self.settle(result.is_ok(), session, &given);
        Ok(())
    }

    fn open_pairs(&mut self, given: Given) -> io::Result<()> {
        let table = &self.table[..given.lent];
        let result = calls::open_pairs(given.session, table);
        let digests = [digest(table)];
        self.lines.count('O', result, &digests)?;
        self.settle(result.is_ok(), given.session, &given);
        Ok(())
    }

    /// The flags of a clip: any set of classes, or the row of a class c, which
    /// has c and what is above it; and at times a flag at n or above, for
    /// which "where n is 128 nothing is drawn".
    fn played(&mut self) -> [bool; MOST_CLASSES] {
        let n = self.n;
        let mut played = [false; MOST_CLASSES];
        if self.draw.index(4) == 0 {
            for flag in &mut played[..n] {
                *flag = self.draw.below(2) == 1;
            }
        } else {
            let c = self.draw.index(n);
            for (b, flag) in played[..n].iter_mut().enumerate() {
                *flag = self.table[c * n + b] == 1;
            }
        }
        if n < MOST_CLASSES && self.draw.index(8) == 0 {
            played[n + self.draw.index(MOST_CLASSES - n)] = true;
        }
        played
    }

    /// "A class number is drawn as `draw (n + 1)` if `draw 8` is 0, and as
    /// `draw n` otherwise."
    fn class(&mut self) -> u64 {
        let n = self.n as u64;
        match self.draw.index(8) {
            0 => self.draw.below(n + 1),
            _ => self.draw.below(n),
        }
    }

    /// "A verdict is yes if `draw 2` is 1."
    fn verdict(&mut self) -> bool {
        self.draw.below(2) == 1
    }
}

/// "Input": the seed, the count of rounds and the most classes. "Each is a run
/// of digits, whatever bytes stand between; a number that is missing is 0, and
/// each is taken modulo 1,000,000,007 as its digits are read."
pub fn input_numbers(input: &[u8]) -> [u64; 3] {
    let mut numbers = input
        .split(|byte| !byte.is_ascii_digit())
        .filter(|digits| !digits.is_empty())
        .map(number);
    [(); 3].map(|()| numbers.next().unwrap_or(0))
}

fn number(digits: &[u8]) -> u64 {
    digits.iter().fold(0, |number, digit| {
        (number * 10 + u64::from(digit - b'0')) % 1_000_000_007
    })
}

/// "Where the third is 0 the most classes are 12, and where it is above 128
/// they are 128."
pub fn most_classes(third: u64) -> usize {
    match third {
        0 => FEW_CLASSES,
        _ => usize::try_from(third).map_or(MOST_CLASSES, |third| third.min(MOST_CLASSES)),
    }
}
