//! The lines of docs/SWEEP.md: "decimal, with one space between them and a
//! line feed after each line".

use std::io::{self, Write};

use crate::refusal::{Refusal, Session};

pub struct Lines<W: Write> {
    out: W,
}

impl<W: Write> Lines<W> {
    pub fn new(out: W) -> Lines<W> {
        Lines { out }
    }

    pub fn flush(&mut self) -> io::Result<()> {
        self.out.flush()
    }

    /// A call that gives a session back: "the session printed is the one that
    /// the call gave back".
    pub fn session(
        &mut self,
        letter: char,
        result: Result<(), Refusal>,
        session: Session,
        digests: &[u64],
    ) -> io::Result<()> {
        let session = [session.classes, session.tests];
        let line = [&numbers(result)[..], &session, digests].concat();
        self.line(letter, &line)
    }

    /// A call that gives a count: "a count is 0 where the call is refused".
    pub fn count(
        &mut self,
        letter: char,
        result: Result<usize, Refusal>,
        digests: &[u64],
    ) -> io::Result<()> {
        let count = [result.unwrap_or(0) as u64];
        let line = [&numbers(result.map(|_| ()))[..], &count, digests].concat();
        self.line(letter, &line)
    }

    /// "`N 0 0 lower upper`, `N 0 0` when done, `N number place` when
    /// refused."
    pub fn question(
        &mut self,
        result: Result<Option<(usize, usize)>, Refusal>,
        digest: u64,
    ) -> io::Result<()> {
        let pair = match result {
            Ok(Some((a, b))) => vec![a as u64, b as u64],
            _ => Vec::new(),
        };
        let line = [&numbers(result.map(|_| ()))[..], &pair, &[digest]].concat();
        self.line('N', &line)
    }

    fn line(&mut self, letter: char, numbers: &[u64]) -> io::Result<()> {
        write!(self.out, "{letter}")?;
        for number in numbers {
            write!(self.out, " {number}")?;
        }
        writeln!(self.out)
    }
}

/// The refusal's number and place, both 0 when the call was accepted.
fn numbers(result: Result<(), Refusal>) -> [u64; 2] {
    match result {
        Ok(()) => [0, 0],
        Err(refusal) => [u64::from(refusal.number), refusal.place as u64],
    }
}
