//! "Refusal numbers", and the session that goes in and out of calls.

/// "A refusal returns its number and a place, 0 outside books."
#[derive(Clone, Copy, Debug, PartialEq, Eq)]
pub struct Refusal {
    pub number: u8,
    pub place: usize,
}

impl Refusal {
    /// A refusal outside books.
    pub fn new(number: u8) -> Refusal {
        Refusal::at(number, 0)
    }

    pub fn at(number: u8, place: usize) -> Refusal {
        Refusal { number, place }
    }

    /// Refuses with this number when the fault is there.
    pub fn when(fault: bool, number: u8) -> Result<(), Refusal> {
        Refusal::when_at(fault, number, 0)
    }

    pub fn when_at(fault: bool, number: u8, place: usize) -> Result<(), Refusal> {
        if fault {
            Err(Refusal::at(number, place))
        } else {
            Ok(())
        }
    }
}

/// "A session is n and the tally of tests."
#[derive(Clone, Copy, Debug, PartialEq, Eq)]
pub struct Session {
    pub classes: u64,
    pub tests: u64,
}

impl Session {
    /// What fresh and reading give back when no class count was accepted:
    /// "n 0 and tally 0".
    pub const NONE: Session = Session {
        classes: 0,
        tests: 0,
    };
}
