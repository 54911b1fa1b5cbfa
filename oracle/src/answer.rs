//! Answers of calls, with the refusal numbers of docs/RULES.md.

use std::fmt;

/// The refusals that a table made by the oracle itself can give; 3 and 5 cannot happen to it.
#[derive(Clone, Copy, PartialEq, Eq, Debug)]
pub enum Refusal {
    BadOrder = 1,
    BadSize = 2,
    BadRange = 4,
    Overlap = 6,
    BadAlign = 7,
    Misaligned = 8,
    NoBlock = 9,
    NotGranted = 10,
    NoRoom = 11,
}

/// The three figures of the summary.
#[derive(Clone, Copy, PartialEq, Eq, Debug, Default)]
pub struct Figures {
    pub granted: u64,
    pub managed: u64,
    pub largest: u64,
}

#[derive(Clone, Copy, PartialEq, Eq, Debug)]
pub enum Answer {
    Done,
    Start(u64),
    Summed(Figures),
    Refused(Refusal),
}

impl Answer {
    /// The number of docs/RULES.md: 0 for an accepted call.
    pub fn number(&self) -> u64 {
        match self {
            Answer::Refused(refusal) => *refusal as u64,
            _ => 0,
        }
    }

    /// The value beside the number: the start of a grant, otherwise 0.
    pub fn value(&self) -> u64 {
        match self {
            Answer::Start(start) => *start,
            _ => 0,
        }
    }

    /// The summary's figures: each is 0 for every other answer.
    pub fn figures(&self) -> Figures {
        match self {
            Answer::Summed(figures) => *figures,
            _ => Figures::default(),
        }
    }
}

impl fmt::Display for Figures {
    fn fmt(&self, out: &mut fmt::Formatter) -> fmt::Result {
        write!(
            out,
            "granted {} managed {} largest {}",
            self.granted, self.managed, self.largest
        )
    }
}

/// As the program `calls` prints it.
impl fmt::Display for Answer {
    fn fmt(&self, out: &mut fmt::Formatter) -> fmt::Result {
        match self {
            Answer::Done => write!(out, "ok"),
            Answer::Start(start) => write!(out, "{start}"),
            Answer::Summed(figures) => write!(out, "{figures}"),
            Answer::Refused(refusal) => write!(out, "no {}", *refusal as u64),
        }
    }
}
