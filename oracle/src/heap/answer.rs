//! Answers of heap calls, with the refusal numbers of docs/RULES.md.

use std::fmt;

/// The refusals that a heap can give; 8 is for frames alone.
#[derive(Clone, Copy, PartialEq, Eq, Debug)]
pub enum Refusal {
    BadOrder = 1,
    BadSize = 2,
    BadState = 3,
    BadRange = 4,
    NullStart = 5,
    Overlap = 6,
    BadAlign = 7,
    NoBlock = 9,
    NotGranted = 10,
    NoRoom = 11,
}

#[derive(Clone, PartialEq, Eq, Debug)]
pub enum Answer {
    /// An accepted call: the start of a grant, the compare count of a release, otherwise 0.
    Value(u64),
    /// The nodes of a list in list order.
    Nodes(Vec<u64>),
    /// User, allocated, total.
    Figures([u64; 3]),
    Refused(Refusal),
    /// The three figures refused: each is 0.
    FiguresRefused(Refusal),
    /// A word was put into memory, past every rule.
    Set,
    /// The word to be put is outside of what is lent.
    Outside,
}

impl Answer {
    /// The number of docs/RULES.md: 0 for an accepted call; nothing for a line that is no call.
    pub fn number(&self) -> Option<u64> {
        match self {
            Answer::Value(_) | Answer::Nodes(_) | Answer::Figures(_) => Some(0),
            Answer::Refused(refusal) | Answer::FiguresRefused(refusal) => Some(*refusal as u64),
            Answer::Set | Answer::Outside => None,
        }
    }
}

/// As the program `heap_calls` prints it.
impl fmt::Display for Answer {
    fn fmt(&self, out: &mut fmt::Formatter) -> fmt::Result {
        match self {
            Answer::Value(value) => write!(out, "0 {value}"),
            Answer::Nodes(nodes) => {
                write!(out, "0 {}", nodes.len())?;
                nodes.iter().try_for_each(|node| write!(out, " {node}"))
            }
            Answer::Figures([user, allocated, total]) => {
                write!(out, "0 {user} {allocated} {total}")
            }
            Answer::Refused(refusal) => write!(out, "{} 0", *refusal as u64),
            Answer::FiguresRefused(refusal) => write!(out, "{} 0 0 0", *refusal as u64),
            Answer::Set => write!(out, "set"),
            Answer::Outside => write!(out, "bad line"),
        }
    }
}
