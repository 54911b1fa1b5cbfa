//! Every call that the judge knows, one value for each, so that lines, random runs and replays share one form.

use std::fmt;

#[derive(Clone, Copy, PartialEq, Eq, Debug)]
pub enum Call {
    Make { order: u64 },
    AddFrame { start: u64, end: u64 },
    Insert { start: u64, end: u64 },
    Alloc { count: u64 },
    AllocAligned { count: u64, align: u64 },
    AllocAt { start: u64, count: u64 },
    Dealloc { start: u64, count: u64 },
    DeallocAligned { start: u64, count: u64, align: u64 },
    Summary,
}

/// As a line of input, so that a reported call can be fed in again.
impl fmt::Display for Call {
    fn fmt(&self, out: &mut fmt::Formatter) -> fmt::Result {
        match self {
            Call::Make { order } => write!(out, "order {order}"),
            Call::AddFrame { start, end } => write!(out, "add {start} {end}"),
            Call::Insert { start, end } => write!(out, "insert {start} {end}"),
            Call::Alloc { count } => write!(out, "alloc {count}"),
            Call::AllocAligned { count, align } => write!(out, "alloc_aligned {count} {align}"),
            Call::AllocAt { start, count } => write!(out, "at {start} {count}"),
            Call::Dealloc { start, count } => write!(out, "free {start} {count}"),
            Call::DeallocAligned {
                start,
                count,
                align,
            } => {
                write!(out, "free_aligned {start} {count} {align}")
            }
            Call::Summary => write!(out, "summary"),
        }
    }
}
