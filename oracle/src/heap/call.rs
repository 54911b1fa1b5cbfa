//! Every line of `heap_calls`, one value for each, so that lines, random runs and replays share one form.

use std::fmt;

#[derive(Clone, Copy, PartialEq, Eq, Debug)]
pub enum Call {
    Make {
        order: u64,
        words: usize,
        ledger: usize,
    },
    Remake {
        order: u64,
    },
    Add {
        start: u64,
        end: u64,
    },
    Init {
        start: u64,
        size: u64,
    },
    Alloc {
        size: u64,
        align: u64,
    },
    Free {
        address: u64,
        size: u64,
        align: u64,
    },
    Zero {
        address: u64,
        size: u64,
        align: u64,
    },
    List {
        class: u64,
    },
    Stats,
    Put(Put),
}

/// A word put into memory, past every rule, to try any memory at all.
#[derive(Clone, Copy, PartialEq, Eq, Debug)]
pub enum Put {
    Arena { index: u64, word: u64 },
    Ledger { index: u64, word: u64 },
    Head { class: usize, address: u64 },
    Count(u64),
    User(u64),
    Allocated(u64),
    Total(u64),
    Order(u64),
}

/// As a line of input, so that a reported call can be fed in again.
impl fmt::Display for Call {
    fn fmt(&self, out: &mut fmt::Formatter) -> fmt::Result {
        match self {
            Call::Make {
                order,
                words,
                ledger,
            } => write!(out, "heap {order} {words} {ledger}"),
            Call::Remake { order } => write!(out, "remake {order}"),
            Call::Add { start, end } => write!(out, "add {start} {end}"),
            Call::Init { start, size } => write!(out, "init {start} {size}"),
            Call::Alloc { size, align } => write!(out, "alloc {size} {align}"),
            Call::Free {
                address,
                size,
                align,
            } => write!(out, "free {address} {size} {align}"),
            Call::Zero {
                address,
                size,
                align,
            } => write!(out, "zero {address} {size} {align}"),
            Call::List { class } => write!(out, "list {class}"),
            Call::Stats => write!(out, "stats"),
            Call::Put(put) => put.fmt(out),
        }
    }
}

impl fmt::Display for Put {
    fn fmt(&self, out: &mut fmt::Formatter) -> fmt::Result {
        match self {
            Put::Arena { index, word } => write!(out, "write {index} {word}"),
            Put::Ledger { index, word } => write!(out, "setledger {index} {word}"),
            Put::Head { class, address } => write!(out, "sethead {class} {address}"),
            Put::Count(value) => write!(out, "setcount {value}"),
            Put::User(value) => write!(out, "setuser {value}"),
            Put::Allocated(value) => write!(out, "setallocated {value}"),
            Put::Total(value) => write!(out, "settotal {value}"),
            Put::Order(value) => write!(out, "setorder {value}"),
        }
    }
}
