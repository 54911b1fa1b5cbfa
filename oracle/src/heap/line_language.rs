//! The lines that the program `heap_calls` reads, by the rules of the lines of `calls`.

use crate::call::{Call, Put};
use crate::record::CLASSES;
use frame_oracle::line_language::name_and_numbers;

/// The arena and the ledger that the program has of its own; more cannot be lent.
pub const ARENA_WORDS: u64 = 4_096;
pub const LEDGER_WORDS: u64 = 512;

/// The call of a line, or nothing for a bad line.
pub fn parse(line: &[u8]) -> Option<Call> {
    let (name, numbers) = name_and_numbers(line)?;
    match (name, numbers.as_slice()) {
        (b"heap", &[order, words, ledger]) => make(order, words, ledger),
        (b"remake", &[order]) => Some(Call::Remake { order }),
        (b"add", &[start, end]) => Some(Call::Add { start, end }),
        (b"init", &[start, size]) => Some(Call::Init { start, size }),
        (b"alloc", &[size, align]) => Some(Call::Alloc { size, align }),
        (b"free", &[address, size, align]) => Some(Call::Free {
            address,
            size,
            align,
        }),
        (b"zero", &[address, size, align]) => Some(Call::Zero {
            address,
            size,
            align,
        }),
        (b"list", &[class]) => Some(Call::List { class }),
        (b"stats", &[]) => Some(Call::Stats),
        _ => put(name, &numbers).map(Call::Put),
    }
}

fn make(order: u64, words: u64, ledger: u64) -> Option<Call> {
    (words <= ARENA_WORDS && ledger <= LEDGER_WORDS).then_some(Call::Make {
        order,
        words: words as usize,
        ledger: ledger as usize,
    })
}

fn put(name: &[u8], numbers: &[u64]) -> Option<Put> {
    match (name, numbers) {
        (b"write", &[index, word]) => Some(Put::Arena { index, word }),
        (b"setledger", &[index, word]) => Some(Put::Ledger { index, word }),
        (b"sethead", &[class, address]) if class < CLASSES as u64 => Some(Put::Head {
            class: class as usize,
            address,
        }),
        (b"setcount", &[value]) => Some(Put::Count(value)),
        (b"setuser", &[value]) => Some(Put::User(value)),
        (b"setallocated", &[value]) => Some(Put::Allocated(value)),
        (b"settotal", &[value]) => Some(Put::Total(value)),
        (b"setorder", &[value]) => Some(Put::Order(value)),
        _ => None,
    }
}
