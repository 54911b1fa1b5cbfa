//! Random words put past the rules: writes that a holder of memory may make, and damage of every part.

use crate::call::{Call, Put};
use crate::ledger::Grant;
use crate::record::{Memory, CLASSES, WORD};
use crate::soundness::Reading;
use frame_oracle::random_numbers::RandomNumbers;

/// A write into a granted block, which is its holder's to write, or into any word that is no link.
pub fn foreign_write(numbers: &mut RandomNumbers, memory: &Memory, reading: &Reading) -> Call {
    let granted = match reading.grants.is_empty() {
        true => None,
        false => Some(numbers.pick(&reading.grants)),
    };
    let index = match granted {
        Some(grant) => (grant.address + numbers.below(grant.size())) / WORD,
        None => numbers.below(memory.arena.len() as u64),
    };
    let is_link = reading.free().any(|block| block.address / WORD == index);
    let word = match numbers.below(4) {
        0 => 0,
        1 => numbers.any(),
        _ => numbers.below(memory.arena_bytes()) / WORD * WORD,
    };
    match is_link {
        true => Call::Stats,
        false => Call::Put(Put::Arena { index, word }),
    }
}

/// One word of record, ledger or arena changed, often by a little.
pub fn damage(numbers: &mut RandomNumbers, memory: &Memory) -> Put {
    let record = &memory.record;
    match numbers.below(12) {
        0 => Put::Order(numbers.pick(&[
            0,
            3,
            4,
            33,
            34,
            record.order.wrapping_sub(1),
            record.order.wrapping_add(1),
        ])),
        1 => Put::Count(near(numbers, record.count)),
        2 => Put::User(near(numbers, record.user)),
        3 => Put::Allocated(near(numbers, record.allocated)),
        4 => Put::Total(near(numbers, record.total)),
        5 | 6 => Put::Head {
            class: numbers.below(CLASSES as u64) as usize,
            address: address(numbers, memory),
        },
        7 | 8 => ledger_word(numbers, memory),
        _ => Put::Arena {
            index: numbers.below(memory.arena.len() as u64 + 1),
            word: address(numbers, memory),
        },
    }
}

fn ledger_word(numbers: &mut RandomNumbers, memory: &Memory) -> Put {
    let used = memory.record.count.min(memory.ledger.len() as u64);
    let index = numbers.below(used + 2);
    let word = match numbers.below(3) {
        0 => numbers.any(),
        1 => {
            let held = memory.ledger.get(index as usize).copied().unwrap_or(0);
            held ^ 1 << numbers.below(64)
        }
        _ => Grant {
            class: numbers.between(2, 10) as u32,
            requested: numbers.below(64),
            address: address(numbers, memory) & 0xff_ffff,
        }
        .word(),
    };
    Put::Ledger { index, word }
}

fn address(numbers: &mut RandomNumbers, memory: &Memory) -> u64 {
    let inside = numbers.below(memory.arena_bytes() + WORD);
    match numbers.below(8) {
        0 => numbers.any(),
        1 => inside,
        2 => 0,
        _ => inside / WORD * WORD,
    }
}

fn near(numbers: &mut RandomNumbers, value: u64) -> u64 {
    match numbers.below(3) {
        0 => numbers.any(),
        _ => value.wrapping_add(numbers.pick(&[1, u64::MAX, 8, 16])),
    }
}
