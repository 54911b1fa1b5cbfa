//! When a heap is sound, from docs/RULES.md, "The heap over an arena": the clauses of its sentence, each by itself.

use crate::ledger::{zero_field, Grant};
use crate::links;
use crate::record::{is_arena_length, is_ledger_length, is_order, Memory, SMALLEST_CLASS, WORD};

/// A clause of the sentence, in its order.
#[derive(Clone, Copy, PartialEq, Eq, Debug)]
pub enum Clause {
    ArenaLength,
    LedgerLength,
    Order,
    LedgerCount,
    HeadsWithoutList,
    ListsEnd,
    LedgerZeroField,
    LedgerAscending,
    LedgerRest,
    LedgerClass,
    LedgerHoldsRequest,
    Aligned,
    AboveZero,
    InsideArena,
    Disjoint,
    User,
    Allocated,
    Total,
}

/// What record, arena and ledger say, sound or not.
#[derive(Clone, PartialEq, Eq, Debug)]
pub struct Reading {
    /// The nodes of each class's list, in list order.
    pub lists: Vec<Vec<u64>>,
    pub grants: Vec<Grant>,
    lists_end: bool,
}

/// A free or granted block, by class and address alone.
#[derive(Clone, Copy, PartialEq, Eq, Debug)]
pub struct Held {
    pub class: u32,
    pub address: u64,
}

impl Held {
    pub fn size(&self) -> u64 {
        1 << self.class
    }

    /// The first byte after the block; an address near 2^64 keeps a number far outside every arena.
    pub fn end(&self) -> u64 {
        self.address.saturating_add(self.size())
    }
}

impl Reading {
    pub fn free(&self) -> impl Iterator<Item = Held> + '_ {
        let numbered = self.lists.iter().enumerate();
        numbered.flat_map(|(class, list)| {
            list.iter().map(move |address| Held {
                class: class as u32,
                address: *address,
            })
        })
    }

    pub fn granted(&self) -> impl Iterator<Item = Held> + '_ {
        self.grants.iter().map(|grant| Held {
            class: grant.class,
            address: grant.address,
        })
    }

    /// Free and granted blocks together, in ascending addresses.
    pub fn blocks(&self) -> Vec<Held> {
        let mut blocks: Vec<Held> = self.free().chain(self.granted()).collect();
        blocks.sort_by_key(|block| block.address);
        blocks
    }
}

/// The lists as far as they can be followed, and the records that the count says, as far as there are words.
pub fn read(memory: &Memory) -> Reading {
    let heads = memory.record.heads.iter();
    let followed: Vec<_> = heads
        .map(|head| links::nodes(&memory.arena, *head))
        .collect();
    let count = memory.record.count.min(memory.ledger.len() as u64) as usize;
    Reading {
        lists_end: followed.iter().all(|(_, reached)| *reached),
        lists: followed.into_iter().map(|(nodes, _)| nodes).collect(),
        grants: memory.ledger[..count]
            .iter()
            .map(|word| Grant::of_word(*word))
            .collect(),
    }
}

/// The clauses that the memory breaks, in the sentence's order.
pub fn broken(memory: &Memory, reading: &Reading) -> Vec<Clause> {
    let mut kept = ranges(memory);
    kept.push((
        Clause::HeadsWithoutList,
        heads_without_list_are_zero(memory),
    ));
    kept.push((Clause::ListsEnd, reading.lists_end));
    kept.extend(ledger_clauses(memory, reading));
    kept.extend(block_clauses(memory, reading));
    kept.extend(sum_clauses(memory, reading));
    let broken = kept.iter().filter(|(_, holds)| !holds);
    broken.map(|(clause, _)| *clause).collect()
}

fn ranges(memory: &Memory) -> Vec<(Clause, bool)> {
    let count_fits = memory.record.count <= memory.ledger.len() as u64;
    vec![
        (Clause::ArenaLength, is_arena_length(memory.arena.len())),
        (Clause::LedgerLength, is_ledger_length(memory.ledger.len())),
        (Clause::Order, is_order(memory.record.order)),
        (Clause::LedgerCount, count_fits),
    ]
}

fn heads_without_list_are_zero(memory: &Memory) -> bool {
    let mut numbered = (0u64..).zip(memory.record.heads.iter());
    numbered.all(|(class, head)| {
        let has_list = class >= u64::from(SMALLEST_CLASS) && class < memory.record.order;
        has_list || *head == 0
    })
}

fn ledger_clauses(memory: &Memory, reading: &Reading) -> Vec<(Clause, bool)> {
    let (records, rest) = memory.ledger.split_at(reading.grants.len());
    let grants = &reading.grants;
    let class_fits = |grant: &Grant| {
        grant.class >= SMALLEST_CLASS && u64::from(grant.class) < memory.record.order
    };
    let mut pairs = grants.windows(2);
    vec![
        (
            Clause::LedgerZeroField,
            records.iter().all(|word| zero_field(*word) == 0),
        ),
        (
            Clause::LedgerAscending,
            pairs.all(|pair| pair[0].address < pair[1].address),
        ),
        (Clause::LedgerRest, rest.iter().all(|word| *word == 0)),
        (Clause::LedgerClass, grants.iter().all(class_fits)),
        (
            Clause::LedgerHoldsRequest,
            grants.iter().all(|grant| grant.requested <= grant.size()),
        ),
    ]
}

fn block_clauses(memory: &Memory, reading: &Reading) -> Vec<(Clause, bool)> {
    let blocks = reading.blocks();
    let bytes = memory.arena.len() as u64 * WORD;
    let mut pairs = blocks.windows(2);
    vec![
        (
            Clause::Aligned,
            blocks.iter().all(|block| block.address % block.size() == 0),
        ),
        (
            Clause::AboveZero,
            blocks.iter().all(|block| block.address > 0),
        ),
        (
            Clause::InsideArena,
            blocks.iter().all(|block| block.end() <= bytes),
        ),
        // In ascending addresses two blocks that meet have two neighbours between them that meet.
        (
            Clause::Disjoint,
            pairs.all(|pair| pair[0].end() <= pair[1].address),
        ),
    ]
}

/// Sums are taken in 128 bits, since records that break a clause may name blocks of up to 2^63 bytes.
fn sum_clauses(memory: &Memory, reading: &Reading) -> Vec<(Clause, bool)> {
    let record = &memory.record;
    let user: u128 = reading
        .grants
        .iter()
        .map(|grant| u128::from(grant.requested))
        .sum();
    let allocated: u128 = reading
        .granted()
        .map(|block| u128::from(block.size()))
        .sum();
    let free: u128 = reading.free().map(|block| u128::from(block.size())).sum();
    vec![
        (Clause::User, u128::from(record.user) == user),
        (Clause::Allocated, u128::from(record.allocated) == allocated),
        (Clause::Total, u128::from(record.total) == allocated + free),
    ]
}
