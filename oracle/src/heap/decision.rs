//! What a call on an existing heap is decided to do: refusals in the order of docs/RULES.md's table, nothing changed.

use crate::answer::Refusal;
use crate::call::Call;
use crate::ledger::Grant;
use crate::record::{Memory, SMALLEST_CLASS, WORD};
use crate::soundness::Reading;
use frame_oracle::block::Block;
use frame_oracle::rules::{self, Cut};

/// An accepted call, with everything that carrying it out needs.
pub enum Decision {
    /// Pieces in ascending starts.
    Add(Vec<Block>),
    /// `from` is the class of the first list that serves.
    Grant {
        class: u32,
        from: u32,
        requested: u64,
    },
    Release(Grant),
    Clear(Grant),
    Nodes(Vec<u64>),
    Figures,
}

/// Decides a call; `reading` is there exactly where the heap is sound.
pub fn decide(memory: &Memory, reading: Option<&Reading>, call: Call) -> Result<Decision, Refusal> {
    let reading = reading.ok_or(Refusal::BadState)?;
    match call {
        Call::Add { start, end } => add(memory, reading, start.into(), end.into()),
        // The sum is not cut to 64 bits before it is compared with the arena.
        Call::Init { start, size } => add(
            memory,
            reading,
            start.into(),
            u128::from(start) + u128::from(size),
        ),
        Call::Alloc { size, align } => grant(memory, reading, size, align),
        Call::Free {
            address,
            size,
            align,
        } => granted(reading, address, size, align).map(Decision::Release),
        Call::Zero {
            address,
            size,
            align,
        } => granted(reading, address, size, align).map(Decision::Clear),
        Call::List { class } => Ok(Decision::Nodes(nodes(reading, class))),
        Call::Stats => Ok(Decision::Figures),
        Call::Make { .. } | Call::Remake { .. } | Call::Put(_) => {
            unreachable!("no call on an existing heap")
        }
    }
}

fn add(memory: &Memory, reading: &Reading, start: u128, end: u128) -> Result<Decision, Refusal> {
    let bytes = memory.arena_bytes();
    check(
        start <= bytes.into() && end <= bytes.into(),
        Refusal::BadRange,
    )?;
    // Both are at most the arena now, which is a multiple of 8.
    let (start, end) = (start as u64, end as u64);
    let first = start.div_ceil(WORD) * WORD;
    let after = end / WORD * WORD;
    check(first <= after, Refusal::BadRange)?;
    check(first > 0 || after == 0, Refusal::NullStart)?;
    let mut blocks = reading.free().chain(reading.granted());
    let touched = blocks.any(|block| block.address < after && first < block.end());
    check(first == after || !touched, Refusal::Overlap)?;
    Ok(Decision::Add(
        Cut::new(first, after, memory.record.order as u32).collect(),
    ))
}

fn grant(memory: &Memory, reading: &Reading, size: u64, align: u64) -> Result<Decision, Refusal> {
    check(align.is_power_of_two(), Refusal::BadAlign)?;
    let class = rounded(size, align).ok_or(Refusal::NoBlock)?;
    let serving = class..memory.record.order as u32;
    let mut nonempty = serving.filter(|class| !reading.lists[*class as usize].is_empty());
    let from = nonempty.next().ok_or(Refusal::NoBlock)?;
    check(reading.grants.len() < memory.ledger.len(), Refusal::NoRoom)?;
    Ok(Decision::Grant {
        class,
        from,
        requested: size,
    })
}

/// The granted block that start, rounded size and requested bytes name.
fn granted(reading: &Reading, address: u64, size: u64, align: u64) -> Result<Grant, Refusal> {
    check(align.is_power_of_two(), Refusal::BadAlign)?;
    let class = rounded(size, align).ok_or(Refusal::NotGranted)?;
    let wanted = Grant {
        class,
        requested: size,
        address,
    };
    let mut grants = reading.grants.iter();
    grants
        .find(|grant| **grant == wanted)
        .copied()
        .ok_or(Refusal::NotGranted)
}

/// The class of a request: the larger of the rounded size and the alignment, at least 8 bytes.
pub fn rounded(size: u64, align: u64) -> Option<u32> {
    rules::aligned_class(size, align).map(|class| class.max(SMALLEST_CLASS))
}

/// A class without a list has no nodes.
fn nodes(reading: &Reading, class: u64) -> Vec<u64> {
    let listed = usize::try_from(class)
        .ok()
        .and_then(|class| reading.lists.get(class));
    listed.cloned().unwrap_or_default()
}

fn check(holds: bool, refusal: Refusal) -> Result<(), Refusal> {
    if holds {
        Ok(())
    } else {
        Err(refusal)
    }
}
