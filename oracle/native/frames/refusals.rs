//! Calls that are mostly refused: making, numbers at which something changes, and tables that are not sound.

use crate::parts::Run;
use crate::port::Reply;
use crate::side_by_side::{compare, Lent, SideBySide, Stop};
use crate::tables::Table;
use frame_oracle::block::Block;
use frame_oracle::bookkeeping::Bookkeeping;
use frame_oracle::call::Call;
use frame_oracle::random_calls::Trouble;
use frame_oracle::soundness::Clause;
use frame_oracle::words::table_words;

/// Every ORDER, every length that is told apart, and numbers beside them: made, or refused with no word changed.
pub fn making(run: &mut Run) -> Result<(), Stop> {
    let near = near_numbers();
    for length in [0, 1, 2, 3, 64, 4_096, 65_535, 65_536, 65_537] {
        let over: Vec<u64> = (0..length).map(|_| run.numbers.any()).collect();
        let short = length <= 64;
        let orders = (0..=40).chain(near.iter().copied().filter(|_| short));
        for order in orders.step_by(if short { 1 } else { 3 }) {
            let call = Call::Make { order };
            let (reply, words) = match Bookkeeping::new(length, order) {
                Ok(table) => (Reply::done(0), table_words(table.order(), &[], length)),
                Err(refusal) => (Reply::refused(refusal as u64), over.clone()),
            };
            compare(run.port, &mut Lent::new(&over), call, reply, &words)?;
            run.tally.count(reply.number);
        }
    }
    Ok(())
}

/// Numbers at which something changes: small ones, and those beside 2^31, 2^32, 2^33, 2^63 and 2^64.
fn near_numbers() -> Vec<u64> {
    let powers = [1 << 31, 1 << 32, 1 << 33, 1 << 63, 0u64];
    let beside = |power: u64| {
        [
            power.wrapping_sub(2),
            power.wrapping_sub(1),
            power,
            power + 1,
        ]
    };
    let mut all: Vec<u64> = (0..=5).chain(powers.into_iter().flat_map(beside)).collect();
    all.sort_unstable();
    all.dedup();
    all
}

/// Each call on each pair of such numbers, over tables that reach from frame 0, or to the last frame, or hold all frames.
pub fn near_powers(run: &mut Run) -> Result<(), Stop> {
    let near = near_numbers();
    for (order, from, to) in [
        (33, 0, 6),
        (33, (1 << 32) - 6, 1 << 32),
        (33, 0, 1 << 32),
        (32, 0, 1 << 32),
        (1, 2, 4),
    ] {
        for one in &near {
            let mut both = SideBySide::made(run.port, &mut run.tally, &[u64::MAX; 64], order)?;
            let (start, end) = (from, to);
            both.call(Call::AddFrame { start, end })?;
            for other in &near {
                for call in calls_on(*one, *other) {
                    both.call(call)?;
                }
            }
        }
    }
    Ok(())
}

/// Each call on the two numbers.
fn calls_on(one: u64, other: u64) -> [Call; 7] {
    let (start, end, count, align) = (one, other, other, other);
    [
        Call::AllocAt { start, count },
        Call::Dealloc { start, count },
        Call::AllocAligned { count: one, align },
        Call::DeallocAligned {
            start,
            count,
            align,
        },
        Call::AddFrame { start, end },
        Call::Alloc { count },
        Call::Summary,
    ]
}

/// Tables that break the clause: every call is refused with 3, and changes no word.
pub fn damaged(run: &mut Run, clause: Clause) -> Result<(), Stop> {
    let mut found = 0;
    for round in 0..400 * run.times {
        let length = match round % 20 {
            0 => 65_536,
            1 | 2 => 4_096,
            3 => 2,
            4 => 1,
            _ => run.numbers.between(3, 64) as usize,
        };
        let table = Table::sound(&mut run.numbers, length);
        if let Some(words) = table.damaged(&mut run.numbers, clause) {
            found += 1;
            all_refused(run, &table, &words)?;
        }
    }
    assert!(
        found > 100 * run.times,
        "too few tables that break {clause:?}: {found}"
    );
    Ok(())
}

/// Calls that would do something if the table were sound; over a long table a few of them only.
fn all_refused(run: &mut Run, table: &Table, words: &[u64]) -> Result<(), Stop> {
    let mut lent = Lent::new(words);
    let trouble = Trouble::on(&mut run.numbers, table.length, table.order, true);
    let block = table.blocks.first().copied().unwrap_or(Block::free(0, 0));
    let (start, count) = (block.start, block.size());
    let mut calls = calls_on(start, count).to_vec();
    calls.push(trouble.next_call(&mut run.numbers, &table.blocks));
    calls.retain(|call| !matches!(call, Call::Make { .. }));
    let skipped = if words.len() > 4_096 {
        run.numbers.below(6) as usize
    } else {
        0
    };
    for call in calls.into_iter().skip(skipped) {
        compare(run.port, &mut lent, call, Reply::refused(3), words)?;
        run.tally.count(3);
    }
    Ok(())
}
