//! Tables that live through many calls, made by calls or found with their blocks.

use crate::parts::Run;
use crate::side_by_side::{SideBySide, Stop};
use crate::tables::Table;
use frame_oracle::block::Block;
use frame_oracle::call::Call;
use frame_oracle::random_calls::Trouble;
use frame_oracle::random_numbers::RandomNumbers;

/// Random calls on tables of one length, with every ORDER, each table for some hundreds of calls.
pub fn every_order(run: &mut Run, words: usize, calls: u64) -> Result<(), Stop> {
    for order in 1..=33 {
        let mut left = calls * run.times;
        while left > 0 {
            let some = left.min(if words > 1_000 { 1_500 } else { 300 });
            life(run, words, order, some)?;
            left -= some;
        }
    }
    Ok(())
}

/// Single frames granted anywhere until there is no room, so that blocks of every class lie between them; then random calls.
pub fn fragmented(
    run: &mut Run,
    words: usize,
    order: u32,
    grants: u64,
    calls: u64,
) -> Result<(), Stop> {
    let trouble = Trouble::on(&mut run.numbers, words, order, true);
    let mut both = SideBySide::made(run.port, &mut run.tally, &vec![u64::MAX; words], order)?;
    // the pieces of the range take at most half of the words
    let (start, end) = (0, 1 << (order + words.ilog2() - 2).min(32));
    both.call(Call::AddFrame { start, end })?;
    for _ in 0..grants {
        let start = run.numbers.below(end);
        let answer = both.call(Call::AllocAt { start, count: 1 })?;
        if answer.number() == 11 {
            break;
        }
    }
    random_calls(&mut run.numbers, &mut both, &trouble, calls * run.times)
}

fn random_calls(
    numbers: &mut RandomNumbers,
    both: &mut SideBySide,
    trouble: &Trouble,
    calls: u64,
) -> Result<(), Stop> {
    for _ in 0..calls {
        let call = trouble.next_call(numbers, both.blocks());
        // made anew, a table would lose the blocks that it was given
        if !matches!(call, Call::Make { .. }) {
            both.call(call)?;
        }
    }
    Ok(())
}

/// Tables of any length up to 2,000 words, most of them short.
pub fn any_length(run: &mut Run) -> Result<(), Stop> {
    for _ in 0..250 * run.times {
        let short = run.numbers.below(4) < 3;
        let words = run.numbers.between(1, if short { 200 } else { 2_000 });
        let order = run.numbers.between(1, 33) as u32;
        life(run, words as usize, order, 300)?;
    }
    Ok(())
}

/// A table made over words of no meaning, and so many calls on it.
fn life(run: &mut Run, words: usize, order: u32, calls: u64) -> Result<(), Stop> {
    let trouble = Trouble::on(&mut run.numbers, words, order, true);
    let over: Vec<u64> = (0..words).map(|_| run.numbers.any()).collect();
    let mut both = SideBySide::made(run.port, &mut run.tally, &over, order)?;
    for _ in 0..calls {
        let call = trouble.next_call(&mut run.numbers, both.blocks());
        both.call(call)?;
    }
    Ok(())
}

/// Sound tables of any blocks, with free buddies that no release would leave; each gets a few calls.
pub fn not_made_by_calls(run: &mut Run) -> Result<(), Stop> {
    for round in 0..1_200 * run.times {
        let length = match round % 400 {
            0 => 65_536,
            1..=4 => 4_096,
            _ => run.numbers.between(1, 70) as usize,
        };
        let table = Table::sound(&mut run.numbers, length);
        let trouble = Trouble::on(&mut run.numbers, length, table.order, true);
        let (order, blocks) = (table.order, &table.blocks);
        let mut both = SideBySide::holding(run.port, &mut run.tally, length, order, blocks);
        random_calls(&mut run.numbers, &mut both, &trouble, 30)?;
    }
    Ok(())
}

/// The longest tables with no word left, where joining and granting move all records.
pub fn full_of_single_frames(run: &mut Run) -> Result<(), Stop> {
    for order in [1, 2, 33] {
        let single = |start| Block {
            granted: run.numbers.once_in(2),
            class: 0,
            start,
        };
        let blocks: Vec<Block> = (0..65_535).map(single).collect();
        let trouble = Trouble::on(&mut run.numbers, 65_536, order, true);
        let mut both = SideBySide::holding(run.port, &mut run.tally, 65_536, order, &blocks);
        random_calls(&mut run.numbers, &mut both, &trouble, 400 * run.times)?;
    }
    Ok(())
}
