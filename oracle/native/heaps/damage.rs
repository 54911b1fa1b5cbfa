//! Sound memory with something wrong: words that somebody overwrote, links that loop or lead away, blocks that overlap.

use frame_oracle::random_numbers::RandomNumbers;
use heap_oracle::bookkeeping::Bookkeeping;
use heap_oracle::call::Call;
use heap_oracle::ledger::{self, Grant};
use heap_oracle::links;
use heap_oracle::random_damage;
use heap_oracle::record::{Memory, WORD};
use heap_oracle::soundness::{self, Held, Reading};

/// A copy of the memory with one kind of damage; where a kind needs a block that is not there, a word put anywhere.
pub fn damaged(numbers: &mut RandomNumbers, memory: &Memory, reading: &Reading) -> Memory {
    let free: Vec<Held> = reading.free().collect();
    let kind = numbers.below(5);
    let done = match (kind, free.is_empty(), reading.grants.is_empty()) {
        (1, false, _) => Some(with_link(numbers, memory, reading, &free)),
        (2, false, _) => Some(with_block_twice(numbers, memory, &free)),
        (3, _, _) => with_grant(numbers, memory),
        (4, _, false) => Some(with_ledger_word(numbers, memory, reading)),
        _ => None,
    };
    let Some(mut done) = done else {
        let mut paper = Bookkeeping::of_memory(memory.clone());
        paper.call(Call::Put(random_damage::damage(numbers, memory)));
        return paper.memory().clone();
    };
    // with counters that fit, the other clauses are broken alone
    if !numbers.once_in(4) {
        count_anew(&mut done);
    }
    done
}

/// A free block's link changed: to itself, to its list's head, to another block, out of the arena.
fn with_link(
    numbers: &mut RandomNumbers,
    memory: &Memory,
    reading: &Reading,
    free: &[Held],
) -> Memory {
    let mut done = memory.clone();
    let (block, other) = (numbers.pick(free), numbers.pick(free));
    let bytes = memory.arena_bytes();
    let link = match numbers.below(8) {
        0 => block.address,
        1 => memory.record.heads[block.class as usize],
        2 => other.address,
        3 => block.address + WORD,
        4 => reading.grants.first().map_or(0, |grant| grant.address),
        5 => numbers.below(bytes),
        _ => numbers.pick(&[
            0,
            1,
            bytes,
            bytes - 1,
            bytes + WORD,
            1 << 24,
            1 << 40,
            u64::MAX,
            u64::MAX - 7,
        ]),
    };
    done.arena[(block.address / WORD) as usize] = link;
    done
}

/// A free block, or a part of one, stands in a list a second time, or beside one in a class that has no list.
fn with_block_twice(numbers: &mut RandomNumbers, memory: &Memory, free: &[Held]) -> Memory {
    let mut done = memory.clone();
    let block = numbers.pick(free);
    let class = match numbers.below(4) {
        0 => numbers.below(33) as u32,
        1 => block.class + 1,
        _ => numbers.between(3, u64::from(block.class)) as u32,
    };
    let part = numbers.below(block.size()) & !((1 << class.min(40)) - 1);
    links::push(&mut done, class.min(32), block.address + part);
    done
}

/// A grant that no call made: at address 0, past the end, misaligned, over another block, or of no class of this heap.
fn with_grant(numbers: &mut RandomNumbers, memory: &Memory) -> Option<Memory> {
    let mut done = memory.clone();
    let count = memory.record.count as usize;
    if count >= memory.ledger.len() {
        return None;
    }
    let class = numbers.between(2, memory.record.order.min(24)) as u32;
    let bytes = memory.arena_bytes();
    let address = match numbers.below(5) {
        0 => 0,
        1 => bytes / (1 << class) * (1 << class),
        2 => (bytes + WORD).saturating_sub(1 << class),
        3 => numbers.below(bytes) / (1 << class) * (1 << class),
        _ => numbers.below(bytes) / WORD * WORD,
    };
    let grant = Grant {
        class,
        requested: numbers.below((1 << class) + 2),
        address: address & 0xff_ffff,
    };
    ledger::insert(&mut done.ledger, count, grant);
    done.record.count += 1;
    Some(done)
}

/// A grant's word changed by a field, put out of order, or one after the last.
fn with_ledger_word(numbers: &mut RandomNumbers, memory: &Memory, reading: &Reading) -> Memory {
    let mut done = memory.clone();
    let count = reading.grants.len() as u64;
    let place = numbers.below(count) as usize;
    let mut grant = reading.grants[place];
    match numbers.below(7) {
        0 => done.ledger[place] |= 1 << numbers.between(24, 33),
        1 => done.ledger.swap(place, numbers.below(count) as usize),
        2 => done.ledger[memory.ledger.len() - 1] |= 1 << numbers.below(64),
        kind => {
            match kind {
                3 => grant.class = numbers.below(64) as u32,
                4 => grant.class = memory.record.order as u32,
                5 => grant.requested = (grant.size() + 1).min(0xff_ffff),
                _ => grant.address ^= 1 << numbers.below(12),
            }
            done.ledger[place] = grant.word();
        }
    }
    done
}

/// The three counters as the blocks have them.
fn count_anew(memory: &mut Memory) {
    let reading = soundness::read(memory);
    let add = |sum: u64, n: u64| sum.wrapping_add(n);
    let allocated = reading.granted().map(|block| block.size()).fold(0, add);
    memory.record.user = reading
        .grants
        .iter()
        .map(|grant| grant.requested)
        .fold(0, add);
    memory.record.allocated = allocated;
    memory.record.total = reading
        .free()
        .map(|block| block.size())
        .fold(allocated, add);
}
