//! Tables that no calls made: any sound list of blocks, and words that break one clause of soundness.

use frame_oracle::block::Block;
use frame_oracle::random_numbers::RandomNumbers;
use frame_oracle::rules::FRAME_LIMIT;
use frame_oracle::soundness::{broken, Clause};
use frame_oracle::words::table_words;

pub struct Table {
    pub length: usize,
    pub order: u32,
    pub blocks: Vec<Block>,
}

impl Table {
    /// A sound table: dense or sparse, from low frames or up to the last one, and often with no word left.
    pub fn sound(numbers: &mut RandomNumbers, length: usize) -> Table {
        let order = numbers.between(1, 33) as u32;
        let wanted = match numbers.below(3) {
            0 => numbers.below(length as u64),
            _ => length as u64 - 1,
        };
        let mut blocks = ascending(numbers, order, wanted as usize);
        if numbers.once_in(3) {
            move_to_the_end(&mut blocks);
        }
        Table {
            length,
            order,
            blocks,
        }
    }

    pub fn words(&self) -> Vec<u64> {
        table_words(self.order, &self.blocks, self.length)
    }

    /// The words with something wrong that breaks the clause, and no other where a few tries find such; nothing where this table
    /// has no place for it.
    pub fn damaged(&self, numbers: &mut RandomNumbers, clause: Clause) -> Option<Vec<u64>> {
        let mut with_others = None;
        for _ in 0..40 {
            let words = self.tried(numbers, clause);
            let clauses = broken(&words);
            if clauses == [clause] {
                return Some(words);
            }
            if clauses.contains(&clause) {
                with_others = Some(words);
                // a start below 2^32 that is a multiple of its size is never at fault with its end alone
                if clause == Clause::End {
                    break;
                }
            }
        }
        with_others
    }

    fn tried(&self, numbers: &mut RandomNumbers, clause: Clause) -> Vec<u64> {
        let mut words = self.words();
        let records = self.blocks.len();
        match clause {
            Clause::Length => words.resize(numbers.pick(&[0, 65_537]), 0),
            Clause::Order => {
                let order = numbers.pick(&[0, 34, 35, 48, 62, 63]);
                words[0] = words[0] << 6 >> 6 | order << 58;
            }
            Clause::Count => {
                let beyond = numbers.pick(&[self.length, self.length + 1, 65_535]);
                words[0] = u64::from(self.order) << 58 | (beyond as u64 & 0xffff) << 42;
            }
            Clause::ZeroField if numbers.once_in(4) => words[0] |= 1 << numbers.below(42),
            Clause::ZeroField => flip(numbers, &mut words, 1, records, 32, 25),
            Clause::ZeroWords if numbers.once_in(4) => {
                let fewer = numbers.below(records as u64 + 1);
                words[0] = u64::from(self.order) << 58 | fewer << 42;
            }
            Clause::ZeroWords => flip(numbers, &mut words, records + 1, self.length - 1, 0, 64),
            Clause::Class if numbers.once_in(2) => {
                let class = numbers.between(u64::from(self.order), 63);
                words[records] = words[records] & !(0x3f << 57) | class << 57;
            }
            Clause::Class | Clause::End => flip(numbers, &mut words, 1, records, 57, 6),
            Clause::Alignment => flip(numbers, &mut words, 1, records, 0, 32),
            Clause::Next if numbers.once_in(2) => swap_neighbours(numbers, &mut words, records),
            Clause::Next => flip(numbers, &mut words, 1, records, 0, 32),
        }
        words
    }
}

/// Blocks one after the other, each as near to the one before as its class and a gap allow.
fn ascending(numbers: &mut RandomNumbers, order: u32, wanted: usize) -> Vec<Block> {
    let top = u64::from(order - 1);
    let widest = if wanted > 64 { top.min(16) } else { top };
    let widest = numbers.below(widest + 1);
    let gaps = numbers.below(4);
    let mut start = if numbers.once_in(2) {
        0
    } else {
        numbers.sized(31)
    };
    let mut blocks: Vec<Block> = Vec::new();
    while blocks.len() < wanted {
        let class = numbers.between(0, widest) as u32;
        let block = Block {
            granted: numbers.once_in(2),
            class,
            start: start.next_multiple_of(1 << class),
        };
        if block.end() > FRAME_LIMIT {
            break;
        }
        blocks.push(block);
        start = block.end()
            + if numbers.below(4) < gaps {
                numbers.sized(8)
            } else {
                0
            };
    }
    blocks
}

/// Moves all blocks up by one distance, a multiple of each size, so that the last comes near the last frame.
fn move_to_the_end(blocks: &mut [Block]) {
    let widest = blocks.iter().map(Block::size).max().unwrap_or(1);
    let end = blocks.last().map_or(0, Block::end);
    let distance = (FRAME_LIMIT - end) / widest * widest;
    for block in blocks {
        block.start += distance;
    }
}

/// Flips one of `bits` bits from bit `low` on, in one of the words from `first` to `last`; none where there is no such word.
fn flip(
    numbers: &mut RandomNumbers,
    words: &mut [u64],
    first: usize,
    last: usize,
    low: u64,
    bits: u64,
) {
    if first <= last {
        let place = numbers.between(first as u64, last as u64) as usize;
        words[place] ^= 1 << (low + numbers.below(bits));
    }
}

/// Exchanges two records that stand side by side, or makes the second the same as the first.
fn swap_neighbours(numbers: &mut RandomNumbers, words: &mut [u64], records: usize) {
    if records >= 2 {
        let place = numbers.between(1, records as u64 - 1) as usize;
        match numbers.once_in(2) {
            true => words.swap(place, place + 1),
            false => words[place + 1] = words[place],
        }
    }
}
