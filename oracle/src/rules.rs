//! The rules of docs/RULES.md, "Blocks of frames", that need no table, written from its sentences alone.

use crate::block::Block;

/// Frame numbers are below this.
pub const FRAME_LIMIT: u64 = 1 << 32;

/// ORDER is 1 to 33.
pub fn is_order(order: u64) -> bool {
    (1..=33).contains(&order)
}

/// The class of the least power of two not below the count; nothing where that exceeds 2^63.
pub fn rounded_class(count: u64) -> Option<u32> {
    (0..64).find(|class| 1u64 << class >= count)
}

/// The class of an aligned request: the larger of the rounded count and the alignment, a power of two.
pub fn aligned_class(count: u64, align: u64) -> Option<u32> {
    rounded_class(count).map(|class| class.max(align.trailing_zeros()))
}

/// The pieces of [start, end) from start upward, one at a time since a wide range may have 2^32 of them.
pub struct Cut {
    start: u64,
    end: u64,
    top: u64,
}

impl Cut {
    pub fn new(start: u64, end: u64, order: u32) -> Cut {
        Cut {
            start,
            end,
            top: 1 << (order - 1),
        }
    }

    /// The number masked with its wrapping negation, and the top block at 0.
    fn lowest_bit(&self) -> u64 {
        match self.start {
            0 => self.top,
            start => start & 0u64.wrapping_sub(start),
        }
    }
}

impl Iterator for Cut {
    type Item = Block;

    fn next(&mut self) -> Option<Block> {
        if self.start >= self.end {
            return None;
        }
        let fits = 1u64 << (self.end - self.start).ilog2();
        let size = self.lowest_bit().min(fits).min(self.top);
        let piece = Block::free(size.trailing_zeros(), self.start);
        self.start += size;
        Some(piece)
    }
}

/// Halves a free block towards the run of `class` at `start`: that run granted, every half not taken free, ascending.
pub fn halve_towards(block: Block, class: u32, start: u64) -> Vec<Block> {
    let mut below = Vec::new();
    let mut above = Vec::new();
    let mut held = block;
    while held.class > class {
        let lower = Block::free(held.class - 1, held.start);
        let upper = Block::free(held.class - 1, lower.end());
        if start >= upper.start {
            below.push(lower);
            held = upper;
        } else {
            above.push(upper);
            held = lower;
        }
    }
    below.push(Block::granted(class, start));
    below.extend(above.into_iter().rev());
    below
}

/// The buddy of a block: its start with bit k flipped.
pub fn buddy(block: Block) -> Block {
    Block {
        start: block.start ^ block.size(),
        ..block
    }
}

/// Two buddies joined: one class up, at the lower start.
pub fn joined(block: Block) -> Block {
    Block::free(block.class + 1, block.start.min(buddy(block).start))
}
