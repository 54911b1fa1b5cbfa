//! Random calls on a table, chosen with a look at its blocks so that accepted calls and every refusal are frequent.

use crate::block::Block;
use crate::call::Call;
use crate::random_numbers::RandomNumbers;
use crate::rules::FRAME_LIMIT;

/// One table's life: its length and ORDER, where its frames lie, how large requests are, which calls are frequent.
pub struct Trouble {
    pub words: usize,
    pub order: u32,
    pub calls: u64,
    base: u64,
    span_bits: u64,
    request_bits: u64,
    releases: u64,
    all_calls: bool,
}

impl Trouble {
    pub fn new(
        numbers: &mut RandomNumbers,
        fixed_words: Option<usize>,
        all_calls: bool,
    ) -> Trouble {
        let words = fixed_words.unwrap_or_else(|| table_length(numbers));
        let order = match numbers.below(3) {
            0 => numbers.between(1, 4),
            1 => numbers.between(29, 33),
            _ => numbers.between(1, 33),
        } as u32;
        Trouble::on(numbers, words, order, all_calls)
    }

    /// The same on a table whose length and ORDER are given.
    pub fn on(numbers: &mut RandomNumbers, words: usize, order: u32, all_calls: bool) -> Trouble {
        let span_bits = numbers.pick(&[3, 5, 8, 12, 16, 16, 20, 32]);
        let highest = FRAME_LIMIT - (1 << span_bits);
        let base = match numbers.below(4) {
            0 => highest,
            1 => numbers.between(0, highest),
            _ => 0,
        };
        let widest = u64::from(order - 1).min(span_bits);
        Trouble {
            words,
            order,
            calls: numbers.between(5, if words > 10_000 { 300 } else { 1_500 }),
            base,
            span_bits,
            request_bits: numbers.between(0, widest),
            releases: numbers.between(2, 8),
            all_calls,
        }
    }

    /// The next call on a table that holds these blocks.
    pub fn next_call(&self, numbers: &mut RandomNumbers, blocks: &[Block]) -> Call {
        if numbers.once_in(400) {
            let order = u64::from(self.order);
            let orders = [order, order, 0, 34, 64, u64::MAX, FRAME_LIMIT + order];
            return Call::Make {
                order: numbers.pick(&orders),
            };
        }
        if self.all_calls && numbers.once_in(16) {
            return Call::Summary;
        }
        if blocks.is_empty() && !numbers.once_in(4) {
            return self.add(numbers, blocks);
        }
        match numbers.below(8 + self.releases) {
            0 | 1 => self.add(numbers, blocks),
            2..=4 => self.grant(numbers),
            5..=7 => self.grant_at(numbers, blocks),
            _ => self.release(numbers, blocks),
        }
    }

    fn add(&self, numbers: &mut RandomNumbers, blocks: &[Block]) -> Call {
        if blocks.is_empty() && numbers.once_in(2) {
            // All frames at once: a short table has no room, a long one becomes dense.
            return Call::AddFrame {
                start: self.base,
                end: self.base + (1 << self.span_bits),
            };
        }
        let length = numbers.sized(self.span_bits);
        let near = some_block(numbers, blocks);
        let (start, end) = match (numbers.below(10), near) {
            (0, _) => (self.boundary(numbers), self.boundary(numbers)),
            (1, _) => {
                let start = self.frame(numbers);
                (start, start)
            }
            (2 | 3, Some(block)) => (block.end(), block.end() + length),
            (4, Some(block)) => (block.start.saturating_sub(length), block.start),
            (5 | 6, Some(block)) => {
                let start = block.end() + numbers.below(length + 1);
                (start, start + length)
            }
            (7, Some(block)) => (block.end().wrapping_sub(1), block.end() + length),
            _ => {
                let start = self.frame(numbers);
                (start, (start + length).min(FRAME_LIMIT))
            }
        };
        match self.all_calls && numbers.once_in(2) {
            true => Call::Insert { start, end },
            false => Call::AddFrame { start, end },
        }
    }

    fn grant(&self, numbers: &mut RandomNumbers) -> Call {
        let count = self.count(numbers);
        match self.all_calls && numbers.once_in(2) {
            true => Call::AllocAligned {
                count,
                align: self.align(numbers),
            },
            false => Call::Alloc { count },
        }
    }

    fn grant_at(&self, numbers: &mut RandomNumbers, blocks: &[Block]) -> Call {
        let count = self.count(numbers);
        let inside = match some_block(numbers, blocks) {
            Some(block) if !numbers.once_in(8) => block.start + numbers.below(block.size()),
            _ => self.frame(numbers),
        };
        let start = match numbers.below(12) {
            0 => self.boundary(numbers),
            1 => inside,
            _ => inside & !(count.checked_next_power_of_two().unwrap_or(1) - 1),
        };
        Call::AllocAt { start, count }
    }

    fn release(&self, numbers: &mut RandomNumbers, blocks: &[Block]) -> Call {
        let (mut start, mut count, class) = match some_granted(numbers, blocks) {
            Some(block) => (
                block.start,
                block.size() - numbers.below(block.size().div_ceil(2)),
                block.class,
            ),
            None => (self.frame(numbers), self.count(numbers), 0),
        };
        match numbers.below(16) {
            0 => count = count.wrapping_mul(2),
            1 => count /= 2,
            2 => count = self.boundary(numbers),
            3 => start = start.wrapping_add(numbers.below(4)).wrapping_sub(2),
            4 => start = self.boundary(numbers),
            5 => start = self.frame(numbers),
            _ => {}
        }
        if !(self.all_calls && numbers.once_in(2)) {
            return Call::Dealloc { start, count };
        }
        // An alignment up to the block's size with a count up to it names the same block.
        let align = if numbers.once_in(4) {
            self.align(numbers)
        } else {
            1 << class
        };
        let count = if numbers.once_in(4) {
            numbers.sized(u64::from(class))
        } else {
            count
        };
        Call::DeallocAligned {
            start,
            count,
            align,
        }
    }

    fn count(&self, numbers: &mut RandomNumbers) -> u64 {
        match numbers.below(24) {
            0 => self.boundary(numbers),
            1 => 0,
            2 => numbers.sized(u64::from(self.order)),
            _ => numbers.sized(self.request_bits),
        }
    }

    fn align(&self, numbers: &mut RandomNumbers) -> u64 {
        match numbers.below(12) {
            0 => self.boundary(numbers),
            1 => numbers.below(8),
            2 => 1 << numbers.below(64),
            _ => 1 << numbers.between(0, self.request_bits),
        }
    }

    fn frame(&self, numbers: &mut RandomNumbers) -> u64 {
        self.base + numbers.below(1 << self.span_bits)
    }

    fn boundary(&self, numbers: &mut RandomNumbers) -> u64 {
        numbers.boundary(self.order)
    }
}

/// Tiny tables fill up, middling ones fragment, and a few are as long as tables get.
fn table_length(numbers: &mut RandomNumbers) -> usize {
    let words = match numbers.below(100) {
        0..=34 => numbers.between(1, 9),
        35..=79 => numbers.between(10, 200),
        80..=97 => numbers.between(200, 4_096),
        98 => numbers.between(4_096, 65_536),
        _ => 65_536,
    };
    words as usize
}

fn some_block(numbers: &mut RandomNumbers, blocks: &[Block]) -> Option<Block> {
    (!blocks.is_empty()).then(|| numbers.pick(blocks))
}

/// A granted block if a few tries find one, otherwise any block, whose release is then refused.
fn some_granted(numbers: &mut RandomNumbers, blocks: &[Block]) -> Option<Block> {
    let tries: Vec<Block> = (0..8).filter_map(|_| some_block(numbers, blocks)).collect();
    tries
        .iter()
        .find(|block| block.granted)
        .or(tries.first())
        .copied()
}
