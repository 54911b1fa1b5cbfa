//! Random lines on a heap, chosen with a look at its blocks so that accepted calls and every refusal are frequent.

use crate::call::Call;
use crate::ledger::Grant;
use crate::random_damage;
use crate::record::{Memory, WORD};
use crate::soundness::{Held, Reading};
use frame_oracle::random_numbers::RandomNumbers;

/// One heap's life: what is lent and its ORDER, how large requests are, which calls are frequent.
pub struct Life {
    order: u64,
    words: usize,
    ledger: usize,
    calls_left: u64,
    request_bits: u64,
    releases: u64,
    /// Once in so many lines a word is put past the rules; 0 for never.
    damage: u64,
}

impl Life {
    pub fn new(numbers: &mut RandomNumbers) -> Life {
        let words = arena_length(numbers);
        let bits = u64::from((words as u64 * WORD).ilog2());
        let order = match numbers.below(4) {
            0 => numbers.between(4, 7),
            1 => numbers.between(4, 33),
            _ => numbers.between(bits.saturating_sub(2).max(4), (bits + 2).min(33)),
        };
        let ledger = match numbers.below(4) {
            0 => numbers.between(1, 4),
            1 => numbers.between(5, 64),
            _ => 512,
        };
        let widest = (order - 1).min(bits);
        Life {
            order,
            words,
            ledger: ledger as usize,
            calls_left: numbers.between(5, 800),
            request_bits: numbers.between(0, widest),
            releases: numbers.between(2, 8),
            damage: numbers.pick(&[0, 0, 0, 60]),
        }
    }

    /// The line that makes this life's heap.
    pub fn beginning(&self) -> Call {
        Call::Make {
            order: self.order,
            words: self.words,
            ledger: self.ledger,
        }
    }

    /// The next line on this memory, or nothing where this life is over.
    pub fn next_call(
        &mut self,
        numbers: &mut RandomNumbers,
        memory: &Memory,
        sound: Option<&Reading>,
    ) -> Option<Call> {
        self.calls_left = self.calls_left.checked_sub(1)?;
        if memory.arena.is_empty() {
            return Some(self.beginning());
        }
        let Some(reading) = sound else {
            return Some(self.call_on_unsound(numbers, memory));
        };
        if numbers.once_in(150) {
            return Some(self.making(numbers));
        }
        if self.damage > 0 && numbers.once_in(self.damage) {
            return Some(Call::Put(random_damage::damage(numbers, memory)));
        }
        if numbers.once_in(12) {
            return Some(random_damage::foreign_write(numbers, memory, reading));
        }
        Some(self.call(numbers, memory, reading))
    }

    /// Every call gives 3 now, so a few lines are enough before the heap is made again.
    fn call_on_unsound(&self, numbers: &mut RandomNumbers, memory: &Memory) -> Call {
        match numbers.below(6) {
            0 => self.beginning(),
            1 => Call::Remake { order: self.order },
            2 => Call::Stats,
            3 => Call::List {
                class: numbers.below(34),
            },
            4 => Call::Put(random_damage::damage(numbers, memory)),
            _ => self.alloc(numbers),
        }
    }

    fn making(&self, numbers: &mut RandomNumbers) -> Call {
        let order = numbers.pick(&[self.order, self.order, 0, 3, 4, 33, 34, u64::MAX]);
        match numbers.below(3) {
            0 => Call::Make {
                order,
                words: numbers.pick(&[0, 1, 2, 8, 4_096]),
                ledger: numbers.pick(&[0, 1, 512]),
            },
            _ => Call::Remake { order },
        }
    }

    fn call(&self, numbers: &mut RandomNumbers, memory: &Memory, reading: &Reading) -> Call {
        let nothing_managed = reading.free().next().is_none() && reading.grants.is_empty();
        if nothing_managed && !numbers.once_in(4) {
            return self.add(numbers, memory, reading);
        }
        match numbers.below(12 + self.releases) {
            0 => Call::Stats,
            1 => Call::List {
                class: self.class(numbers),
            },
            2 | 3 => self.add(numbers, memory, reading),
            4 => {
                let (address, size, align) = self.release(numbers, memory, reading);
                Call::Zero {
                    address,
                    size,
                    align,
                }
            }
            5..=11 => self.alloc(numbers),
            _ => {
                let (address, size, align) = self.release(numbers, memory, reading);
                Call::Free {
                    address,
                    size,
                    align,
                }
            }
        }
    }

    fn add(&self, numbers: &mut RandomNumbers, memory: &Memory, reading: &Reading) -> Call {
        let bytes = memory.arena_bytes();
        let length = numbers.sized(u64::from(bytes.ilog2()));
        let near = some_block(numbers, reading);
        let (start, end) = match (numbers.below(12), near) {
            (0 | 1, None) => (WORD, bytes),
            (0, _) => (
                numbers.boundary(self.order as u32),
                numbers.boundary(self.order as u32),
            ),
            (1, _) => (
                bytes.wrapping_add(numbers.below(4)).wrapping_sub(2),
                bytes + numbers.below(3),
            ),
            (2, _) => (numbers.below(9), numbers.below(20)),
            (3 | 4, Some(block)) => (block.end(), block.end() + length),
            (5 | 6, Some(block)) => (block.address.saturating_sub(length), block.address),
            (7, Some(block)) => (block.end() - 1, block.end() + length),
            (8, Some(block)) => (block.end() + numbers.below(9), block.end() + length),
            _ => {
                let start = numbers.below(bytes);
                (start, (start + length).min(bytes))
            }
        };
        match numbers.once_in(2) {
            true => Call::Add { start, end },
            false => Call::Init {
                start,
                size: end.wrapping_sub(start),
            },
        }
    }

    fn alloc(&self, numbers: &mut RandomNumbers) -> Call {
        Call::Alloc {
            size: self.size(numbers),
            align: self.align(numbers),
        }
    }

    /// The arguments of a release or a zero fill, mostly those of a grant, with another alignment at times.
    fn release(
        &self,
        numbers: &mut RandomNumbers,
        memory: &Memory,
        reading: &Reading,
    ) -> (u64, u64, u64) {
        let Some(grant) = some_grant(numbers, reading) else {
            return (
                numbers.below(memory.arena_bytes()),
                self.size(numbers),
                self.align(numbers),
            );
        };
        let smallest = if grant.requested * 2 > grant.size() || grant.class == 3 {
            0
        } else {
            grant.class
        };
        let align = 1 << numbers.between(u64::from(smallest), u64::from(grant.class));
        let (address, size) = (grant.address, grant.requested);
        match numbers.below(24) {
            0 => (
                address,
                size.wrapping_add(numbers.below(3)).wrapping_sub(1),
                align,
            ),
            1 => (address, self.size(numbers), align),
            2 => (address, size, self.align(numbers)),
            3 => (
                address.wrapping_add(numbers.below(17)).wrapping_sub(8),
                size,
                align,
            ),
            4 => (numbers.below(memory.arena_bytes()), size, align),
            5 => (numbers.boundary(self.order as u32), size, align),
            _ => (address, size, align),
        }
    }

    fn class(&self, numbers: &mut RandomNumbers) -> u64 {
        match numbers.below(8) {
            0 => numbers.boundary(self.order as u32),
            1 => numbers.below(34),
            _ => numbers.between(3, self.order - 1),
        }
    }

    fn size(&self, numbers: &mut RandomNumbers) -> u64 {
        match numbers.below(24) {
            0 => numbers.boundary(self.order as u32),
            1 => 0,
            2 => numbers.sized(self.order),
            _ => numbers.sized(self.request_bits),
        }
    }

    fn align(&self, numbers: &mut RandomNumbers) -> u64 {
        match numbers.below(32) {
            0 => numbers.boundary(self.order as u32),
            1 => numbers.below(8),
            2 => 1 << numbers.below(64),
            3..=9 => 1 << numbers.between(0, self.request_bits),
            _ => 1 << numbers.below(4),
        }
    }
}

/// Tiny arenas are used up, middling ones fragment, and a few are as long as the program's own.
fn arena_length(numbers: &mut RandomNumbers) -> usize {
    let words = match numbers.below(100) {
        0..=29 => numbers.between(2, 16),
        30..=84 => numbers.between(16, 256),
        85..=97 => numbers.between(256, 1_024),
        _ => 4_096,
    };
    words as usize
}

fn some_block(numbers: &mut RandomNumbers, reading: &Reading) -> Option<Held> {
    let blocks = reading.blocks();
    (!blocks.is_empty()).then(|| numbers.pick(&blocks))
}

fn some_grant(numbers: &mut RandomNumbers, reading: &Reading) -> Option<Grant> {
    let grants = &reading.grants;
    (!grants.is_empty()).then(|| numbers.pick(grants))
}
