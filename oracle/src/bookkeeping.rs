//! A frame table as docs/RULES.md has it, without the crate: what every call answers and which blocks it leaves.

use crate::answer::{Answer, Figures, Refusal};
use crate::block::Block;
use crate::call::Call;
use crate::rules::{self, Cut, FRAME_LIMIT};
use std::ops::Range;

pub struct Bookkeeping {
    order: u32,
    capacity: usize,
    blocks: Vec<Block>,
}

/// What an accepted call does: the blocks of `taken` give way to those of `put`.
pub struct Change {
    taken: Range<usize>,
    put: Vec<Block>,
    pub answer: Answer,
}

impl Bookkeeping {
    /// Makes a table of `words` words; refusal 1 is tested before refusal 2.
    pub fn new(words: usize, order: u64) -> Result<Bookkeeping, Refusal> {
        if !rules::is_order(order) {
            return Err(Refusal::BadOrder);
        }
        if !(1..=65_536).contains(&words) {
            return Err(Refusal::BadSize);
        }
        Ok(Bookkeeping {
            order: order as u32,
            capacity: words - 1,
            blocks: Vec::new(),
        })
    }

    /// A table that holds these blocks already; whoever calls has seen that it is sound.
    pub fn holding(words: usize, order: u32, blocks: Vec<Block>) -> Bookkeeping {
        Bookkeeping {
            order,
            capacity: words - 1,
            blocks,
        }
    }

    pub fn order(&self) -> u32 {
        self.order
    }

    /// The number of words lent, of which word 0 holds no block.
    pub fn length(&self) -> usize {
        self.capacity + 1
    }

    pub fn blocks(&self) -> &[Block] {
        &self.blocks
    }

    pub fn summary(&self) -> Figures {
        let mut figures = Figures::default();
        for block in &self.blocks {
            figures.managed += block.size();
            if block.granted {
                figures.granted += block.size();
            } else {
                figures.largest = figures.largest.max(block.size());
            }
        }
        figures
    }

    /// Decides a call, refusals in the order of the table of numbers, and changes nothing.
    pub fn decide(&self, call: Call) -> Result<Change, Refusal> {
        match call {
            Call::Make { order } => self.make(order),
            Call::AddFrame { start, end } | Call::Insert { start, end } => self.add(start, end),
            Call::Alloc { count } => self.grant(rules::rounded_class(count)),
            Call::AllocAligned { count, align } => {
                check(align.is_power_of_two(), Refusal::BadAlign)?;
                self.grant(rules::aligned_class(count, align))
            }
            Call::AllocAt { start, count } => self.grant_at(start, rules::rounded_class(count)),
            Call::Dealloc { start, count } => self.release(start, rules::rounded_class(count)),
            Call::DeallocAligned {
                start,
                count,
                align,
            } => {
                check(align.is_power_of_two(), Refusal::BadAlign)?;
                self.release(start, rules::aligned_class(count, align))
            }
            Call::Summary => self.change(0..0, Vec::new(), Answer::Summed(self.summary())),
        }
    }

    /// Does what `decide` decided; a table made anew also takes its ORDER.
    pub fn apply(&mut self, call: Call, change: Change) {
        if let Call::Make { order } = call {
            self.order = order as u32;
        }
        self.blocks.splice(change.taken, change.put);
    }

    fn make(&self, order: u64) -> Result<Change, Refusal> {
        check(rules::is_order(order), Refusal::BadOrder)?;
        self.change(0..self.blocks.len(), Vec::new(), Answer::Done)
    }

    fn add(&self, start: u64, end: u64) -> Result<Change, Refusal> {
        check(start <= end && end <= FRAME_LIMIT, Refusal::BadRange)?;
        let place = self.blocks.partition_point(|block| block.end() <= start);
        let touched = self
            .blocks
            .get(place)
            .is_some_and(|block| block.start < end);
        check(start == end || !touched, Refusal::Overlap)?;
        // One piece more than ever fits is enough to see that there is no room.
        let pieces = Cut::new(start, end, self.order)
            .take(self.capacity + 1)
            .collect();
        self.change(place..place, pieces, Answer::Done)
    }

    fn grant(&self, class: Option<u32>) -> Result<Change, Refusal> {
        let class = self.below_top(class).ok_or(Refusal::NoBlock)?;
        let fitting = |block: &Block| !block.granted && block.class >= class;
        let numbered = self
            .blocks
            .iter()
            .enumerate()
            .filter(|(_, block)| fitting(block));
        let found = numbered.min_by_key(|(_, block)| (block.class, block.start));
        let (place, block) = found.ok_or(Refusal::NoBlock)?;
        // Keeping the lower half each time is halving towards the block's own start.
        let put = rules::halve_towards(*block, class, block.start);
        self.change(place..place + 1, put, Answer::Start(block.start))
    }

    fn grant_at(&self, start: u64, class: Option<u32>) -> Result<Change, Refusal> {
        let class = self.below_top(class).ok_or(Refusal::NoBlock)?;
        let size = 1u64 << class;
        let past_a_multiple = start % size;
        check(past_a_multiple == 0, Refusal::Misaligned)?;
        let place = self.blocks.partition_point(|block| block.end() <= start);
        let block = *self.blocks.get(place).ok_or(Refusal::NoBlock)?;
        let contains = block.start <= start && block.end() - start >= size;
        check(contains && !block.granted, Refusal::NoBlock)?;
        let put = rules::halve_towards(block, class, start);
        self.change(place..place + 1, put, Answer::Start(start))
    }

    fn release(&self, start: u64, class: Option<u32>) -> Result<Change, Refusal> {
        let class = self.below_top(class).ok_or(Refusal::NotGranted)?;
        let place = self
            .find(Block::granted(class, start))
            .ok_or(Refusal::NotGranted)?;
        let mut joined = Block::free(class, start);
        let mut taken = place..place + 1;
        while joined.class < self.order - 1 {
            let Some(other) = self.find(rules::buddy(joined)) else {
                break;
            };
            // Nothing stands between buddies, so what is taken stays one stretch of the list.
            taken = taken.start.min(other)..taken.end.max(other + 1);
            joined = rules::joined(joined);
        }
        self.change(taken, vec![joined], Answer::Done)
    }

    /// The class, where it is at most the top block's.
    fn below_top(&self, class: Option<u32>) -> Option<u32> {
        class.filter(|class| *class < self.order)
    }

    /// The place of exactly this block.
    fn find(&self, wanted: Block) -> Option<usize> {
        let place = self
            .blocks
            .binary_search_by_key(&wanted.start, |block| block.start)
            .ok()?;
        (self.blocks[place] == wanted).then_some(place)
    }

    /// The change, unless the blocks after it would exceed the capacity.
    fn change(
        &self,
        taken: Range<usize>,
        put: Vec<Block>,
        answer: Answer,
    ) -> Result<Change, Refusal> {
        let after = self.blocks.len() - taken.len() + put.len();
        check(after <= self.capacity, Refusal::NoRoom)?;
        Ok(Change { taken, put, answer })
    }
}

fn check(holds: bool, refusal: Refusal) -> Result<(), Refusal> {
    if holds {
        Ok(())
    } else {
        Err(refusal)
    }
}
