//! The real crate's frame allocator, every ORDER behind one trait, since ORDER is a const generic there.

use crate::answer::Figures;
use crate::block::Block;
use buddy_system_allocator::FrameAllocator;
use std::alloc::Layout;
use std::collections::BTreeSet;

const _: () = assert!(usize::BITS == 64, "the oracle is the crate on 64 bits");

pub trait RealAllocator {
    fn add_frame(&mut self, start: usize, end: usize);
    fn insert(&mut self, start: usize, end: usize);
    fn alloc(&mut self, count: usize) -> Option<usize>;
    fn alloc_aligned(&mut self, layout: Layout) -> Option<usize>;
    fn alloc_at(&mut self, start: usize, count: usize) -> Option<usize>;
    fn dealloc(&mut self, start: usize, count: usize);
    fn dealloc_aligned(&mut self, start: usize, layout: Layout);
    /// Sets the fields of a fresh allocator to these blocks.
    fn load(&mut self, blocks: &[Block]);
    fn free_list(&self) -> &[BTreeSet<usize>];
    fn allocated(&self) -> usize;
    fn total(&self) -> usize;

    /// The summary read from the crate's own fields.
    fn figures(&self) -> Figures {
        let largest = self.free_list().iter().rposition(|set| !set.is_empty());
        Figures {
            granted: self.allocated() as u64,
            managed: self.total() as u64,
            largest: largest.map_or(0, |class| 1 << class),
        }
    }
}

impl<const ORDER: usize> RealAllocator for FrameAllocator<ORDER> {
    fn add_frame(&mut self, start: usize, end: usize) {
        FrameAllocator::add_frame(self, start, end)
    }

    fn insert(&mut self, start: usize, end: usize) {
        FrameAllocator::insert(self, start..end)
    }

    fn alloc(&mut self, count: usize) -> Option<usize> {
        FrameAllocator::alloc(self, count)
    }

    fn alloc_aligned(&mut self, layout: Layout) -> Option<usize> {
        FrameAllocator::alloc_aligned(self, layout)
    }

    fn alloc_at(&mut self, start: usize, count: usize) -> Option<usize> {
        FrameAllocator::alloc_at(self, start, count)
    }

    fn dealloc(&mut self, start: usize, count: usize) {
        FrameAllocator::dealloc(self, start, count)
    }

    fn dealloc_aligned(&mut self, start: usize, layout: Layout) {
        FrameAllocator::dealloc_aligned(self, start, layout)
    }

    fn load(&mut self, blocks: &[Block]) {
        for block in blocks {
            self.total += block.size() as usize;
            match block.granted {
                true => self.allocated += block.size() as usize,
                false => _ = self.free_list[block.class as usize].insert(block.start as usize),
            }
        }
    }

    fn free_list(&self) -> &[BTreeSet<usize>] {
        &self.free_list
    }

    fn allocated(&self) -> usize {
        self.allocated
    }

    fn total(&self) -> usize {
        self.total
    }
}

macro_rules! fresh_allocator {
    ($order:expr; $($known:literal)*) => {
        match $order {
            $($known => Box::new(FrameAllocator::<$known>::new()) as Box<dyn RealAllocator>,)*
            other => panic!("no crate of ORDER {other}"),
        }
    };
}

/// A fresh allocator of the crate; the ORDER has been tested before.
pub fn fresh(order: u32) -> Box<dyn RealAllocator> {
    fresh_allocator!(order;
        1 2 3 4 5 6 7 8 9 10 11 12 13 14 15 16 17 18 19 20 21 22 23 24 25 26 27 28 29 30 31 32 33)
}
