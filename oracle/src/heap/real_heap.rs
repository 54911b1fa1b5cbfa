//! The real crate's heap over memory of its own, every ORDER behind one trait, since ORDER is a const generic there.

use crate::record::WORD;
use buddy_system_allocator::Heap;
use std::alloc::{alloc_zeroed, dealloc, handle_alloc_error, Layout};
use std::ptr::NonNull;

const _: () = assert!(usize::BITS == 64, "the oracle is the crate on 64 bits");

/// Memory for the crate whose base is a multiple of a power of two at least as large as the arena.
pub struct RealArena {
    base: NonNull<u64>,
    words: usize,
    layout: Layout,
}

impl RealArena {
    /// Holds these words of the document.
    pub fn holding(words: &[u64]) -> RealArena {
        let bytes = words.len() * WORD as usize;
        let layout =
            Layout::from_size_align(bytes, bytes.next_power_of_two()).expect("an arena's length");
        // SAFETY: no arena is of no bytes.
        let Some(base) = NonNull::new(unsafe { alloc_zeroed(layout) }.cast::<u64>()) else {
            handle_alloc_error(layout)
        };
        let mut arena = RealArena {
            base,
            words: words.len(),
            layout,
        };
        for (index, word) in words.iter().enumerate() {
            arena.put(index, *word);
        }
        arena
    }

    pub fn words(&self) -> usize {
        self.words
    }

    /// The document's address or link as the crate has it: 0 stays 0, others stand behind the base.
    pub fn real(&self, number: u64) -> u64 {
        match number {
            0 => 0,
            _ => self.behind_base(number) as u64,
        }
    }

    /// A byte of the arena, byte 0 too, as the crate's callers name it.
    pub fn behind_base(&self, offset: u64) -> usize {
        (self.base.as_ptr() as usize).wrapping_add(offset as usize)
    }

    /// The crate's address or link as the document has it.
    pub fn offset(&self, real: u64) -> u64 {
        match real {
            0 => 0,
            _ => real.wrapping_sub(self.base.as_ptr() as u64),
        }
    }

    /// The word as the crate left it.
    pub fn word(&self, index: usize) -> u64 {
        assert!(index < self.words);
        // SAFETY: inside the memory that this value owns, all of which was zeroed when it was got.
        unsafe { self.base.as_ptr().add(index).read() }
    }

    /// What a caller of the crate writes, put behind the base as links are, so that both sides compare alike.
    pub fn put(&mut self, index: usize, word: u64) {
        assert!(index < self.words);
        let real = self.real(word);
        // SAFETY: inside the memory that this value owns.
        unsafe { self.base.as_ptr().add(index).write(real) }
    }

    /// The nodes from a head on by the words alone, so that links of a faulty crate are told and not followed.
    pub fn nodes(&self, head: u64) -> Vec<u64> {
        let mut nodes = Vec::new();
        let mut node = self.offset(head);
        while node != 0 && nodes.len() < self.words {
            nodes.push(node);
            let inside = node % WORD == 0 && node / WORD < self.words as u64;
            node = if inside {
                self.offset(self.word((node / WORD) as usize))
            } else {
                0
            };
        }
        nodes
    }
}

impl Drop for RealArena {
    fn drop(&mut self) {
        // SAFETY: got with this layout, and nobody has it any more.
        unsafe { dealloc(self.base.as_ptr().cast(), self.layout) }
    }
}

pub trait RealHeap {
    /// # Safety
    /// As the crate asks: the range is memory of the arena that the heap does not have yet.
    unsafe fn add_to_heap(&mut self, start: usize, end: usize);
    /// # Safety
    /// As for `add_to_heap`.
    unsafe fn init(&mut self, start: usize, size: usize);
    fn alloc(&mut self, layout: Layout) -> Option<usize>;
    /// # Safety
    /// As the crate asks: granted with this layout, and not released since.
    unsafe fn dealloc(&mut self, address: usize, layout: Layout);
    /// The list heads, one for each class.
    fn heads(&self) -> Vec<u64>;
    /// The nodes that the crate's own `iter` yields, at most `limit`.
    fn iterated(&self, class: usize, limit: usize) -> Vec<u64>;
    /// The three `stats_` functions: user, allocated, total.
    fn stats(&self) -> [u64; 3];
    /// The fields that they read.
    fn fields(&self) -> [u64; 3];
}

impl<const ORDER: usize> RealHeap for Heap<ORDER> {
    unsafe fn add_to_heap(&mut self, start: usize, end: usize) {
        Heap::add_to_heap(self, start, end)
    }

    unsafe fn init(&mut self, start: usize, size: usize) {
        Heap::init(self, start, size)
    }

    fn alloc(&mut self, layout: Layout) -> Option<usize> {
        Heap::alloc(self, layout)
            .ok()
            .map(|block| block.as_ptr() as usize)
    }

    unsafe fn dealloc(&mut self, address: usize, layout: Layout) {
        let block = NonNull::new(address as *mut u8).expect("an address behind the base");
        Heap::dealloc(self, block, layout)
    }

    fn heads(&self) -> Vec<u64> {
        self.free_list.iter().map(|list| list.head as u64).collect()
    }

    fn iterated(&self, class: usize, limit: usize) -> Vec<u64> {
        let list = self.free_list.get(class);
        list.map_or(Vec::new(), |list| {
            list.iter().take(limit).map(|node| node as u64).collect()
        })
    }

    fn stats(&self) -> [u64; 3] {
        [
            self.stats_alloc_user() as u64,
            self.stats_alloc_actual() as u64,
            self.stats_total_bytes() as u64,
        ]
    }

    fn fields(&self) -> [u64; 3] {
        [self.user as u64, self.allocated as u64, self.total as u64]
    }
}

/// The crate's two ways to make a heap.
#[derive(Clone, Copy, PartialEq, Eq, Debug)]
pub enum Making {
    New,
    Empty,
}

fn made<const ORDER: usize>(making: Making) -> Box<dyn RealHeap> {
    Box::new(match making {
        Making::New => Heap::<ORDER>::new(),
        Making::Empty => Heap::<ORDER>::empty(),
    })
}

macro_rules! fresh_heap {
    ($order:expr, $making:expr; $($known:literal)*) => {
        match $order {
            $($known => made::<$known>($making),)*
            other => panic!("no heap of ORDER {other}"),
        }
    };
}

/// A fresh heap of the crate; the ORDER has been tested before.
pub fn fresh(order: u64, making: Making) -> Box<dyn RealHeap> {
    fresh_heap!(order, making;
        4 5 6 7 8 9 10 11 12 13 14 15 16 17 18 19 20 21 22 23 24 25 26 27 28 29 30 31 32 33)
}
