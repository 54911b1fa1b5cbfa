//! A block of frames as docs/RULES.md has it: granted or free, a class, a start.

#[derive(Clone, Copy, PartialEq, Eq, Debug)]
pub struct Block {
    pub granted: bool,
    pub class: u32,
    pub start: u64,
}

impl Block {
    pub fn free(class: u32, start: u64) -> Block {
        Block {
            granted: false,
            class,
            start,
        }
    }

    pub fn granted(class: u32, start: u64) -> Block {
        Block {
            granted: true,
            class,
            start,
        }
    }

    /// A block of class k covers 2^k frames.
    pub fn size(&self) -> u64 {
        1 << self.class
    }

    /// The first frame after the block.
    pub fn end(&self) -> u64 {
        self.start + self.size()
    }
}
