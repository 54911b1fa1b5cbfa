//! A heap as it stands in memory: the record, the arena's words and the ledger's words.

/// A record has a head for each class from 0 to 32.
pub const CLASSES: usize = 33;

/// Bytes of a word; also the smallest block.
pub const WORD: u64 = 8;

/// The class of the smallest block.
pub const SMALLEST_CLASS: u32 = 3;

#[derive(Clone, PartialEq, Eq, Debug)]
pub struct Record {
    pub order: u64,
    pub heads: [u64; CLASSES],
    pub count: u64,
    pub user: u64,
    pub allocated: u64,
    pub total: u64,
}

impl Record {
    pub fn zeros() -> Record {
        Record::fresh(0)
    }

    /// What making leaves: the ORDER, and zero everywhere else.
    pub fn fresh(order: u64) -> Record {
        Record {
            order,
            heads: [0; CLASSES],
            count: 0,
            user: 0,
            allocated: 0,
            total: 0,
        }
    }
}

#[derive(Clone, PartialEq, Eq, Debug)]
pub struct Memory {
    pub record: Record,
    pub arena: Vec<u64>,
    pub ledger: Vec<u64>,
}

impl Memory {
    /// Before the first making: a record of zeros, and nothing lent.
    pub fn nothing() -> Memory {
        Memory {
            record: Record::zeros(),
            arena: Vec::new(),
            ledger: Vec::new(),
        }
    }

    /// The arena's length in bytes; every address in it is below.
    pub fn arena_bytes(&self) -> u64 {
        self.arena.len() as u64 * WORD
    }
}

/// ORDER is 4 to 33.
pub fn is_order(order: u64) -> bool {
    (4..=33).contains(&order)
}

/// The arena is 2 to 1,048,576 words.
pub fn is_arena_length(words: usize) -> bool {
    (2..=1_048_576).contains(&words)
}

/// The ledger is 1 to 65,535 lent words.
pub fn is_ledger_length(words: usize) -> bool {
    (1..=65_535).contains(&words)
}
