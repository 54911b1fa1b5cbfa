//! When a table is sound, from docs/RULES.md, "The frame table": the clauses of its sentence, each by itself.

use crate::block::Block;
use crate::rules::{self, FRAME_LIMIT};

/// A clause of the sentence, in its order.
#[derive(Clone, Copy, PartialEq, Eq, Debug)]
pub enum Clause {
    Length,
    Order,
    Count,
    ZeroField,
    ZeroWords,
    Class,
    Alignment,
    End,
    Next,
}

/// What the words of a table say, sound or not.
pub struct Reading {
    pub order: u64,
    pub count: usize,
    pub blocks: Vec<Block>,
}

/// The header and the records that it counts, as far as there are words.
pub fn read(words: &[u64]) -> Reading {
    let head = words.first().copied().unwrap_or(0);
    let count = (head >> 42 & 0xffff) as usize;
    Reading {
        order: head >> 58,
        count,
        blocks: words.iter().skip(1).take(count).map(block_of).collect(),
    }
}

/// Granted mark 1 bit, class 6, zero 25, start 32.
fn block_of(word: &u64) -> Block {
    Block {
        granted: word >> 63 == 1,
        class: (word >> 57 & 0x3f) as u32,
        start: word & 0xffff_ffff,
    }
}

/// The clauses that the words break; a length out of range is told alone, since there may be no word 0 to read.
pub fn broken(words: &[u64]) -> Vec<Clause> {
    if !(1..=65_536).contains(&words.len()) {
        return vec![Clause::Length];
    }
    let table = read(words);
    let (header, rest) = (words[0], &words[1..]);
    let (records, after) = rest.split_at(table.blocks.len());
    let each = |holds: &dyn Fn(&Block) -> bool| table.blocks.iter().all(holds);
    let mut pairs = table.blocks.windows(2);
    let kept = [
        (Clause::Order, rules::is_order(table.order)),
        (Clause::Count, table.count <= rest.len()),
        (
            Clause::ZeroField,
            header << 22 == 0 && records.iter().all(|word| word << 7 >> 39 == 0),
        ),
        (Clause::ZeroWords, after.iter().all(|word| *word == 0)),
        (
            Clause::Class,
            each(&|block| u64::from(block.class) < table.order),
        ),
        (
            Clause::Alignment,
            each(&|block| block.start % block.size() == 0),
        ),
        (Clause::End, each(&|block| block.end() <= FRAME_LIMIT)),
        (
            Clause::Next,
            pairs.all(|pair| pair[0].end() <= pair[1].start),
        ),
    ];
    let broken = kept.iter().filter(|(_, holds)| !holds);
    broken.map(|(clause, _)| *clause).collect()
}
