//! The 64-bit words of a frame table in the layout of docs/RULES.md, fields packed most significant first.

use crate::block::Block;

/// ORDER 6 bits, record count 16, zero 42.
fn first_word(order: u32, records: usize) -> u64 {
    (order as u64) << 58 | (records as u64) << 42
}

/// Granted mark 1 bit, class 6, zero 25, start 32.
fn record_word(block: &Block) -> u64 {
    (block.granted as u64) << 63 | (block.class as u64) << 57 | block.start
}

/// The whole table: word 0, one word for each block, and zero words up to the length.
pub fn table_words(order: u32, blocks: &[Block], length: usize) -> Vec<u64> {
    let mut words = vec![first_word(order, blocks.len())];
    words.extend(blocks.iter().map(record_word));
    words.resize(length, 0);
    words
}

/// The words as 16 hex digits each, up to the last that is not zero, so that every word left out is zero.
pub fn hex(words: &[u64]) -> String {
    let last = words.iter().rposition(|word| *word != 0).unwrap_or(0);
    let shown: Vec<String> = words[..=last]
        .iter()
        .map(|word| format!("{word:016x}"))
        .collect();
    shown.join(" ")
}
