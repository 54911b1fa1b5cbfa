//! Lists over an arena, word by word: a list's head stands in the record, each node's first word holds the next address.

use crate::record::{Memory, WORD};

/// Where the address of a node stands: in the record, or in the word of the node before it.
#[derive(Clone, Copy, PartialEq, Eq, Debug)]
pub enum Place {
    Head(u32),
    WordAt(u64),
}

/// The word at an address; off a word or outside the arena it is 0.
pub fn word_at(arena: &[u64], address: u64) -> u64 {
    match address % WORD {
        0 => arena.get((address / WORD) as usize).copied().unwrap_or(0),
        _ => 0,
    }
}

/// The nodes from a head on, and whether 0 was reached in fewer nodes than the arena has words.
pub fn nodes(arena: &[u64], head: u64) -> (Vec<u64>, bool) {
    let mut nodes = Vec::new();
    let mut node = head;
    while node != 0 && nodes.len() < arena.len() {
        nodes.push(node);
        node = word_at(arena, node);
    }
    let reached = node == 0 && nodes.len() < arena.len();
    (nodes, reached)
}

/// Writes the old head into the block's first word and makes the block the head.
pub fn push(memory: &mut Memory, class: u32, address: u64) {
    let head = memory.record.heads[class as usize];
    store(memory, Place::WordAt(address), head);
    store(memory, Place::Head(class), address);
}

/// Takes the first node out; its word stays as it is.
pub fn pop(memory: &mut Memory, class: u32) -> Option<u64> {
    let first = memory.record.heads[class as usize];
    if first == 0 {
        return None;
    }
    let next = word_at(&memory.arena, first);
    store(memory, Place::Head(class), next);
    Some(first)
}

/// Looks for a node from the head: how many nodes were compared, and where the address of the wanted one stands.
pub fn look_for(memory: &Memory, class: u32, wanted: u64) -> (u64, Option<Place>) {
    let mut place = Place::Head(class);
    let mut compared = 0;
    loop {
        let node = load(memory, place);
        if node == 0 {
            return (compared, None);
        }
        compared += 1;
        if node == wanted {
            return (compared, Some(place));
        }
        place = Place::WordAt(node);
    }
}

/// Takes out the node whose address stands at `place`; only that place is written.
pub fn unlink(memory: &mut Memory, place: Place) {
    let node = load(memory, place);
    let next = word_at(&memory.arena, node);
    store(memory, place, next);
}

fn load(memory: &Memory, place: Place) -> u64 {
    match place {
        Place::Head(class) => memory.record.heads[class as usize],
        Place::WordAt(address) => word_at(&memory.arena, address),
    }
}

fn store(memory: &mut Memory, place: Place, value: u64) {
    match place {
        Place::Head(class) => memory.record.heads[class as usize] = value,
        Place::WordAt(address) => memory.arena[(address / WORD) as usize] = value,
    }
}
