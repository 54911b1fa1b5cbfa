//! The soundness test of a heap, written in Rust over slices as ours is: free blocks compared in pairs with every block after them.

pub struct Heap {
    pub order: u64,
    pub heads: [u64; 33],
    pub count: u64,
    pub user: u64,
    pub allocated: u64,
    pub total: u64,
}

fn next(arena: &[u64], node: u64) -> u64 {
    arena.get((node / 8) as usize).copied().unwrap_or(0)
}

fn placed(class: u64, address: u64, bytes: u64) -> bool {
    let size = 1u64 << class;
    address & (size - 1) == 0 && address != 0 && address <= bytes && size <= bytes - address
}

/// The bytes of all free blocks, where each list is a list of blocks in their place.
fn free_lists(h: &Heap, arena: &[u64]) -> Option<u64> {
    let bytes = arena.len() as u64 * 8;
    let mut sum = 0;
    for (class, &head) in h.heads.iter().enumerate() {
        let class = class as u64;
        if head != 0 && (class < 3 || class >= h.order) {
            return None;
        }
        let (mut node, mut left) = (head, arena.len() - 1);
        while node != 0 {
            if left == 0 || !placed(class, node, bytes) {
                return None;
            }
            sum += 1 << class;
            left -= 1;
            node = next(arena, node);
        }
    }
    Some(sum)
}

fn class_of(w: u64) -> u64 {
    w >> 58
}

fn address_of(w: u64) -> u64 {
    w & 0xff_ffff
}

/// The sums of requested bytes and of block sizes, where the records are well formed and ascending.
fn records(h: &Heap, bytes: u64, ledger: &[u64]) -> Option<(u64, u64)> {
    let (mut floor, mut user, mut allocated) = (0, 0, 0);
    for &w in ledger {
        let (class, requested, address) = (class_of(w), w >> 34 & 0xff_ffff, address_of(w));
        if w >> 24 & 0x3ff != 0 || class < 3 || class >= h.order || requested > 1 << class {
            return None;
        }
        if address < floor || !placed(class, address, bytes) {
            return None;
        }
        user += requested;
        allocated += 1 << class;
        floor = address + (1 << class);
    }
    Some((user, allocated))
}

fn apart(a: u64, size: u64, b: u64, other: u64) -> bool {
    if a <= b {
        size <= b - a
    } else {
        other <= a - b
    }
}

fn apart_from_list(address: u64, size: u64, other: u64, head: u64, arena: &[u64]) -> bool {
    let mut node = head;
    while node != 0 {
        if !apart(address, size, node, other) {
            return false;
        }
        node = next(arena, node);
    }
    true
}

/// A free block and every block after it: its list's, those of higher classes, the granted ones.
fn node_apart(class: usize, node: u64, after: u64, h: &Heap, arena: &[u64], ledger: &[u64]) -> bool {
    let size = 1u64 << class;
    apart_from_list(node, size, size, after, arena)
        && (class + 1..33).all(|other| apart_from_list(node, size, 1 << other, h.heads[other], arena))
        && ledger.iter().all(|&w| apart(node, size, address_of(w), 1 << class_of(w)))
}

fn free_apart(h: &Heap, arena: &[u64], ledger: &[u64]) -> bool {
    for class in 0..33 {
        let mut node = h.heads[class];
        while node != 0 {
            let after = next(arena, node);
            if !node_apart(class, node, after, h, arena, ledger) {
                return false;
            }
            node = after;
        }
    }
    true
}

#[inline(never)]
pub fn sound(h: &Heap, arena: &[u64], ledger: &[u64]) -> bool {
    let ranges = (2..=1_048_576).contains(&arena.len()) && (1..=65_535).contains(&ledger.len());
    if !ranges || !(4..=33).contains(&h.order) || h.count > ledger.len() as u64 {
        return false;
    }
    let Some(free) = free_lists(h, arena) else { return false };
    let (held, rest) = ledger.split_at(h.count as usize);
    let Some((user, allocated)) = records(h, arena.len() as u64 * 8, held) else { return false };
    rest.iter().fold(0, |a, w| a | w) == 0
        && h.user == user
        && h.allocated == allocated
        && h.total == allocated + free
        && free_apart(h, arena, held)
}
