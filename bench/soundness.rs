//! The soundness test of a frame table, written in Rust in several shapes: whichever is fastest on this machine is what ours is held to.

/// The test of word 0: ORDER, and the index of the first word after the records.
fn head(t: &[u64]) -> Option<(u64, usize)> {
    let n = t.len();
    if n < 1 || n > 65536 {
        return None;
    }
    let order = t[0] >> 58;
    let count = ((t[0] >> 42) & 0xffff) as usize;
    let fine = (1..=33).contains(&order) && count < n && t[0] & ((1 << 42) - 1) == 0;
    fine.then_some((order, count + 1))
}

/// The words after the records, or-ed in eight rows.
fn zeros(t: &[u64]) -> bool {
    let mut rows = [0u64; 8];
    let chunks = t.chunks_exact(8);
    let mut rest = chunks.remainder().iter().fold(0, |a, w| a | w);
    for chunk in chunks {
        for (row, word) in rows.iter_mut().zip(chunk) {
            *row |= word;
        }
    }
    for row in rows {
        rest |= row;
    }
    rest == 0
}

fn gap(w: u64) -> bool {
    (w >> 32) & 0x1ff_ffff != 0
}

fn class(w: u64) -> u64 {
    (w >> 57) & 63
}

fn start(w: u64) -> u64 {
    w & 0xffff_ffff
}

/// One record after the other, with a way out at each test: the plain way to write it.
pub fn early_exit(t: &[u64]) -> bool {
    let Some((order, end)) = head(t) else { return false };
    let mut floor = 0;
    for &w in &t[1..end] {
        if gap(w) || class(w) >= order {
            return false;
        }
        let size = 1 << class(w);
        if start(w) & (size - 1) != 0 || start(w) < floor || start(w) + size > 1 << 32 {
            return false;
        }
        floor = start(w) + size;
    }
    zeros(&t[end..])
}

/// Numbers of 64 bits, what is wrong gathered over 512 records and judged once: the scalar test that calls are held to.
pub fn gathered(t: &[u64]) -> bool {
    let Some((order, end)) = head(t) else { return false };
    let mut floor = 0u64;
    for chunk in t[1..end].chunks(512) {
        let (mut words, mut over, mut masks, mut laps) = (0, 0, 0, 0);
        for &w in chunk {
            let mask = (1u64 << class(w)).wrapping_sub(1);
            words |= w;
            over |= start(w) & mask;
            masks |= mask;
            laps |= start(w).wrapping_sub(floor);
            floor = start(w).wrapping_add(mask).wrapping_add(1);
        }
        if gap(words) || over != 0 || masks >= 1 << (order - 1) || laps >> 63 != 0 || floor > 1 << 32 {
            return false;
        }
    }
    zeros(&t[end..])
}

/// The first record, which alone may have class 32: its last frame.
fn first(w: u64, order: u64) -> Option<u32> {
    let mask = (1u64 << class(w)).wrapping_sub(1);
    let fine = !gap(w) && class(w) < order && start(w) & mask == 0 && start(w) + mask < 1 << 32;
    fine.then_some((start(w) | mask) as u32)
}

/// Halves of 32 bits, gathered over 1,024 records; the mask of a class comes from `mask_of`.
fn halves(t: &[u64], mask_of: impl Fn(u64) -> u32) -> bool {
    let Some((order, end)) = head(t) else { return false };
    if end < 2 {
        return zeros(&t[end..]);
    }
    let Some(mut last) = first(t[1], order) else { return false };
    for chunk in t[2..end].chunks(1024) {
        let (mut words, mut over, mut masks, mut laps) = (0u64, 0u32, 0u32, 0u32);
        for &w in chunk {
            let start = w as u32;
            let mask = mask_of(w);
            words |= w;
            over |= start & mask;
            masks |= mask;
            laps += u32::from(start <= last);
            last = start | mask;
        }
        let wrong = gap(words) || class(words) >= 32 || over != 0 || laps != 0;
        if wrong || u64::from(masks) >= 1 << (order - 1) {
            return false;
        }
    }
    zeros(&t[end..])
}

/// The shape of our own test, by shifts: vectors, where the machine shifts by lane.
pub fn halves_by_shift(t: &[u64]) -> bool {
    halves(t, |w| (1u32 << ((w >> 57) & 31)) - 1)
}

/// The same with the masks from a table: no vectors, and little work for a record.
pub fn halves_by_table(t: &[u64]) -> bool {
    static MASKS: [u32; 128] = {
        let mut masks = [0; 128];
        let mut k = 0;
        while k < 128 {
            masks[k] = (1u32 << (k % 32)) - 1;
            k += 1;
        }
        masks
    };
    halves(t, |w| MASKS[(w >> 57) as usize])
}

pub const SHAPES: [(&str, fn(&[u64]) -> bool); 4] = [
    ("early exit", early_exit),
    ("64 bits, gathered", gathered),
    ("32 bits, shifts", halves_by_shift),
    ("32 bits, table", halves_by_table),
];
