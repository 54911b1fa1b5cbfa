//! Times of the proved heap's calls, of the same soundness test in Rust, and of the real crate's calls, as ratios taken in one run.

mod data;
mod heap_soundness;

use heap_soundness::Heap;
use std::alloc::{alloc_zeroed, Layout};
use std::hint::black_box;
use std::ptr::NonNull;
use std::time::Instant;

#[repr(C)]
#[derive(Clone, Copy)]
struct Answer {
    number: u64,
    value: u64,
}

extern "C" {
    fn lavikety_heap_alloc(h: *mut u64, a: *mut u64, n: usize, l: *mut u64, m: usize, size: u64, align: u64) -> Answer;
    fn lavikety_heap_dealloc(h: *mut u64, a: *mut u64, n: usize, l: *mut u64, m: usize, address: u64, size: u64, align: u64) -> Answer;
    fn lavikety_heap_stats_total_bytes(h: *const u64, a: *const u64, n: usize, l: *const u64, m: usize) -> Answer;
}

/// A block: granted, class, address.
type Block = (bool, u64, u64);

/// Blocks of classes 3 to 8, half of them granted, the first free and of class 3; no buddy of one is managed, so that none are joined.
fn blocks(n: usize) -> Vec<Block> {
    let mut seed = 12345u64;
    let mut from = 8;
    let mut made = Vec::new();
    for i in 0..n {
        seed = seed.wrapping_mul(6364136223846793005).wrapping_add(1442695040888963407);
        let (granted, class) = if i == 0 { (false, 3) } else { (seed >> 33 & 1 == 1, 3 + (seed >> 59) % 6) };
        let pair = 2u64 << class;
        let address = (from + pair - 1) / pair * pair;
        made.push((granted, class, address));
        from = address + pair;
    }
    made
}

/// The words of a heap that holds the blocks: record, arena, ledger.
struct Words {
    record: [u64; 38],
    arena: Vec<u64>,
    ledger: Vec<u64>,
}

fn words(blocks: &[Block]) -> Words {
    let last = blocks.last().map_or(0, |&(_, class, address)| address + (1 << class));
    let mut made = Words {
        record: [0; 38],
        arena: vec![0; last as usize / 8],
        ledger: Vec::new(),
    };
    made.record[0] = 33;
    for &(granted, class, address) in blocks {
        made.record[37] += 1 << class;
        if granted {
            made.ledger.push(class << 58 | (1 << class) << 34 | address);
            made.record[34] += 1;
            made.record[35] += 1 << class;
            made.record[36] += 1 << class;
        } else {
            let head = &mut made.record[class as usize + 1];
            made.arena[address as usize / 8] = *head;
            *head = address;
        }
    }
    // room for a few more
    made.ledger.extend([0; 8]);
    made
}

fn record(words: &[u64; 38]) -> Heap {
    let mut heads = [0; 33];
    heads.copy_from_slice(&words[1..34]);
    Heap { order: words[0], heads, count: words[34], user: words[35], allocated: words[36], total: words[37] }
}

/// The same blocks in the real crate, over memory at a multiple of a power of two; each range is one piece, and its list's first.
fn real(blocks: &[Block], bytes: usize) -> buddy_system_allocator::Heap<33> {
    let mut real = buddy_system_allocator::Heap::new();
    let layout = Layout::from_size_align(bytes, bytes.next_power_of_two()).expect("a layout");
    // SAFETY: the memory is never given back, and each range of it is added once.
    unsafe {
        let base = alloc_zeroed(layout) as usize;
        assert!(base != 0);
        for &(granted, class, address) in blocks {
            let (start, size) = (base + address as usize, 1 << class);
            real.add_to_heap(start, start + size);
            if granted {
                let got = real.alloc(Layout::from_size_align(size, 1).expect("a layout"));
                assert!(got.expect("a free block is granted").as_ptr() as usize == start);
            }
        }
    }
    real
}

const ROUNDS: usize = 40;

/// The least time of a turn, in nanoseconds, of each of several things, their rounds taken in turn so that a slow moment is shared.
fn least(turns: usize, things: &mut [&mut dyn FnMut()]) -> Vec<f64> {
    let mut best = vec![f64::MAX; things.len()];
    for _ in 0..ROUNDS {
        for (thing, best) in things.iter_mut().zip(&mut best) {
            let begun = Instant::now();
            for _ in 0..turns {
                thing();
            }
            *best = best.min(begun.elapsed().as_nanos() as f64 / turns as f64);
        }
    }
    best
}

fn row(count: usize) {
    let blocks = blocks(count);
    let mut w = words(&blocks);
    let copy = (w.record, w.arena.clone(), w.ledger.clone());
    let (h, a, n) = (w.record.as_mut_ptr(), w.arena.as_mut_ptr(), w.arena.len());
    let (l, m) = (w.ledger.as_mut_ptr(), w.ledger.len());
    let (heap, arena, ledger) = (record(&copy.0), &copy.1, &copy.2);
    let mut real = real(&blocks, n * 8);
    let layout = Layout::from_size_align(8, 1).expect("a layout");
    let turns = (20_000_000 / (count * count + 5_000)).clamp(2, 1_000);
    let times = least(turns, &mut [
        &mut || assert!(unsafe { lavikety_heap_stats_total_bytes(black_box(h), a, n, l, m) }.number == 0),
        &mut || assert!(heap_soundness::sound(black_box(&heap), black_box(arena), black_box(ledger))),
        &mut || unsafe {
            let got = lavikety_heap_alloc(black_box(h), a, n, l, m, 8, 1);
            assert!(got.number == 0 && lavikety_heap_dealloc(black_box(h), a, n, l, m, got.value, 8, 1).number == 0);
        },
        &mut || {
            let got: NonNull<u8> = real.alloc(black_box(layout)).expect("a block");
            unsafe { real.dealloc(got, layout) };
        },
    ]);
    assert!((w.record, w.arena, w.ledger) == copy, "a grant and its release leave the heap as it was");
    let (sound, rust, pair, real_pair) = (times[0], times[1], times[2], times[3]);
    data::note("heap", &[count as f64, sound, rust, pair / 2.0, real_pair / 2.0]);
    println!(
        "{count:7}  {sound:10.0} {rust:10.0} {:6.2}  {:10.0} {:6.2} {:10.0} {:9.0}",
        sound / rust,
        pair / 2.0,
        pair / 2.0 / rust,
        real_pair / 2.0,
        pair / real_pair,
    );
}

fn main() {
    println!("The heap, through its C face. ns: nanoseconds, the least of {ROUNDS} rounds. A call is half of a grant and its release.");
    println!("            soundness test (a stats call)    alloc + dealloc");
    println!(" blocks    ours ns    Rust ns  ratio   ns a call  to the Rust test  crate ns  to the crate");
    for count in [10, 100, 1000, 2000] {
        row(count);
    }
}
