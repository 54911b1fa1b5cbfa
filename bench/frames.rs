//! Times of the proved calls, of the same soundness test in Rust, and of the real crate's calls, as ratios taken in one run.

mod data;
mod soundness;

use buddy_system_allocator::FrameAllocator;
use std::hint::black_box;
use std::time::Instant;

#[repr(C)]
#[derive(Clone, Copy)]
struct Answer {
    number: u64,
    value: u64,
}

extern "C" {
    fn lavikety_frame_new(t: *mut u64, words: usize, order: u64) -> Answer;
    fn lavikety_frame_add(t: *mut u64, words: usize, start: u64, end: u64) -> Answer;
    fn lavikety_frame_summary(t: *const u64, words: usize, figures: *mut u64) -> u64;
    fn lavikety_frame_alloc(t: *mut u64, words: usize, count: u64) -> Answer;
    fn lavikety_frame_alloc_at(t: *mut u64, words: usize, start: u64, count: u64) -> Answer;
    fn lavikety_frame_dealloc(t: *mut u64, words: usize, start: u64, count: u64) -> Answer;
}

/// A block: granted, class, start.
type Block = (bool, u64, u64);

/// Blocks of classes 0 to 8, half of them granted, each at the next start that fits; the first is free and of class 4.
fn blocks(n: usize) -> Vec<Block> {
    let mut seed = 12345u64;
    let mut from = 0;
    let mut made = Vec::new();
    for i in 0..n {
        seed = seed.wrapping_mul(6364136223846793005).wrapping_add(1442695040888963407);
        let (granted, class) = if i == 0 { (false, 4) } else { (seed >> 33 & 1 == 1, (seed >> 59) % 9) };
        let size = 1u64 << class;
        let start = (from + size - 1) / size * size;
        made.push((granted, class, start));
        from = start + size;
    }
    made
}

fn table(words: usize, blocks: &[Block]) -> Vec<u64> {
    let mut t = vec![0; words];
    t[0] = 33 << 58 | (blocks.len() as u64) << 42;
    for (word, &(granted, class, start)) in t[1..].iter_mut().zip(blocks) {
        *word = u64::from(granted) << 63 | class << 57 | start;
    }
    t
}

/// The same blocks in the real crate, by its own calls: each range is one piece, and its pieces are not joined.
fn real(blocks: &[Block]) -> FrameAllocator<33> {
    let mut real = FrameAllocator::new();
    for &(_, class, start) in blocks {
        real.add_frame(start as usize, (start + (1 << class)) as usize);
    }
    for &(granted, class, start) in blocks {
        if granted {
            real.alloc_at(start as usize, 1 << class).expect("a free block is granted");
        }
    }
    real
}

const ROUNDS: usize = 40;

/// The least time of a turn, in nanoseconds, of each of several things, their rounds taken in turn so that a slow moment is shared.
fn least(turns: usize, things: &mut [&mut dyn FnMut()]) -> Vec<f64> {
    let mut best = vec![f64::MAX; things.len()];
    for _ in 0..ROUNDS {
        for (thing, best) in things.iter_mut().zip(&mut best) {
            let begun = Instant::now();
            for _ in 0..turns {
                thing();
            }
            *best = best.min(begun.elapsed().as_nanos() as f64 / turns as f64);
        }
    }
    best
}

fn ours_at(t: *mut u64, words: usize, start: u64, count: u64) {
    let (granted, released) = unsafe {
        (lavikety_frame_alloc_at(t, words, start, count), lavikety_frame_dealloc(t, words, start, count))
    };
    assert!(granted.number == 0 && released.number == 0);
}

fn ours(t: *mut u64, words: usize, count: u64) {
    let granted = unsafe { lavikety_frame_alloc(t, words, count) };
    let released = unsafe { lavikety_frame_dealloc(t, words, granted.value, count) };
    assert!(granted.number == 0 && released.number == 0);
}

/// A request above every block is refused right after the soundness test, so its time is the test's.
fn ours_sound(t: *mut u64, words: usize) {
    assert!(unsafe { lavikety_frame_alloc(t, words, 1 << 33) }.number == 9);
}

fn row(words: usize, records: usize) {
    let blocks = blocks(records);
    let mut t = table(words, &blocks);
    let copy = t.clone();
    let (p, turns) = (t.as_mut_ptr(), (400_000 / words).max(4));
    let (mut crate_any, mut crate_at) = (real(&blocks), real(&blocks));
    let mut times = least(turns, &mut [
        &mut || ours_sound(black_box(p), words),
        &mut || ours(black_box(p), words, 1),
        &mut || ours_at(black_box(p), words, 0, 16),
        &mut || {
            let start = crate_any.alloc(black_box(1)).unwrap();
            crate_any.dealloc(start, 1);
        },
        &mut || {
            crate_at.alloc_at(black_box(0), 16).unwrap();
            crate_at.dealloc(0, 16);
        },
        &mut || assert!(soundness::SHAPES[0].1(black_box(&copy))),
        &mut || assert!(soundness::SHAPES[1].1(black_box(&copy))),
        &mut || assert!(soundness::SHAPES[2].1(black_box(&copy))),
        &mut || assert!(soundness::SHAPES[3].1(black_box(&copy))),
    ]);
    assert!(t == copy, "a grant and its release leave the table as it was");
    let shapes = times.split_off(5);
    let fastest = (0..4).min_by(|&a, &b| shapes[a].total_cmp(&shapes[b])).unwrap();
    let (sound, pair, pair_at, real_pair, real_at) = (times[0], times[1], times[2], times[3], times[4]);
    let scalar = shapes[1];
    data::note("frame", &[words as f64, records as f64, sound, shapes[fastest], scalar, pair / 2.0, real_pair / 2.0, pair_at / 2.0, real_at / 2.0]);
    println!(
        "{words:6} {records:7}  {sound:8.0} {:5.2} {:<18} {:5.2}  {:8.0} {:5.2} {:7.2}  {:8.0} {:5.2} {:7.2}",
        sound / shapes[fastest],
        soundness::SHAPES[fastest].0,
        sound / scalar,
        pair / 2.0,
        pair / 2.0 / scalar,
        pair / real_pair,
        pair_at / 2.0,
        pair_at / 2.0 / scalar,
        pair_at / real_at,
    );
}

/// The summary, against the scalar test; making a table and adding frames 1 to 2^32 - 2, 62 pieces, against the crate's.
fn other_row(words: usize, records: usize) {
    let t = table(words, &blocks(records));
    let mut made = vec![0u64; words];
    let (p, q, turns) = (t.as_ptr(), made.as_mut_ptr(), (400_000 / words).max(4));
    let mut figures = [0u64; 3];
    let last = (1usize << 32) - 1;
    let times = least(turns, &mut [
        &mut || assert!(unsafe { lavikety_frame_summary(black_box(p), words, figures.as_mut_ptr()) } == 0),
        &mut || assert!(soundness::gathered(black_box(&t))),
        &mut || unsafe {
            lavikety_frame_new(black_box(q), words, 33);
            assert!(lavikety_frame_add(black_box(q), words, 1, last as u64).number == 0);
        },
        &mut || {
            let mut real = FrameAllocator::<33>::new();
            real.add_frame(black_box(1), last);
            black_box(&real);
        },
    ]);
    println!("{words:6} {records:7}  {:8.0} {:5.2}  {:8.0} {:7.2}", times[0], times[0] / times[1], times[2], times[2] / times[3]);
}

fn main() {
    println!("ns: nanoseconds, the least of {ROUNDS} rounds. A call is half of a grant and its release. Ratios are of this run.");
    println!("                 soundness test, ours               alloc + dealloc          alloc_at + dealloc");
    println!(" words records        ns  to fastest Rust       scalar    ns a call scalar   crate   ns a call scalar   crate");
    for words in [64, 1024, 4096, 65536] {
        row(words, words - 1 - 8);
        row(words, 8);
    }
    println!("                 summary          new + add of 62 pieces");
    println!(" words records        ns scalar        ns   crate");
    for words in [64, 1024, 4096, 65536] {
        other_row(words, words - 1 - 8);
        other_row(words, 8);
    }
}
