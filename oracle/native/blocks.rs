//! Compares each exported function of `blocks_c` with Rust's own operations, on boundary numbers and on random ones.
//! The one argument, if given, is the seed of the random numbers.
use std::fmt::Debug;

extern "C" {
    fn lavikety_blocks_size_of(class: u64) -> u64;
    fn lavikety_blocks_class_of(size: u64) -> u64;
    fn lavikety_blocks_prev_power_of_two(num: u64) -> u64;
    fn lavikety_blocks_round(count: u64) -> u64;
    fn lavikety_blocks_round_aligned(size: u64, align: u64) -> u64;
    fn lavikety_blocks_is_power_of_two(num: u64) -> u64;
    fn lavikety_blocks_lowest_bit(start: u64) -> u64;
    fn lavikety_blocks_buddy(start: u64, class: u64) -> u64;
    fn lavikety_blocks_piece(start: u64, left: u64, top: u64) -> u64;
}

const RANDOM: u32 = 10_000_000;
const SEED: u64 = 0x5eed_b10c;
const TOP: u64 = 32;
const ABOVE: u64 = 64;

// What is expected, in Rust's own operations.

fn size_of(class: u64) -> u64 {
    if class <= TOP { 1 << class } else { 0 }
}

fn prev_power_of_two(num: u64) -> u64 {
    if num == 0 { 0 } else { 1 << (63 - num.leading_zeros()) }
}

/// The class of a size that Rust rounded up to a power of two; `None` is a size that no u64 holds.
fn class(size: Option<u64>) -> u64 {
    size.filter(|s| *s <= 1 << TOP).map_or(ABOVE, |s| u64::from(s.trailing_zeros()))
}

fn round(count: u64) -> u64 {
    class(count.checked_next_power_of_two())
}

fn round_aligned(size: u64, align: u64) -> u64 {
    let both = size.checked_next_power_of_two().zip(align.checked_next_power_of_two());
    class(both.map(|(s, a)| s.max(a)))
}

fn is_power_of_two(num: u64) -> u64 {
    u64::from(num.is_power_of_two())
}

fn lowest_bit(start: u64) -> u64 {
    start & start.wrapping_neg()
}

fn buddy(start: u64, class: u64) -> u64 {
    if class <= TOP { start ^ (1 << class) } else { start }
}

fn piece(start: u64, left: u64, top: u64) -> u64 {
    let whole = size_of(top);
    let aligned = if start == 0 { whole } else { lowest_bit(start) };
    aligned.min(prev_power_of_two(left)).min(whole)
}

/// The splitmix64 generator.
struct Random(u64);

impl Random {
    fn next(&mut self) -> u64 {
        self.0 = self.0.wrapping_add(0x9e37_79b9_7f4a_7c15);
        let mut z = self.0;
        z = (z ^ (z >> 30)).wrapping_mul(0xbf58_476d_1ce4_e5b9);
        z = (z ^ (z >> 27)).wrapping_mul(0x94d0_49bb_1331_11eb);
        z ^ (z >> 31)
    }

    /// A number of one of six kinds: any, of any bit length, near 2^32, near a power of two, with few bits, with many low zeros.
    fn number(&mut self) -> u64 {
        let (how, x) = (self.next(), self.next());
        let k = (how >> 8) as u32 % 64;
        let near = (how >> 16) % 9;
        match how % 6 {
            0 => x,
            1 => x >> k,
            2 => (1u64 << 32).wrapping_add(near).wrapping_sub(4),
            3 => (1u64 << k).wrapping_add(near).wrapping_sub(4),
            4 => x & self.next() & self.next() & self.next(),
            _ => x << k,
        }
    }

    /// A class: of the table and a little above most of the time, and any number else.
    fn class(&mut self) -> u64 {
        let x = self.next();
        if x % 8 == 0 { self.number() } else { (x >> 8) % 40 }
    }
}

/// 0, 2^k and 2^k ± 1 for every k, a few on both sides of 2^32 and 2^63, and the greatest numbers.
fn boundaries() -> Vec<u64> {
    let mut all: Vec<u64> = (0..=8).collect();
    for k in 0..64 {
        all.extend([(1u64 << k) - 1, 1 << k, (1 << k) + 1]);
    }
    for middle in [1u64 << 32, 1 << 63] {
        all.extend(middle - 5..=middle + 5);
    }
    all.extend(u64::MAX - 5..=u64::MAX);
    all.sort_unstable();
    all.dedup();
    all
}

/// Compares one function on each of the arguments, and prints its line: with the first mismatch if there is one.
fn compare<A: Copy + Debug>(name: &str, args: impl Iterator<Item = A>, expected: impl Fn(A) -> u64, got: impl Fn(A) -> u64) -> bool {
    let (mut first, mut wrong, mut all) = (None, 0u64, 0u64);
    for a in args {
        all += 1;
        let (e, g) = (expected(a), got(a));
        if e != g {
            first.get_or_insert((a, e, g));
            wrong += 1;
        }
    }
    match first {
        None => println!("ok {name}"),
        Some((a, e, g)) => println!("FAILED {name} at {a:?}: expected {e}, got {g} ({wrong} wrong of {all})"),
    }
    first.is_none()
}

fn main() {
    let seed = match std::env::args().nth(1).map(|s| s.parse()) {
        None => SEED,
        Some(Ok(s)) => s,
        Some(Err(_)) => {
            eprintln!("blocks: the seed is a number");
            std::process::exit(2);
        }
    };
    println!("seed {seed}, {RANDOM} random numbers for each function");

    let edge = boundaries();
    // a shorter list for the triples: every third boundary, with the classes and the middle of the range always in it
    let short: Vec<u64> = edge.iter().enumerate().filter(|(i, n)| i % 3 == 0 || **n <= 66 || n.abs_diff(1 << 32) <= 2).map(|(_, n)| *n).collect();
    let classes: Vec<u64> = (0..=66).chain(edge.iter().copied().filter(|n| *n > 66)).collect();

    let mut random = Random(seed);
    let ones = |r: &mut Random| -> Vec<u64> { (0..RANDOM).map(|_| r.number()).collect() };
    let numbers = ones(&mut random);
    let one = || edge.iter().copied().chain(numbers.iter().copied());
    let pairs = |second: &[u64]| -> Vec<(u64, u64)> { edge.iter().flat_map(|a| second.iter().map(|b| (*a, *b))).collect() };

    let mut results = Vec::new();
    // SAFETY: each function takes and returns plain numbers, and none asks anything of them.
    unsafe {
        let mut r = Random(random.next());
        let some: Vec<u64> = classes.iter().copied().chain((0..RANDOM).map(|_| r.class())).collect();
        results.push(compare("lavikety_blocks_size_of", some.into_iter(), size_of, |a| lavikety_blocks_size_of(a)));
        results.push(compare("lavikety_blocks_class_of", one(), |a| u64::from(a.trailing_zeros()), |a| lavikety_blocks_class_of(a)));
        results.push(compare("lavikety_blocks_prev_power_of_two", one(), prev_power_of_two, |a| lavikety_blocks_prev_power_of_two(a)));
        results.push(compare("lavikety_blocks_round", one(), round, |a| lavikety_blocks_round(a)));

        let mut r = Random(random.next());
        let two = pairs(&edge).into_iter().chain((0..RANDOM).map(|_| (r.number(), r.number())));
        results.push(compare("lavikety_blocks_round_aligned", two, |(s, a)| round_aligned(s, a), |(s, a)| lavikety_blocks_round_aligned(s, a)));
        results.push(compare("lavikety_blocks_is_power_of_two", one(), is_power_of_two, |a| lavikety_blocks_is_power_of_two(a)));
        results.push(compare("lavikety_blocks_lowest_bit", one(), lowest_bit, |a| lavikety_blocks_lowest_bit(a)));

        let mut r = Random(random.next());
        let two = pairs(&classes).into_iter().chain((0..RANDOM).map(|_| (r.number(), r.class())));
        results.push(compare("lavikety_blocks_buddy", two, |(s, c)| buddy(s, c), |(s, c)| lavikety_blocks_buddy(s, c)));

        let mut r = Random(random.next());
        let three = short.iter().flat_map(|a| short.iter().flat_map(|b| short.iter().map(|c| (*a, *b, *c))));
        let tops = edge.iter().flat_map(|a| edge.iter().flat_map(|b| (0..=40).map(|c| (*a, *b, c))));
        let three = three.chain(tops).chain((0..RANDOM).map(|_| (r.number(), r.number(), r.class())));
        results.push(compare("lavikety_blocks_piece", three, |(s, l, t)| piece(s, l, t), |(s, l, t)| lavikety_blocks_piece(s, l, t)));
    }

    let passed = results.iter().filter(|ok| **ok).count();
    println!("{passed} passed, {} failed", results.len() - passed);
    std::process::exit(i32::from(passed != results.len()));
}
