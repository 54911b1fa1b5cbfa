// What the program `block_numbers` must print, computed with Rust's own operations: crates/block_numbers/stdout was written by
// this program from crates/block_numbers/stdin, and tools/native-check holds the two to each other.
use std::cmp::{max, min};
use std::io::Read;

// The class of a size that is a power of two up to 2^32, as it is printed.
fn class(size: Option<u64>) -> String {
    match size {
        Some(p) if p <= 1 << 32 => p.trailing_zeros().to_string(),
        _ => "above".to_string(),
    }
}

fn line(n: u64) -> String {
    let size = if n <= 32 { 1u64 << n } else { 0 };
    let rounded = n.checked_next_power_of_two();
    let aligned = rounded.map(|p| max(p, 4096));
    let previous = if n == 0 { 0 } else { 1u64 << n.ilog2() };
    let lowest = n & n.wrapping_neg();
    let power = if n.is_power_of_two() { "yes" } else { "no" };
    let limit = if n == 0 { 1 << 20 } else { lowest };
    let piece = min(min(limit, 1u64 << 1000000u64.ilog2()), 1 << 20);
    format!(
        "{n}: {size} {} {} {previous} {lowest} {power} {} {piece}",
        class(rounded),
        class(aligned),
        n ^ (1 << 12)
    )
}

fn main() {
    let mut text = Vec::new();
    std::io::stdin().read_to_end(&mut text).expect("standard input");
    println!(
        "number: size class aligned-to-4096 previous-power lowest-bit power-of-two buddy-in-class-12 piece-of-1000000-up-to-class-20"
    );
    for word in text.split(|b| !b.is_ascii_digit()).filter(|w| !w.is_empty()) {
        let digits = std::str::from_utf8(word).expect("digits");
        match digits.parse::<u64>() {
            Ok(n) => println!("{}", line(n)),
            Err(_) => println!("not below 2^64"),
        }
    }
}
