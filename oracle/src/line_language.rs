//! The lines that the program `calls` reads: one call each, read as bytes.

use crate::call::Call;

/// Longer lines are bad; the line feed is not counted.
pub const LONGEST_LINE: usize = 80;

/// The call of a line, or nothing for a bad line; `all_calls` also knows the calls that `calls` has no word for.
pub fn parse(line: &[u8], all_calls: bool) -> Option<Call> {
    let (name, numbers) = name_and_numbers(line)?;
    match (name, numbers.as_slice()) {
        (b"order", [order]) => Some(Call::Make { order: *order }),
        (b"add", [start, end]) => Some(Call::AddFrame {
            start: *start,
            end: *end,
        }),
        (b"alloc", [count]) => Some(Call::Alloc { count: *count }),
        (b"at", [start, count]) => Some(Call::AllocAt {
            start: *start,
            count: *count,
        }),
        (b"free", [start, count]) => Some(Call::Dealloc {
            start: *start,
            count: *count,
        }),
        _ if all_calls => other_call(name, &numbers),
        _ => None,
    }
}

fn other_call(name: &[u8], numbers: &[u64]) -> Option<Call> {
    match (name, numbers) {
        (b"insert", [start, end]) => Some(Call::Insert {
            start: *start,
            end: *end,
        }),
        (b"alloc_aligned", [count, align]) => Some(Call::AllocAligned {
            count: *count,
            align: *align,
        }),
        (b"free_aligned", [start, count, align]) => Some(Call::DeallocAligned {
            start: *start,
            count: *count,
            align: *align,
        }),
        (b"summary", []) => Some(Call::Summary),
        _ => None,
    }
}

/// The first word of a line and the numbers after it, one space between words; nothing for any other line.
pub fn name_and_numbers(line: &[u8]) -> Option<(&[u8], Vec<u64>)> {
    if line.len() > LONGEST_LINE {
        return None;
    }
    let mut parts = line.split(|byte| *byte == b' ');
    let name = parts.next()?;
    let numbers = parts.map(number).collect::<Option<_>>()?;
    Some((name, numbers))
}

/// A decimal number below 2^64, leading zeros allowed; two spaces in a row leave an empty word, which is none.
fn number(word: &[u8]) -> Option<u64> {
    if word.is_empty() {
        return None;
    }
    word.iter().try_fold(0u64, |value, byte| {
        let digit = byte.is_ascii_digit().then(|| u64::from(byte - b'0'))?;
        value.checked_mul(10)?.checked_add(digit)
    })
}
