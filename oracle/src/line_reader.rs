//! Lines of any length from a stream of bytes, of which only the first few bytes are kept.

use std::io::{self, BufRead, ErrorKind};

/// The next line without its line feed, cut after `keep` bytes; a last line without a line feed counts.
pub fn next_line(input: &mut impl BufRead, keep: usize) -> io::Result<Option<Vec<u8>>> {
    let mut line = Vec::new();
    let mut any = false;
    loop {
        let bytes = match input.fill_buf() {
            Ok(bytes) => bytes,
            Err(error) if error.kind() == ErrorKind::Interrupted => continue,
            Err(error) => return Err(error),
        };
        if bytes.is_empty() {
            return Ok(any.then_some(line));
        }
        any = true;
        let feed = bytes.iter().position(|byte| *byte == b'\n');
        let part = &bytes[..feed.unwrap_or(bytes.len())];
        let room = keep.saturating_sub(line.len()).min(part.len());
        line.extend_from_slice(&part[..room]);
        let used = part.len() + usize::from(feed.is_some());
        input.consume(used);
        if feed.is_some() {
            return Ok(Some(line));
        }
    }
}
