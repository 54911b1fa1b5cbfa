//! The times behind a row, for the plots: a line of numbers, added to the file that the first word names.

use std::fs::OpenOptions;
use std::io::Write;

pub fn note(what: &str, numbers: &[f64]) {
    let Some(path) = std::env::args().nth(1) else { return };
    let line: Vec<String> = numbers.iter().map(|n| format!("{n:.1}")).collect();
    let mut file = OpenOptions::new().append(true).create(true).open(path).expect("the file of the times can be written");
    writeln!(file, "{what} {}", line.join(" ")).expect("the file of the times can be written");
}
