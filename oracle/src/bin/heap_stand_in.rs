//! The program `heap_calls` by the stand-in, with one fault where asked, to see whether lines notice it.

use frame_oracle::crate_guard::guarded;
use frame_oracle::line_language::LONGEST_LINE;
use frame_oracle::line_reader::next_line;
use frame_oracle::program::arguments;
use heap_oracle::fault::{faults, Fault};
use heap_oracle::line_language;
use heap_oracle::listing::listing;
use heap_oracle::stand_in::StandIn;
use std::fs;
use std::io::{self, Write};
use std::process::ExitCode;

const USAGE: &str = "usage: heap_stand_in < LINES   prints what heap_calls prints
       heap_stand_in FILE.in ..   runs each with no fault and with each fault, and compares with FILE.out";

fn main() -> ExitCode {
    let words: Option<Vec<String>> = arguments().into_iter().collect();
    let done = match words.as_deref() {
        None => Err(io::Error::other(USAGE)),
        Some([]) => answer_input().map(|()| true),
        Some(inputs) => compare(inputs),
    };
    match done {
        Ok(all_right) => ExitCode::from(u8::from(!all_right)),
        Err(error) => {
            eprintln!("{error}");
            ExitCode::from(2)
        }
    }
}

fn answer_input() -> io::Result<()> {
    let mut lines = Vec::new();
    io::Read::read_to_end(&mut io::stdin().lock(), &mut lines)?;
    io::stdout().write_all(said(Fault::None, &lines)?.as_bytes())
}

/// Everything that the stand-in prints for these lines.
fn said(fault: Fault, lines: &[u8]) -> io::Result<String> {
    let mut port = StandIn::new(fault);
    let mut text = String::new();
    let mut input = lines;
    while let Some(line) = next_line(&mut input, LONGEST_LINE + 1)? {
        match line_language::parse(&line) {
            None => text.push_str("bad line"),
            Some(call) => text.push_str(&port.call(call).to_string()),
        }
        text.push('\n');
    }
    text.push_str(&listing(port.memory(), port.lists().as_deref()));
    Ok(text)
}

/// One line for each fault: with none every output must be the same, with any other there must be one that is not.
fn compare(inputs: &[String]) -> io::Result<bool> {
    let mut runs = Vec::new();
    for input in inputs {
        let stem = input.strip_suffix(".in").ok_or(io::Error::other(USAGE))?;
        runs.push((
            stem,
            fs::read(input)?,
            fs::read_to_string(format!("{stem}.out"))?,
        ));
    }
    let mut all_right = true;
    for fault in std::iter::once(Fault::None).chain(faults()) {
        // A stand-in that breaks down over a fault is noticed as well.
        let noticed = runs.iter().find(|(_, lines, expected)| {
            guarded(|| said(fault, lines)).map_or(true, |text| text.ok().as_ref() != Some(expected))
        });
        all_right &= noticed.is_none() == (fault == Fault::None);
        match noticed {
            Some((stem, ..)) => println!(
                "{fault:?}: noticed by {}",
                stem.rsplit('/').next().unwrap_or(stem)
            ),
            None => println!("{fault:?}: not noticed"),
        }
    }
    Ok(all_right)
}
