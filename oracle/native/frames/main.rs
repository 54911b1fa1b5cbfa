//! Compares the proved frame table, through its C face, with the document's rules and the real crate, after every call.
//! Then it puts ports with one fault each in the place of the proved object, and demands that each is noticed.

mod lives;
mod parts;
mod port;
mod refusals;
mod side_by_side;
mod stand_in;
mod tables;

use frame_oracle::random_numbers::RandomNumbers;
use parts::{Part, Run, LONG_PARTS, PARTS};
use port::{Native, Port};
use side_by_side::{Stop, Tally};
use stand_in::{Fault, StandIn, FAULTS};
use std::process::ExitCode;
use std::thread;
use std::time::{Duration, Instant};

const SEED: u64 = 20_130;

/// More than ten times what a run takes; a port that hangs must not hang the test.
const LONGEST: Duration = Duration::from_secs(600);

/// The verdicts so far, one line each.
struct Verdicts {
    passed: u64,
    failed: u64,
}

impl Verdicts {
    fn add(&mut self, name: &str, result: Result<String, String>) {
        match result {
            Ok(said) => {
                println!("ok {name}{said}");
                self.passed += 1;
            }
            Err(why) => {
                println!("FAILED {name}: {why}");
                self.failed += 1;
            }
        }
    }
}

/// SEED and TIMES of the command line.
fn options() -> Option<(u64, u64)> {
    let words: Vec<String> = std::env::args().skip(1).collect();
    let number =
        |place: usize, other: u64| words.get(place).map_or(Some(other), |w| w.parse().ok());
    let times = number(1, 1).filter(|times| (1..=1_000_000).contains(times))?;
    (words.len() <= 2).then_some((number(0, SEED)?, times))
}

fn run_on(port: &mut dyn Port, seed: u64, times: u64) -> Run<'_> {
    Run {
        port,
        numbers: RandomNumbers::new(seed),
        tally: Tally::default(),
        times,
    }
}

fn text(stop: Stop) -> String {
    match stop {
        Stop::Differs(text) => text,
        Stop::Parted(text) => format!("document and crate part: {text}"),
    }
}

fn compare_native(verdicts: &mut Verdicts, seed: u64, times: u64) {
    let mut port = Native;
    let mut run = run_on(&mut port, seed, times);
    for (name, part) in PARTS.into_iter().chain(LONG_PARTS) {
        let (before, began) = (run.tally.calls, Instant::now());
        let result = part(&mut run).map_err(text);
        let said = |_| {
            format!(
                ": {} calls, {:.1} s",
                run.tally.calls - before,
                began.elapsed().as_secs_f64()
            )
        };
        verdicts.add(name, result.map(said));
    }
    let never: Vec<usize> = (0..12)
        .filter(|n| *n != 5 && run.tally.numbers[*n] == 0)
        .collect();
    let met = if never.is_empty() {
        Ok(format!(": {:?}", run.tally.numbers))
    } else {
        Err(format!("never {never:?}"))
    };
    verdicts.add("each number of a frame call was given", met);
    let enough = run.tally.calls >= 200_000;
    let calls = format!(": {} compared", run.tally.calls);
    verdicts.add(
        "200,000 calls or more",
        if enough { Ok(calls) } else { Err(calls) },
    );
}

/// The first part in which a port is found to differ, if there is one; a test of soundness is met in the last parts.
fn noticed(fault: Fault, seed: u64) -> Option<(Part, Stop)> {
    let mut port = StandIn { fault };
    let mut run = run_on(&mut port, seed, 1);
    let mut parts = PARTS;
    if matches!(fault, Fault::Ignores(_)) {
        parts.reverse();
    }
    parts
        .into_iter()
        .find_map(|part| part.1(&mut run).err().map(|stop| (part, stop)))
}

fn show_that_faults_are_noticed(verdicts: &mut Verdicts, seed: u64) {
    let right = match noticed(Fault::None, seed) {
        None => Ok(String::new()),
        Some((_, stop)) => Err(text(stop)),
    };
    verdicts.add("a port in plain Rust without a fault agrees", right);
    for fault in FAULTS {
        let result = match noticed(fault, seed) {
            Some(((name, _), Stop::Differs(text))) => Ok(format!(" in {name}: {text}")),
            Some((_, stop)) => Err(text(stop)),
            None => Err("not noticed".to_string()),
        };
        verdicts.add(&format!("notices {fault:?}"), result);
    }
}

/// Ends the program as failed where it has not ended by itself in time.
fn end_after(limit: Duration) {
    thread::spawn(move || {
        thread::sleep(limit);
        println!("FAILED to end: still at work after {} s", limit.as_secs());
        println!("0 passed, 1 failed");
        std::process::exit(1);
    });
}

fn main() -> ExitCode {
    let Some((seed, times)) = options() else {
        eprintln!(
            "usage: frames [SEED [TIMES]]   (TIMES makes the comparison so many times as long)"
        );
        return ExitCode::from(2);
    };
    println!("seed {seed}, {times} times");
    end_after(LONGEST.saturating_mul(times as u32));
    let mut verdicts = Verdicts {
        passed: 0,
        failed: 0,
    };
    compare_native(&mut verdicts, seed, times);
    show_that_faults_are_noticed(&mut verdicts, seed);
    println!("{} passed, {} failed", verdicts.passed, verdicts.failed);
    ExitCode::from(u8::from(verdicts.failed > 0))
}
