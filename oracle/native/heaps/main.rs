//! Compares the proved heap, through its C face, with the document's rules and the real crate, after every call.
//! Then it puts ports with one fault each in the place of the proved object, and demands that each is noticed.

mod damage;
mod hold;
mod parts;
mod port;
mod side_by_side;

use frame_oracle::random_numbers::RandomNumbers;
use heap_oracle::fault::{faults, Fault};
use heap_oracle::soundness::Clause;
use heap_oracle::stand_in_sound::CLAUSES;
use parts::{Part, Run, LONG_PARTS, PARTS};
use port::{Faulty, Native, Port, BESIDE};
use side_by_side::{Stop, Tally};
use std::process::ExitCode;
use std::thread;
use std::time::{Duration, Instant};

const SEED: u64 = 20_130;

/// More than ten times what a run takes; a port that hangs must not hang the test.
const LONGEST: Duration = Duration::from_secs(1_200);

/// The verdicts so far, one line each.
struct Verdicts {
    passed: u64,
    failed: u64,
}

impl Verdicts {
    fn add(&mut self, name: &str, result: Result<String, String>) {
        match result {
            Ok(said) => {
                println!("ok {name}{said}");
                self.passed += 1;
            }
            Err(why) => {
                println!("FAILED {name}: {why}");
                self.failed += 1;
            }
        }
    }

    /// A sentence that holds or not, with what was counted.
    fn demand(&mut self, name: &str, holds: bool, counted: String) {
        let said = format!(": {counted}");
        self.add(name, if holds { Ok(said) } else { Err(counted) });
    }
}

/// SEED and TIMES of the command line.
fn options() -> Option<(u64, u64)> {
    let words: Vec<String> = std::env::args().skip(1).collect();
    let number =
        |place: usize, other: u64| words.get(place).map_or(Some(other), |w| w.parse().ok());
    let times = number(1, 1).filter(|times| (1..=1_000_000).contains(times))?;
    (words.len() <= 2).then_some((number(0, SEED)?, times))
}

fn run_on(port: &mut dyn Port, seed: u64, times: u64) -> Run<'_> {
    Run {
        port,
        numbers: RandomNumbers::new(seed),
        tally: Tally::default(),
        times,
    }
}

fn text(stop: Stop) -> String {
    match stop {
        Stop::Differs(text) => text,
        Stop::Parted(text) => format!("document and crate part: {text}"),
    }
}

fn compare_native(verdicts: &mut Verdicts, seed: u64, times: u64) {
    let mut port = Native;
    let mut run = run_on(&mut port, seed, times);
    for (name, part) in PARTS.into_iter().chain(LONG_PARTS) {
        let (before, began) = (run.tally.calls, Instant::now());
        let result = part(&mut run).map_err(text);
        let calls = run.tally.calls - before;
        let said = |()| format!(": {calls} calls, {:.1} s", began.elapsed().as_secs_f64());
        verdicts.add(name, result.map(said));
    }
    demand_enough(verdicts, &run.tally);
}

/// What the run must have met for its verdict to say something.
fn demand_enough(verdicts: &mut Verdicts, tally: &Tally) {
    let numbers = &tally.numbers;
    // 8 is for frames alone
    let every = (0..12).all(|n| n == 8 || numbers[n] > 0);
    verdicts.demand(
        "each number of a heap call was given",
        every,
        format!("{numbers:?}"),
    );
    let every = tally.broken.iter().all(|times| *times > 0);
    verdicts.demand(
        "each clause of soundness was broken",
        every,
        format!("{:?}", tally.broken),
    );
    // a list that does not end meets itself
    let alone = CLAUSES
        .iter()
        .zip(tally.alone)
        .all(|(clause, times)| *clause == Clause::ListsEnd || times > 0);
    verdicts.demand(
        "each alone, where that can be",
        alone,
        format!("{:?}", tally.alone),
    );
    verdicts.demand(
        "50,000 calls or more put to the crate",
        tally.asked >= 50_000,
        tally.asked.to_string(),
    );
    verdicts.demand(
        "100,000 calls or more compared",
        tally.calls >= 100_000,
        tally.calls.to_string(),
    );
}

/// The first part in which a port is found to differ, if there is one; a test of soundness is met in the last part.
fn noticed(port: &mut dyn Port, seed: u64, last_first: bool) -> Option<(Part, Stop)> {
    let mut run = run_on(port, seed, 1);
    let mut parts = PARTS;
    if last_first {
        parts.reverse();
    }
    parts
        .into_iter()
        .find_map(|part| part.1(&mut run).err().map(|stop| (part, stop)))
}

/// A wrong port must differ, and not by way of document and crate.
fn demand_noticed(verdicts: &mut Verdicts, name: String, found: Option<(Part, Stop)>) {
    let result = match found {
        Some(((name, _), Stop::Differs(text))) => Ok(format!(" in {name}: {text}")),
        Some((_, stop)) => Err(text(stop)),
        None => Err("not noticed".to_string()),
    };
    verdicts.add(&format!("notices {name}"), result);
}

fn show_that_faults_are_noticed(verdicts: &mut Verdicts, seed: u64) {
    let fault = Fault::None;
    let right = match noticed(&mut Faulty { fault }, seed, false) {
        None => Ok(String::new()),
        Some((_, stop)) => Err(text(stop)),
    };
    verdicts.add("a port in plain Rust without a fault agrees", right);
    // lines cannot lend lengths out of range, and C can
    let lengths = [Clause::ArenaLength, Clause::LedgerLength].map(Fault::Ignores);
    for fault in faults().into_iter().chain(lengths) {
        let last_first = matches!(fault, Fault::Ignores(_));
        let found = noticed(&mut Faulty { fault }, seed, last_first);
        demand_noticed(verdicts, format!("{fault:?}"), found);
    }
    for mut beside in BESIDE {
        let found = noticed(&mut beside, seed, false);
        demand_noticed(verdicts, format!("a word written {beside:?}"), found);
    }
}

/// Ends the program as failed where it has not ended by itself in time.
fn end_after(limit: Duration) {
    thread::spawn(move || {
        thread::sleep(limit);
        println!("FAILED to end: still at work after {} s", limit.as_secs());
        println!("0 passed, 1 failed");
        std::process::exit(1);
    });
}

fn main() -> ExitCode {
    let Some((seed, times)) = options() else {
        eprintln!(
            "usage: heaps [SEED [TIMES]]   (TIMES makes the comparison so many times as long)"
        );
        return ExitCode::from(2);
    };
    println!("seed {seed}, {times} times");
    end_after(LONGEST.saturating_mul(times as u32));
    let mut verdicts = Verdicts {
        passed: 0,
        failed: 0,
    };
    compare_native(&mut verdicts, seed, times);
    show_that_faults_are_noticed(&mut verdicts, seed);
    println!("{} passed, {} failed", verdicts.passed, verdicts.failed);
    ExitCode::from(u8::from(verdicts.failed > 0))
}
