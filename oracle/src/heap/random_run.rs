//! A run of random calls through the judge, which keeps the lines since the last new heap for a replay.

use crate::answer::Answer;
use crate::call::Call;
use crate::judge::{Judge, Parting};
use crate::random_calls::Life;
use frame_oracle::random_numbers::RandomNumbers;
use std::collections::BTreeMap;

/// How often each kind of answer was given, and how many calls were put to the crate.
#[derive(Default)]
pub struct Tally {
    numbers: BTreeMap<u64, u64>,
    asked: u64,
}

/// Where a run parted, and the lines that lead there from nothing lent.
pub struct Trace {
    pub parting: Parting,
    pub call_number: u64,
    pub lines: Vec<Call>,
}

impl Tally {
    fn count(&mut self, answer: &Answer) {
        if let Some(number) = answer.number() {
            *self.numbers.entry(number).or_default() += 1;
        }
    }

    /// For example `accepted 120, no 4: 7, no 9: 31; put to the crate 150`.
    pub fn text(&self) -> String {
        let texts = self.numbers.iter().map(|(number, times)| match number {
            0 => format!("accepted {times}"),
            _ => format!("no {number}: {times}"),
        });
        let answers = texts.collect::<Vec<String>>().join(", ");
        format!("{answers}; put to the crate {}", self.asked)
    }
}

/// Runs the calls; `show` is given every line as it is made.
pub fn run(seed: u64, calls: u64, mut show: impl FnMut(Call)) -> Result<Tally, Trace> {
    let mut numbers = RandomNumbers::new(seed);
    let mut tally = Tally::default();
    let mut judge = Judge::new();
    let mut life = Life::new(&mut numbers);
    let mut lines = Vec::new();
    for call_number in 1..=calls {
        let call = match life.next_call(&mut numbers, judge.memory(), judge.sound()) {
            Some(call) => call,
            None => {
                life = Life::new(&mut numbers);
                life.beginning()
            }
        };
        lines.push(call);
        show(call);
        match judge.call(call) {
            Ok(answer) => {
                tally.count(&answer);
                forget_before_new_heap(&mut lines, &answer);
            }
            Err(parting) => {
                return Err(Trace {
                    parting,
                    call_number,
                    lines,
                })
            }
        }
    }
    tally.asked = judge.asked();
    Ok(tally)
}

/// An accepted `heap` makes everything before it needless for a replay.
fn forget_before_new_heap(lines: &mut Vec<Call>, answer: &Answer) {
    if let (Some(Call::Make { .. }), Answer::Value(_)) = (lines.last(), answer) {
        lines.drain(..lines.len() - 1);
    }
}
