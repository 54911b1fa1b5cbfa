//! A run of random calls through the judge, which keeps the lines since the last new table for a replay.

use crate::answer::{Answer, Refusal};
use crate::call::Call;
use crate::judge::{Judge, Parting};
use crate::random_calls::Trouble;
use crate::random_numbers::RandomNumbers;
use std::collections::BTreeMap;

/// What a run is asked to do; without `words` every table has a length of its own.
pub struct Wish {
    pub seed: u64,
    pub calls: u64,
    pub words: Option<usize>,
    pub all_calls: bool,
}

/// How often each kind of answer was given, for a reader who wonders what the run reached.
pub struct Tally {
    kinds: BTreeMap<u64, u64>,
}

/// Where a run parted, and the lines that lead there from a fresh table of `words` words.
pub struct Trace {
    pub parting: Parting,
    pub call_number: u64,
    pub words: usize,
    pub lines: Vec<Call>,
}

impl Tally {
    fn count(&mut self, answer: Answer) {
        *self.kinds.entry(answer.number()).or_default() += 1;
    }

    /// For example `accepted 120, no 4: 7, no 9: 31`.
    pub fn text(&self) -> String {
        let texts = self.kinds.iter().map(|(number, times)| match number {
            0 => format!("accepted {times}"),
            _ => format!("no {number}: {times}"),
        });
        texts.collect::<Vec<String>>().join(", ")
    }
}

/// Runs the calls; `show` is given every line as it is made.
pub fn run(wish: &Wish, mut show: impl FnMut(Call)) -> Result<Tally, Trace> {
    let mut numbers = RandomNumbers::new(wish.seed);
    let mut tally = Tally {
        kinds: BTreeMap::from([(0, 0)]),
    };
    let mut done = 0;
    while done < wish.calls {
        let trouble = Trouble::new(&mut numbers, wish.words, wish.all_calls);
        let limit = (wish.calls - done).min(trouble.calls);
        let mut judge = fresh_judge(trouble.words).expect("a length and ORDER in range");
        let mut lines = Vec::new();
        for place in 0..limit {
            let call = match place {
                0 => Call::Make {
                    order: u64::from(trouble.order),
                },
                _ => trouble.next_call(&mut numbers, judge.blocks()),
            };
            lines.push(call);
            show(call);
            match judge.call(call) {
                Ok(answer) => {
                    tally.count(answer);
                    forget_before_new_table(&mut lines, answer);
                }
                Err(parting) => {
                    let call_number = done + place + 1;
                    return Err(Trace {
                        parting,
                        call_number,
                        words: trouble.words,
                        lines,
                    });
                }
            }
        }
        done += limit;
    }
    Ok(tally)
}

/// An accepted `order` makes everything before it needless for a replay.
fn forget_before_new_table(lines: &mut Vec<Call>, answer: Answer) {
    if let (Some(Call::Make { .. }), Answer::Done) = (lines.last(), answer) {
        lines.drain(..lines.len() - 1);
    }
}

/// A table as the program `calls` begins it, so that a replay needs no more than the lines.
fn fresh_judge(words: usize) -> Result<Judge, Refusal> {
    Judge::new(words, 33)
}
