//! A port and the judge side by side: each call is put to both, and everything is compared after it.

use crate::port::{Port, Reply};
use frame_oracle::answer::Answer;
use frame_oracle::block::Block;
use frame_oracle::call::Call;
use frame_oracle::judge::Judge;
use frame_oracle::words::table_words;

/// Why a run stops: the port differs from what is expected, or document and crate part before the port is looked at.
#[derive(Debug)]
pub enum Stop {
    Differs(String),
    Parted(String),
}

/// What was done so far: the calls compared, the summaries after them left out, and how often each number was given.
#[derive(Default)]
pub struct Tally {
    pub calls: u64,
    pub numbers: [u64; 12],
}

/// Lent words between two words that no call may touch.
pub struct Lent {
    all: Vec<u64>,
}

const GUARD: u64 = 0x5afe_5afe_5afe_5afe;

impl Lent {
    pub fn new(words: &[u64]) -> Lent {
        Lent {
            all: [&[GUARD], words, &[GUARD]].concat(),
        }
    }

    fn words(&mut self) -> &mut [u64] {
        let end = self.all.len() - 1;
        &mut self.all[1..end]
    }

    /// Every word is as expected, and none beside them was touched.
    fn same(&mut self, expected: &[u64], call: Call) -> Result<(), Stop> {
        let (first, last) = (self.all[0], self.all[self.all.len() - 1]);
        if (first, last) != (GUARD, GUARD) {
            return Err(Stop::Differs(format!(
                "{call}: a word beside the table was written"
            )));
        }
        let words = self.words();
        if words == expected {
            return Ok(());
        }
        let place = (0..expected.len())
            .find(|i| words[*i] != expected[*i])
            .unwrap_or(0);
        let (wanted, got) = (expected[place], words[place]);
        let length = expected.len();
        Err(Stop::Differs(format!(
            "{call}: word {place} of {length} must be {wanted:016x}, and is {got:016x}"
        )))
    }
}

/// Puts one call to the port, and compares its numbers and all words with what is expected.
pub fn compare(
    port: &mut dyn Port,
    lent: &mut Lent,
    call: Call,
    reply: Reply,
    words: &[u64],
) -> Result<(), Stop> {
    let got = port.answer(lent.words(), call);
    if got != reply {
        return Err(Stop::Differs(format!(
            "{call}: must give {reply}, and gave {got}"
        )));
    }
    lent.same(words, call)
}

pub struct SideBySide<'a> {
    port: &'a mut dyn Port,
    tally: &'a mut Tally,
    judge: Judge,
    lent: Lent,
    calls: Vec<Call>,
}

impl<'a> SideBySide<'a> {
    /// A table that the port makes over these words, whatever they are; the ORDER is in range.
    pub fn made(
        port: &'a mut dyn Port,
        tally: &'a mut Tally,
        over: &[u64],
        order: u32,
    ) -> Result<SideBySide<'a>, Stop> {
        let order = u64::from(order);
        let judge = Judge::new(over.len(), order).expect("a length and ORDER in range");
        let mut lent = Lent::new(over);
        let (call, fresh) = (Call::Make { order }, judge.words());
        compare(port, &mut lent, call, Reply::done(0), &fresh)?;
        tally.count(0);
        Ok(SideBySide {
            port,
            tally,
            judge,
            lent,
            calls: Vec::new(),
        })
    }

    /// A sound table that holds these blocks.
    pub fn holding(
        port: &'a mut dyn Port,
        tally: &'a mut Tally,
        length: usize,
        order: u32,
        blocks: &[Block],
    ) -> SideBySide<'a> {
        let words = table_words(order, blocks, length);
        let judge = Judge::of_table(&words).expect("a sound table");
        SideBySide {
            port,
            tally,
            judge,
            lent: Lent::new(&words),
            calls: Vec::new(),
        }
    }

    pub fn blocks(&self) -> &[Block] {
        self.judge.blocks()
    }

    /// The call, by document, crate and port; where the port differs, the calls before it are told too.
    pub fn call(&mut self, call: Call) -> Result<Answer, Stop> {
        let answer = self
            .judge
            .call(call)
            .map_err(|parting| Stop::Parted(parting.to_string()))?;
        self.compare_all(call, answer)
            .map_err(|stop| self.with_calls_before(stop))?;
        self.tally.count(answer.number());
        self.calls.push(call);
        Ok(answer)
    }

    /// Numbers and words after the call, then the port's summary against the crate's own fields, and the words again.
    fn compare_all(&mut self, call: Call, answer: Answer) -> Result<(), Stop> {
        let (words, reply) = (self.judge.words(), Reply::expected(answer));
        compare(self.port, &mut self.lent, call, reply, &words)?;
        let figures = Reply::expected(Answer::Summed(self.judge.figures_of_crate()));
        compare(self.port, &mut self.lent, Call::Summary, figures, &words)
    }

    /// How the port differs, and the last few calls before that on this table.
    fn with_calls_before(&self, stop: Stop) -> Stop {
        let Stop::Differs(how) = stop else {
            return stop;
        };
        let last = self.calls.iter().rev().take(4).rev();
        let last: Vec<String> = last.map(Call::to_string).collect();
        let (order, count) = (self.judge.order(), self.calls.len());
        let before = last.join("; ");
        Stop::Differs(format!(
            "{how}; ORDER {order}, after {count} calls: .. {before}"
        ))
    }
}

impl Tally {
    pub fn count(&mut self, number: u64) {
        self.calls += 1;
        self.numbers[number as usize] += 1;
    }
}
