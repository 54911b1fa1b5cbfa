//! A port and the judge side by side: each call is put to both, and everything is compared after it.

use crate::hold::Hold;
use crate::port::{record_words, Port, Reply};
use heap_oracle::answer::Answer;
use heap_oracle::bookkeeping::Bookkeeping;
use heap_oracle::call::{Call, Put};
use heap_oracle::decision::rounded;
use heap_oracle::judge::Judge;
use heap_oracle::record::Memory;
use heap_oracle::stand_in_sound::CLAUSES;

/// Why a run stops: the port differs from what is expected, or document and crate part before the port is looked at.
#[derive(Debug)]
pub enum Stop {
    Differs(String),
    Parted(String),
}

/// What was done so far: the calls compared, how often each number was given, and each clause of soundness was broken.
#[derive(Default)]
pub struct Tally {
    pub calls: u64,
    pub numbers: [u64; 12],
    pub broken: [u64; CLAUSES.len()],
    pub alone: [u64; CLAUSES.len()],
    pub asked: u64,
}

impl Tally {
    pub fn count(&mut self, number: u64) {
        self.calls += 1;
        self.numbers[number as usize] += 1;
    }

    pub fn count_broken(&mut self, memory: &Bookkeeping) {
        for (place, clause) in CLAUSES.iter().enumerate() {
            self.broken[place] += u64::from(memory.broken().contains(clause));
            self.alone[place] += u64::from(memory.broken() == [*clause]);
        }
    }
}

/// One call on any memory, sound or not, by the document alone.
pub fn once(
    port: &mut dyn Port,
    tally: &mut Tally,
    memory: &Memory,
    call: Call,
) -> Result<(), Stop> {
    let mut paper = Bookkeeping::of_memory(memory.clone());
    tally.count_broken(&paper);
    let answer = paper.call(call);
    let mut hold = Hold::of(memory);
    let got = hold.put_to(port, call)?;
    let kept = matches!(call, Call::Remake { .. }) && answer.number() != Some(0);
    let record = if kept {
        &memory.record
    } else {
        &paper.memory().record
    };
    hold.compare(
        call,
        got,
        Reply::expected(&answer),
        &record_words(record),
        paper.memory(),
    )?;
    tally.count(answer.number().unwrap_or(0));
    Ok(())
}

pub struct SideBySide<'a> {
    port: &'a mut dyn Port,
    pub tally: &'a mut Tally,
    pub judge: Judge,
    hold: Hold,
    calls: Vec<Call>,
}

impl<'a> SideBySide<'a> {
    /// Nothing made and nothing lent.
    pub fn new(port: &'a mut dyn Port, tally: &'a mut Tally) -> SideBySide<'a> {
        let judge = Judge::new();
        let hold = Hold::of(judge.memory());
        SideBySide {
            port,
            tally,
            judge,
            hold,
            calls: Vec::new(),
        }
    }

    /// The call, by document, crate and port; where the port differs, the calls before it are told too.
    pub fn call(&mut self, call: Call) -> Result<Answer, Stop> {
        let answer = match call {
            Call::Make {
                order,
                words,
                ledger,
            } => self.make(call, order, Hold::anew(words, ledger)),
            Call::Remake { order } => {
                let hold = self.hold.clone();
                self.make(call, order, hold)
            }
            Call::Put(put) => self.put(call, put),
            Call::List { class } => self.list(call, class),
            _ => self.on_heap(call),
        };
        let answer = answer.map_err(|stop| self.with_calls_before(stop, call))?;
        self.calls.push(call);
        Ok(answer)
    }

    fn judged(&mut self, call: Call) -> Result<Answer, Stop> {
        self.judge
            .call(call)
            .map_err(|parting| Stop::Parted(parting.to_string()))
    }

    /// Made in place: refused, the three keep their words. The judge's record becomes zeros then, so the port's is set to them by hand.
    fn make(&mut self, call: Call, order: u64, mut hold: Hold) -> Result<Answer, Stop> {
        let mut before = hold.clone();
        let answer = self.judged(call)?;
        let got = hold.put_to(self.port, Call::Remake { order })?;
        let expected = Reply::expected(&answer);
        self.tally.count(expected.number);
        if expected.number == 0 {
            let memory = self.judge.memory();
            hold.compare(call, got, expected, &record_words(&memory.record), memory)?;
            self.hold = hold;
            return Ok(answer);
        }
        let kept = Memory {
            record: self.judge.memory().record.clone(),
            arena: before.arena.words().to_vec(),
            ledger: before.ledger.words().to_vec(),
        };
        hold.compare(call, got, expected, before.record.words(), &kept)?;
        self.hold.record.words().fill(0);
        Ok(answer)
    }

    /// Somebody's own writing, into the words of both.
    fn put(&mut self, call: Call, put: Put) -> Result<Answer, Stop> {
        let answer = self.judged(call)?;
        if answer == Answer::Set {
            let hold = &mut self.hold;
            let record = hold.record.words();
            match put {
                Put::Arena { index, word } => hold.arena.words()[index as usize] = word,
                Put::Ledger { index, word } => hold.ledger.words()[index as usize] = word,
                Put::Head { class, address } => record[class + 1] = address,
                Put::Count(value) => record[34] = value,
                Put::User(value) => record[35] = value,
                Put::Allocated(value) => record[36] = value,
                Put::Total(value) => record[37] = value,
                Put::Order(value) => record[0] = value,
            }
        }
        Ok(answer)
    }

    /// The port's own list, in order; no call of C reads it.
    fn list(&mut self, call: Call, class: u64) -> Result<Answer, Stop> {
        let answer = self.judged(call)?;
        if let Answer::Nodes(nodes) = &answer {
            let has = self
                .hold
                .nodes(usize::try_from(class).unwrap_or(usize::MAX).min(40));
            if has != *nodes {
                return Err(Stop::Differs(format!(
                    "{call}: must be {nodes:?}, and is {has:?}"
                )));
            }
        }
        Ok(answer)
    }

    fn on_heap(&mut self, call: Call) -> Result<Answer, Stop> {
        let recount = self.recount(call);
        let answer = self.judged(call)?;
        let got = self.hold.put_to(self.port, call)?;
        let memory = self.judge.memory();
        self.hold.compare(
            call,
            got,
            Reply::expected(&answer),
            &record_words(&memory.record),
            memory,
        )?;
        if let (Some(count), Answer::Value(compared)) = (recount, &answer) {
            if count != *compared {
                return Err(Stop::Parted(format!(
                    "{call}: compares {compared}, by the places {count}"
                )));
            }
        }
        if let Some(reading) = self.judge.sound() {
            if let Some(class) =
                (0..33).find(|class| self.hold.nodes(*class) != reading.lists[*class])
            {
                return Err(Stop::Differs(format!(
                    "{call}: list {class} is in another order"
                )));
            }
        }
        self.tally.count(answer.number().unwrap_or(0));
        Ok(answer)
    }

    fn recount(&mut self, call: Call) -> Option<u64> {
        self.judge.sound()?;
        match call {
            Call::Free {
                address,
                size,
                align,
            } if align.is_power_of_two() => {
                let class = rounded(size, align)?;
                (u64::from(class) < self.judge.memory().record.order)
                    .then(|| self.hold.positions(address, class))
            }
            _ => None,
        }
    }

    /// How the port differs, and the last few calls before that on this heap.
    fn with_calls_before(&self, stop: Stop, call: Call) -> Stop {
        let Stop::Differs(how) = stop else {
            return stop;
        };
        let last = self.calls.iter().rev().take(4).rev();
        let last: Vec<String> = last.map(Call::to_string).collect();
        let (memory, count, before) = (self.judge.memory(), self.calls.len(), last.join("; "));
        let (order, words, ledger) = (memory.record.order, memory.arena.len(), memory.ledger.len());
        Stop::Differs(format!("{how}; at {call}, ORDER {order}, {words} and {ledger} words, after {count} lines: .. {before}"))
    }
}
