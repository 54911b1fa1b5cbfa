//! The words that a port is lent, each kind between two words that no call may touch.

use crate::port::{record_words, Port, Reply, RECORD};
use crate::side_by_side::Stop;
use frame_oracle::crate_guard::guarded;
use heap_oracle::call::Call;
use heap_oracle::links;
use heap_oracle::record::Memory;

const GUARD: u64 = 0x5afe_5afe_5afe_5afe;

/// Words between two words that no call may touch.
#[derive(Clone)]
pub struct Guarded {
    all: Vec<u64>,
}

impl Guarded {
    pub fn new(words: &[u64]) -> Guarded {
        Guarded {
            all: [&[GUARD], words, &[GUARD]].concat(),
        }
    }

    pub fn words(&mut self) -> &mut [u64] {
        let end = self.all.len() - 1;
        &mut self.all[1..end]
    }

    pub fn before(&mut self) -> &mut u64 {
        &mut self.all[0]
    }

    pub fn after(&mut self) -> &mut u64 {
        let end = self.all.len() - 1;
        &mut self.all[end]
    }

    /// Every word is as expected, and none beside them was touched.
    fn same(&mut self, name: &str, expected: &[u64]) -> Result<(), String> {
        let (first, last) = (*self.before(), *self.after());
        if (first, last) != (GUARD, GUARD) {
            return Err(format!("a word beside the {name} was written"));
        }
        let words = self.words();
        if words == expected {
            return Ok(());
        }
        let pairs = words.iter().zip(expected);
        let place = pairs.take_while(|(one, other)| one == other).count();
        let (wanted, got) = (expected[place], words[place]);
        Err(format!(
            "word {place} of the {name} must be {wanted:016x}, and is {got:016x}"
        ))
    }
}

/// The words that a port is lent, each kind between guards.
#[derive(Clone)]
pub struct Hold {
    pub record: Guarded,
    pub arena: Guarded,
    pub ledger: Guarded,
}

impl Hold {
    pub fn of(memory: &Memory) -> Hold {
        Hold {
            record: Guarded::new(&record_words(&memory.record)),
            arena: Guarded::new(&memory.arena),
            ledger: Guarded::new(&memory.ledger),
        }
    }

    /// A record and a ledger of no meaning, and an arena of zeros, as whoever lends it for a `heap` line leaves it.
    pub fn anew(words: usize, ledger: usize) -> Hold {
        let odd = |n: usize| -> Vec<u64> {
            (1..=n as u64)
                .map(|i| i.wrapping_mul(0x9e37_79b9_7f4a_7c15))
                .collect()
        };
        Hold {
            record: Guarded::new(&odd(RECORD)),
            arena: Guarded::new(&vec![0; words]),
            ledger: Guarded::new(&odd(ledger)),
        }
    }

    pub fn put_to(&mut self, port: &mut dyn Port, call: Call) -> Result<Reply, Stop> {
        // a port that breaks down over its fault differs as well
        guarded(|| port.answer(self, call))
            .map_err(|message| Stop::Differs(format!("{call}: stopped: {message}")))
    }

    /// Numbers, and every word of record, arena and ledger.
    pub fn compare(
        &mut self,
        call: Call,
        got: Reply,
        expected: Reply,
        record: &[u64],
        memory: &Memory,
    ) -> Result<(), Stop> {
        if got != expected {
            return Err(Stop::Differs(format!(
                "{call}: must give {expected}, and gave {got}"
            )));
        }
        let differs = |how: String| Stop::Differs(format!("{call}: {how}"));
        self.record.same("record", record).map_err(differs)?;
        self.arena.same("arena", &memory.arena).map_err(differs)?;
        self.ledger.same("ledger", &memory.ledger).map_err(differs)
    }

    pub fn nodes(&mut self, class: usize) -> Vec<u64> {
        let head = self
            .record
            .words()
            .get(class + 1)
            .copied()
            .filter(|_| class < 33);
        links::nodes(self.arena.words(), head.unwrap_or(0)).0
    }

    /// The nodes that a release compares, from the buddies' places in the port's lists before it.
    pub fn positions(&mut self, address: u64, class: u32) -> u64 {
        let top = self.record.words()[0] as usize - 1;
        let (mut compared, mut block) = (0, address);
        for class in class as usize..top {
            let (list, buddy) = (self.nodes(class), block ^ (1 << class));
            // the released block stands before the others
            compared += 1;
            match list.iter().position(|node| *node == buddy) {
                Some(place) => compared += place as u64 + 1,
                None => return compared + list.len() as u64,
            }
            block = block.min(buddy);
        }
        compared
    }
}
