//! The parts of a run, each a kind of trouble; every part works on any port.

use crate::damage::damaged;
use crate::port::{record_of, Port, RECORD};
use crate::side_by_side::{once, SideBySide, Stop, Tally};
use frame_oracle::random_numbers::RandomNumbers;
use heap_oracle::answer::Answer;
use heap_oracle::call::Call;
use heap_oracle::random_calls::Life;
use heap_oracle::record::{Memory, Record, WORD};
use heap_oracle::soundness::Reading;

/// A run of parts on one port; `times` is how often each part does what it does.
pub struct Run<'p> {
    pub port: &'p mut dyn Port,
    pub numbers: RandomNumbers,
    pub tally: Tally,
    pub times: u64,
}

pub type Part = (&'static str, fn(&mut Run) -> Result<(), Stop>);

pub const PARTS: [Part; 4] = [
    ("making over any words and any lengths", |run| {
        making(run, &[0, 1, 2, 3, 17, 64])
    }),
    ("lengths out of range", |run| lengths(run, &[0, 1, 2, 3])),
    (
        "heaps through many calls, with damage and foreign writes",
        |run| lives(run, 340),
    ),
    ("one call of each kind on damaged heaps", |run| {
        damage(run, 300)
    }),
];

/// The parts on long arenas, for the proved object alone.
pub const LONG_PARTS: [Part; 4] = [
    ("making over long arenas", |run| {
        making(run, &[ARENA, ARENA + 1])
    }),
    ("long arenas out of range", |run| {
        lengths(run, &[ARENA, ARENA + 1])
    }),
    ("arenas and ledgers at the bounds", at_the_bounds),
    ("thousands of blocks", many_blocks),
];

const ARENA: usize = 1_048_576;
const LEDGER: usize = 65_535;

fn odd_words(numbers: &mut RandomNumbers, length: usize) -> Vec<u64> {
    (0..length)
        .map(|_| numbers.any() >> numbers.pick(&[0, 40, 58]))
        .collect()
}

/// Every ORDER near the bounds, over words of no meaning.
fn making(run: &mut Run, arenas: &[usize]) -> Result<(), Stop> {
    for (words, ledger) in pairs(arenas, &[0, 1, 64, LEDGER, LEDGER + 1]) {
        for order in [0, 1, 3, 4, 5, 32, 33, 34, u64::MAX] {
            let memory = Memory {
                record: record_of(&odd_words(&mut run.numbers, RECORD)),
                arena: odd_words(&mut run.numbers, words),
                ledger: odd_words(&mut run.numbers, ledger),
            };
            once(run.port, &mut run.tally, &memory, Call::Remake { order })?;
        }
    }
    Ok(())
}

/// Heaps that are sound but for a length, or barely sound.
fn lengths(run: &mut Run, arenas: &[usize]) -> Result<(), Stop> {
    for (words, ledger) in pairs(arenas, &[0, 1, 2, LEDGER, LEDGER + 1]) {
        let memory = Memory {
            record: Record::fresh(run.numbers.between(4, 33)),
            arena: vec![0; words],
            ledger: vec![0; ledger],
        };
        for call in each_kind(&mut run.numbers, &memory, None) {
            once(run.port, &mut run.tally, &memory, call)?;
        }
    }
    Ok(())
}

fn pairs(arenas: &[usize], ledgers: &[usize]) -> Vec<(usize, usize)> {
    let with = |words: usize| ledgers.iter().map(move |ledger| (words, *ledger));
    arenas.iter().flat_map(|words| with(*words)).collect()
}

/// A call of each kind, of a block that is granted where there is one.
fn each_kind(numbers: &mut RandomNumbers, memory: &Memory, reading: Option<&Reading>) -> Vec<Call> {
    let bytes = memory.arena_bytes();
    let (start, length) = (numbers.below(bytes + 9), numbers.below(bytes + 9));
    let granted = reading.filter(|reading| !reading.grants.is_empty());
    let (address, size) = granted.map_or((WORD, 8), |reading| {
        let grant = numbers.pick(&reading.grants);
        (grant.address, grant.requested)
    });
    let align = numbers.pick(&[1, 1, 1, 8, 0, 3]);
    vec![
        Call::Add { start, end: length },
        Call::Init {
            start,
            size: length,
        },
        Call::Alloc {
            size: numbers.sized(6),
            align,
        },
        Call::Free {
            address,
            size,
            align,
        },
        Call::Zero {
            address,
            size,
            align,
        },
        Call::Stats,
        Call::Remake {
            order: numbers.between(3, 34),
        },
    ]
}

/// Heaps from their making on, until their life is over. Long arenas are few, since a call compares blocks in pairs.
fn lives(run: &mut Run, count: u64) -> Result<(), Stop> {
    for _ in 0..count * run.times {
        let mut life = short_life(&mut run.numbers);
        let mut both = SideBySide::new(run.port, &mut run.tally);
        both.call(life.beginning())?;
        while let Some(call) =
            life.next_call(&mut run.numbers, both.judge.memory(), both.judge.sound())
        {
            both.call(call)?;
        }
        let asked = both.judge.asked();
        both.tally.asked += asked;
    }
    Ok(())
}

fn short_life(numbers: &mut RandomNumbers) -> Life {
    loop {
        let life = Life::new(numbers);
        match life.beginning() {
            Call::Make { words, .. } if words > 256 && !numbers.once_in(6) => {}
            _ => return life,
        }
    }
}

/// Sound heaps in the middle of their lives: each is damaged in several ways, and gets calls of several kinds.
fn damage(run: &mut Run, count: u64) -> Result<(), Stop> {
    for _ in 0..count * run.times {
        let mut life = short_life(&mut run.numbers);
        let mut both = SideBySide::new(run.port, &mut run.tally);
        both.call(life.beginning())?;
        for _ in 0..run.numbers.below(60) {
            if let Some(call) =
                life.next_call(&mut run.numbers, both.judge.memory(), both.judge.sound())
            {
                both.call(call)?;
            }
        }
        let memory = both.judge.memory().clone();
        let Some(reading) = both.judge.sound().cloned() else {
            continue;
        };
        for _ in 0..24 {
            let wrong = damaged(&mut run.numbers, &memory, &reading);
            let calls = each_kind(&mut run.numbers, &memory, Some(&reading));
            for _ in 0..2 {
                let call = run.numbers.pick(&calls);
                once(run.port, &mut run.tally, &wrong, call)?;
            }
        }
    }
    Ok(())
}

/// The longest arena and ledger, with some blocks of every size.
fn at_the_bounds(run: &mut Run) -> Result<(), Stop> {
    let bytes = ARENA as u64 * WORD;
    let mut both = SideBySide::new(run.port, &mut run.tally);
    for (words, ledger) in [
        (ARENA + 1, 1),
        (2, LEDGER + 1),
        (1, LEDGER),
        (2, LEDGER),
        (ARENA, LEDGER),
    ] {
        both.call(Call::Make {
            order: 24,
            words,
            ledger,
        })?;
    }
    both.call(Call::Add {
        start: 8,
        end: bytes + 1,
    })?;
    both.call(Call::Init {
        start: 8,
        size: bytes - 8,
    })?;
    let mut held = Vec::new();
    for turn in 0..120 * run.times {
        let (size, align) = (run.numbers.sized(22), 1 << run.numbers.below(12));
        let answer = both.call(Call::Alloc { size, align })?;
        if let Answer::Value(address) = answer {
            held.push((address, size, align));
        }
        if turn % 3 > 0 && !held.is_empty() {
            let place = run.numbers.below(held.len() as u64) as usize;
            let (address, size, align) = held.swap_remove(place);
            both.call(Call::Zero {
                address,
                size,
                align,
            })?;
            both.call(Call::Free {
                address,
                size,
                align,
            })?;
        }
    }
    both.call(Call::Stats).map(|_| ())
}

/// All of an arena in small blocks, free and granted, and in one list.
fn many_blocks(run: &mut Run) -> Result<(), Stop> {
    for order in [4, 5, 7] {
        let words = 2_048;
        let mut both = SideBySide::new(run.port, &mut run.tally);
        both.call(Call::Make {
            order,
            words,
            ledger: 1_024,
        })?;
        both.call(Call::Add {
            start: 8,
            end: words as u64 * WORD,
        })?;
        let mut held = Vec::new();
        for _ in 0..500 * run.times {
            let size = run.numbers.sized(order - 1);
            if let Answer::Value(address) = both.call(Call::Alloc { size, align: 1 })? {
                held.push((address, size));
            }
            if run.numbers.once_in(3) && !held.is_empty() {
                let place = run.numbers.below(held.len() as u64) as usize;
                let (address, size) = held.swap_remove(place);
                both.call(Call::Free {
                    address,
                    size,
                    align: 1,
                })?;
            }
        }
    }
    Ok(())
}
