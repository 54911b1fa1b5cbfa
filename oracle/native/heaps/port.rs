//! What is compared: anything that answers calls over a record, an arena and a ledger. The proved object does so through its C face.

use crate::hold::Hold;
use heap_oracle::answer::Answer;
use heap_oracle::call::Call;
use heap_oracle::fault::Fault;
use heap_oracle::record::{Memory, Record, CLASSES};
use heap_oracle::stand_in::StandIn;
use std::fmt;
use std::ptr;

/// The words of a record as C keeps it.
pub const RECORD: usize = 38;

/// The numbers that come back: of the three figures each, of any other call its value and two zeros.
#[derive(Clone, Copy, PartialEq, Eq, Debug)]
pub struct Reply {
    pub number: u64,
    pub values: [u64; 3],
}

impl Reply {
    /// What C must get for an answer of the document.
    pub fn expected(answer: &Answer) -> Reply {
        let values = match answer {
            Answer::Value(value) => [*value, 0, 0],
            Answer::Figures(figures) => *figures,
            _ => [0; 3],
        };
        Reply {
            number: answer.number().expect("a call and not a word put"),
            values,
        }
    }
}

impl fmt::Display for Reply {
    fn fmt(&self, out: &mut fmt::Formatter) -> fmt::Result {
        let [first, second, third] = self.values;
        write!(out, "number {} with {first} {second} {third}", self.number)
    }
}

/// A making of any kind is put to a port as `Call::Remake`, over the words that it is lent.
pub trait Port {
    fn answer(&mut self, lent: &mut Hold, call: Call) -> Reply;
}

pub fn record_words(record: &Record) -> Vec<u64> {
    let after = [record.count, record.user, record.allocated, record.total];
    [&[record.order], &record.heads[..], &after[..]].concat()
}

pub fn record_of(words: &[u64]) -> Record {
    let mut heads = [0; CLASSES];
    heads.copy_from_slice(&words[1..=CLASSES]);
    Record {
        order: words[0],
        heads,
        count: words[34],
        user: words[35],
        allocated: words[36],
        total: words[37],
    }
}

/// `lavikety_answer` of include/lavikety.h.
#[repr(C)]
struct CAnswer {
    number: u64,
    value: u64,
}

extern "C" {
    fn lavikety_heap_new(
        h: *mut u64,
        a: *const u64,
        n: usize,
        l: *mut u64,
        m: usize,
        order: u64,
    ) -> CAnswer;
    fn lavikety_heap_init(
        h: *mut u64,
        a: *mut u64,
        n: usize,
        l: *const u64,
        m: usize,
        start: u64,
        size: u64,
    ) -> CAnswer;
    fn lavikety_heap_add(
        h: *mut u64,
        a: *mut u64,
        n: usize,
        l: *const u64,
        m: usize,
        start: u64,
        end: u64,
    ) -> CAnswer;
    fn lavikety_heap_alloc(
        h: *mut u64,
        a: *mut u64,
        n: usize,
        l: *mut u64,
        m: usize,
        size: u64,
        align: u64,
    ) -> CAnswer;
    fn lavikety_heap_dealloc(
        h: *mut u64,
        a: *mut u64,
        n: usize,
        l: *mut u64,
        m: usize,
        address: u64,
        size: u64,
        align: u64,
    ) -> CAnswer;
    fn lavikety_heap_zero(
        h: *mut u64,
        a: *mut u64,
        n: usize,
        l: *const u64,
        m: usize,
        address: u64,
        size: u64,
        align: u64,
    ) -> CAnswer;
    fn lavikety_heap_stats_alloc_user(
        h: *const u64,
        a: *const u64,
        n: usize,
        l: *const u64,
        m: usize,
    ) -> CAnswer;
    fn lavikety_heap_stats_alloc_actual(
        h: *const u64,
        a: *const u64,
        n: usize,
        l: *const u64,
        m: usize,
    ) -> CAnswer;
    fn lavikety_heap_stats_total_bytes(
        h: *const u64,
        a: *const u64,
        n: usize,
        l: *const u64,
        m: usize,
    ) -> CAnswer;
}

/// The proved object.
pub struct Native;

/// A pointer and a count; the header allows no address for no words.
fn pointer(words: &mut [u64]) -> (*mut u64, usize) {
    match words.len() {
        0 => (ptr::null_mut(), 0),
        count => (words.as_mut_ptr(), count),
    }
}

impl Port for Native {
    fn answer(&mut self, lent: &mut Hold, call: Call) -> Reply {
        let (h, _) = pointer(lent.record.words());
        let (a, n) = pointer(lent.arena.words());
        let (l, m) = pointer(lent.ledger.words());
        // SAFETY: 38 words, and the words of arena and ledger, are lent for the time of the call, and none of them twice.
        let got = unsafe {
            match call {
                Call::Remake { order } => lavikety_heap_new(h, a, n, l, m, order),
                Call::Add { start, end } => lavikety_heap_add(h, a, n, l, m, start, end),
                Call::Init { start, size } => lavikety_heap_init(h, a, n, l, m, start, size),
                Call::Alloc { size, align } => lavikety_heap_alloc(h, a, n, l, m, size, align),
                Call::Free {
                    address,
                    size,
                    align,
                } => lavikety_heap_dealloc(h, a, n, l, m, address, size, align),
                Call::Zero {
                    address,
                    size,
                    align,
                } => lavikety_heap_zero(h, a, n, l, m, address, size, align),
                Call::Stats => return figures(h, a, n, l, m),
                Call::Make { .. } | Call::List { .. } | Call::Put(_) => {
                    unreachable!("no call of C")
                }
            }
        };
        Reply {
            number: got.number,
            values: [got.value, 0, 0],
        }
    }
}

/// The three figures; where their numbers differ, the answer is one that no call gives.
unsafe fn figures(h: *const u64, a: *const u64, n: usize, l: *const u64, m: usize) -> Reply {
    let all = [
        lavikety_heap_stats_alloc_user(h, a, n, l, m),
        lavikety_heap_stats_alloc_actual(h, a, n, l, m),
        lavikety_heap_stats_total_bytes(h, a, n, l, m),
    ];
    let same = all.iter().all(|one| one.number == all[0].number);
    Reply {
        number: if same { all[0].number } else { u64::MAX },
        values: all.map(|one| one.value),
    }
}

/// The oracle's stand-in with one fault.
pub struct Faulty {
    pub fault: Fault,
}

impl Port for Faulty {
    fn answer(&mut self, lent: &mut Hold, call: Call) -> Reply {
        let before = record_of(lent.record.words());
        let mut port = StandIn::of_memory(
            self.fault,
            Memory {
                record: before.clone(),
                arena: lent.arena.words().to_vec(),
                ledger: lent.ledger.words().to_vec(),
            },
        );
        let answer = port.call(call);
        let memory = port.memory();
        // made in place a refused making keeps the record, so that fault stands for the other way round here
        let refused = matches!(call, Call::Remake { .. }) && answer.number() != Some(0);
        let record = match (refused, self.fault == Fault::RefusedMakingKeepsTheRecord) {
            (true, true) => Record::zeros(),
            (true, false) => before,
            (false, _) => memory.record.clone(),
        };
        let words = record_words(&record);
        lent.record.words().copy_from_slice(&words);
        lent.arena.words().copy_from_slice(&memory.arena);
        lent.ledger.words().copy_from_slice(&memory.ledger);
        Reply::expected(&answer)
    }
}

/// Right, but for a word beside the record, the arena or the ledger that an accepted release writes.
#[derive(Clone, Copy, PartialEq, Eq, Debug)]
pub enum Beside {
    BeforeTheRecord,
    AfterTheRecord,
    BeforeTheArena,
    AfterTheArena,
    BeforeTheLedger,
    AfterTheLedger,
}

pub const BESIDE: [Beside; 6] = [
    Beside::BeforeTheRecord,
    Beside::AfterTheRecord,
    Beside::BeforeTheArena,
    Beside::AfterTheArena,
    Beside::BeforeTheLedger,
    Beside::AfterTheLedger,
];

impl Port for Beside {
    fn answer(&mut self, lent: &mut Hold, call: Call) -> Reply {
        let fault = Fault::None;
        let reply = Faulty { fault }.answer(lent, call);
        if reply.number == 0 && matches!(call, Call::Free { .. }) {
            match self {
                Beside::BeforeTheRecord => *lent.record.before() = 0,
                Beside::AfterTheRecord => *lent.record.after() = 0,
                Beside::BeforeTheArena => *lent.arena.before() = 0,
                Beside::AfterTheArena => *lent.arena.after() = 0,
                Beside::BeforeTheLedger => *lent.ledger.before() = 0,
                Beside::AfterTheLedger => *lent.ledger.after() = 0,
            }
        }
        reply
    }
}
