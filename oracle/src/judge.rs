//! The judge: every call is decided by the document, done by the crate, and the two are held to each other.

use crate::answer::{Answer, Figures, Refusal};
use crate::block::Block;
use crate::bookkeeping::Bookkeeping;
use crate::call::Call;
use crate::crate_guard::guarded;
use crate::real_crate::{self, RealAllocator};
use crate::same_state;
use crate::soundness;
use crate::words;
use std::alloc::Layout;
use std::fmt;

/// Crate and document gave different answers or hold different states.
#[derive(Clone, PartialEq, Eq, Debug)]
pub struct Parting {
    pub call: Call,
    pub document: String,
    pub did: String,
}

impl fmt::Display for Parting {
    fn fmt(&self, out: &mut fmt::Formatter) -> fmt::Result {
        write!(
            out,
            "{}: the document says {}, the crate did {}",
            self.call, self.document, self.did
        )
    }
}

/// What the crate gave back, in the crate's own terms.
#[derive(PartialEq, Eq)]
enum Gave {
    Unit,
    Some(u64),
    None,
    Fields(Figures),
}

impl fmt::Display for Gave {
    fn fmt(&self, out: &mut fmt::Formatter) -> fmt::Result {
        match self {
            Gave::Unit => write!(out, "return"),
            Gave::Some(start) => write!(out, "answer {start}"),
            Gave::None => write!(out, "answer None"),
            Gave::Fields(figures) => write!(out, "hold {figures}"),
        }
    }
}

pub struct Judge {
    paper: Bookkeeping,
    real: Box<dyn RealAllocator>,
}

impl Judge {
    /// A fresh table of `words` words (1 to 65,536), or refusal 1 or 2.
    pub fn new(words: usize, order: u64) -> Result<Judge, Refusal> {
        let paper = Bookkeeping::new(words, order)?;
        let real = real_crate::fresh(paper.order());
        Ok(Judge { paper, real })
    }

    /// The table of these words, with the crate's fields set to what it says; nothing where it is not sound.
    pub fn of_table(words: &[u64]) -> Option<Judge> {
        if !soundness::broken(words).is_empty() {
            return None;
        }
        let table = soundness::read(words);
        let order = table.order as u32;
        let mut real = real_crate::fresh(order);
        real.load(&table.blocks);
        let paper = Bookkeeping::holding(words.len(), order, table.blocks);
        Some(Judge { paper, real })
    }

    /// Makes the table anew on the same words; refused, it keeps the table.
    pub fn make(&mut self, order: u64) -> Result<Answer, Parting> {
        self.call(Call::Make { order })
    }

    pub fn add_frame(&mut self, start: u64, end: u64) -> Result<Answer, Parting> {
        self.call(Call::AddFrame { start, end })
    }

    pub fn insert(&mut self, start: u64, end: u64) -> Result<Answer, Parting> {
        self.call(Call::Insert { start, end })
    }

    pub fn alloc(&mut self, count: u64) -> Result<Answer, Parting> {
        self.call(Call::Alloc { count })
    }

    pub fn alloc_aligned(&mut self, count: u64, align: u64) -> Result<Answer, Parting> {
        self.call(Call::AllocAligned { count, align })
    }

    pub fn alloc_at(&mut self, start: u64, count: u64) -> Result<Answer, Parting> {
        self.call(Call::AllocAt { start, count })
    }

    pub fn dealloc(&mut self, start: u64, count: u64) -> Result<Answer, Parting> {
        self.call(Call::Dealloc { start, count })
    }

    pub fn dealloc_aligned(
        &mut self,
        start: u64,
        count: u64,
        align: u64,
    ) -> Result<Answer, Parting> {
        self.call(Call::DeallocAligned {
            start,
            count,
            align,
        })
    }

    pub fn summary(&mut self) -> Result<Answer, Parting> {
        self.call(Call::Summary)
    }

    /// Any call; the answer is the document's, and the crate has been held to it.
    pub fn call(&mut self, call: Call) -> Result<Answer, Parting> {
        let decided = self.paper.decide(call);
        let answer = match &decided {
            Ok(change) => change.answer,
            Err(refusal) => Answer::Refused(*refusal),
        };
        if reaches_the_crate(call, answer) {
            self.hold_to_answer(call, answer)?;
        }
        if let Ok(change) = decided {
            self.paper.apply(call, change);
        }
        self.hold_to_state(call)?;
        Ok(answer)
    }

    pub fn order(&self) -> u32 {
        self.paper.order()
    }

    pub fn blocks(&self) -> &[Block] {
        self.paper.blocks()
    }

    /// The summary read from the crate's own fields and free sets.
    pub fn figures_of_crate(&self) -> Figures {
        self.real.figures()
    }

    /// The table's words in the layout of docs/RULES.md.
    pub fn words(&self) -> Vec<u64> {
        words::table_words(self.paper.order(), self.paper.blocks(), self.paper.length())
    }

    fn hold_to_answer(&mut self, call: Call, answer: Answer) -> Result<(), Parting> {
        let expected = match answer {
            Answer::Done => Gave::Unit,
            Answer::Start(start) => Gave::Some(start),
            Answer::Summed(figures) => Gave::Fields(figures),
            Answer::Refused(_) => Gave::None,
        };
        let did = match guarded(|| ask(&mut self.real, call)) {
            Ok(gave) if gave == expected => return Ok(()),
            Ok(gave) => gave.to_string(),
            Err(message) => format!("stop: {}", message.replace('\n', " ")),
        };
        Err(Parting {
            call,
            document: answer.to_string(),
            did,
        })
    }

    fn hold_to_state(&self, call: Call) -> Result<(), Parting> {
        let same = same_state::compare(self.paper.blocks(), self.paper.order(), self.real.as_ref());
        same.map_err(|difference| Parting {
            call,
            document: difference.document,
            did: format!("leave {}", difference.has),
        })
    }
}

/// Accepted calls, and refusals 8 and 9 on counts up to 2^63 that a `Layout` can hold; the crate checks no others.
fn reaches_the_crate(call: Call, answer: Answer) -> bool {
    match (answer, call) {
        (Answer::Refused(Refusal::Misaligned | Refusal::NoBlock), call) => match call {
            Call::Alloc { count } | Call::AllocAt { count, .. } => count <= 1 << 63,
            Call::AllocAligned { count, align } => layout(count, align).is_some(),
            _ => false,
        },
        (Answer::Refused(_), _) => false,
        _ => true,
    }
}

fn layout(count: u64, align: u64) -> Option<Layout> {
    Layout::from_size_align(count as usize, align as usize).ok()
}

/// Puts the call to the crate; an aligned one comes here only where a `Layout` holds it.
fn ask(real: &mut Box<dyn RealAllocator>, call: Call) -> Gave {
    let held = |count, align| layout(count, align).expect("a Layout for an accepted size");
    let granted =
        |answer: Option<usize>| answer.map_or(Gave::None, |start| Gave::Some(start as u64));
    match call {
        Call::Make { order } => *real = real_crate::fresh(order as u32),
        Call::AddFrame { start, end } => real.add_frame(start as usize, end as usize),
        Call::Insert { start, end } => real.insert(start as usize, end as usize),
        Call::Alloc { count } => return granted(real.alloc(count as usize)),
        Call::AllocAligned { count, align } => {
            return granted(real.alloc_aligned(held(count, align)))
        }
        Call::AllocAt { start, count } => {
            return granted(real.alloc_at(start as usize, count as usize))
        }
        Call::Dealloc { start, count } => real.dealloc(start as usize, count as usize),
        Call::DeallocAligned {
            start,
            count,
            align,
        } => real.dealloc_aligned(start as usize, held(count, align)),
        Call::Summary => return Gave::Fields(real.figures()),
    }
    Gave::Unit
}
