//! The judge: every call is decided by the document, done by the crate, and the two are held to each other.

use crate::answer::{Answer, Refusal};
use crate::bookkeeping::Bookkeeping;
use crate::call::{Call, Put};
use crate::decision::rounded;
use crate::real_heap::{self, Making, RealArena, RealHeap};
use crate::record::{Memory, WORD};
use crate::same_state;
use crate::soundness::{Clause, Reading};
use frame_oracle::crate_guard::guarded;
use std::alloc::Layout;
use std::fmt;

/// Crate and document gave different answers or hold different states.
#[derive(Clone, PartialEq, Eq, Debug)]
pub struct Parting {
    pub call: Call,
    pub document: String,
    pub did: String,
}

impl fmt::Display for Parting {
    fn fmt(&self, out: &mut fmt::Formatter) -> fmt::Result {
        write!(
            out,
            "{}: the document says {}, the crate did {}",
            self.call, self.document, self.did
        )
    }
}

/// The crate's heap and its memory, as long as it can follow.
struct Real {
    heap: Box<dyn RealHeap>,
    arena: RealArena,
}

#[derive(Default)]
pub struct Judge {
    paper: Bookkeeping,
    real: Option<Real>,
    asked: u64,
}

impl Judge {
    /// Nothing made and nothing lent.
    pub fn new() -> Judge {
        Judge::default()
    }

    /// Any line; the answer is the document's, and the crate has been held to it as far as it can follow.
    pub fn call(&mut self, call: Call) -> Result<Answer, Parting> {
        let recount = self.recount(call);
        let moves_a_link = self.moves_a_link(call);
        let answer = self.paper.call(call);
        let accepted = answer.number() == Some(0);
        match call {
            Call::Make { order, .. } => self.begin(accepted, order, Making::New),
            Call::Remake { order } => self.begin(accepted, order, Making::Empty),
            Call::Put(Put::Arena { .. }) if answer == Answer::Outside => {}
            Call::Put(Put::Arena { index, word }) if !moves_a_link => self.write(index, word),
            Call::Put(_) if answer == Answer::Set => self.real = None,
            _ => {}
        }
        let Some(real) = &mut self.real else {
            return Ok(answer);
        };
        if reaches_the_crate(call, &answer) {
            self.asked += 1;
            real.hold_to_answer(call, &answer, recount)?;
        }
        self.hold_to_state(call)?;
        Ok(answer)
    }

    pub fn memory(&self) -> &Memory {
        self.paper.memory()
    }

    pub fn sound(&self) -> Option<&Reading> {
        self.paper.sound()
    }

    pub fn broken(&self) -> &[Clause] {
        self.paper.broken()
    }

    /// How many calls were put to the crate.
    pub fn asked(&self) -> u64 {
        self.asked
    }

    /// A fresh heap of the crate over the arena's words as they are; after a refused making there is none.
    fn begin(&mut self, accepted: bool, order: u64, making: Making) {
        self.real = accepted.then(|| Real {
            heap: real_heap::fresh(order, making),
            arena: RealArena::holding(&self.paper.memory().arena),
        });
    }

    /// A write into a free block's first word, which the crate would take for a link.
    fn moves_a_link(&self, call: Call) -> bool {
        match (call, self.paper.sound()) {
            (Call::Put(Put::Arena { index, .. }), Some(reading)) => {
                reading.free().any(|block| block.address / WORD == index)
            }
            _ => true,
        }
    }

    fn write(&mut self, index: u64, word: u64) {
        if let Some(real) = &mut self.real {
            real.arena.put(index as usize, word);
        }
    }

    /// The nodes that a release will compare, from the positions of the buddies in the crate's lists before it.
    fn recount(&self, call: Call) -> Option<u64> {
        match (call, &self.real) {
            (
                Call::Free {
                    address,
                    size,
                    align,
                },
                Some(real),
            ) if align.is_power_of_two() => Some(real.positions(address, rounded(size, align)?)),
            _ => None,
        }
    }

    fn hold_to_state(&self, call: Call) -> Result<(), Parting> {
        let Some(real) = &self.real else {
            return Ok(());
        };
        let reading = self.paper.sound().ok_or_else(|| Parting {
            call,
            document: format!("a sound heap, and leaves broken: {:?}", self.paper.broken()),
            did: "take part in calls of sound heaps alone".to_string(),
        })?;
        let same = same_state::compare(
            self.paper.memory(),
            reading,
            real.heap.as_ref(),
            &real.arena,
        );
        same.map_err(|difference| Parting {
            call,
            document: difference.document,
            did: format!("leave {}", difference.has),
        })
    }
}

impl Real {
    fn hold_to_answer(
        &mut self,
        call: Call,
        answer: &Answer,
        recount: Option<u64>,
    ) -> Result<(), Parting> {
        let did = match guarded(|| self.ask(call, recount)) {
            Ok(gave) if gave == *answer => return Ok(()),
            Ok(gave) => format!("answer {gave}"),
            Err(message) => format!("stop: {}", message.replace('\n', " ")),
        };
        Err(Parting {
            call,
            document: answer.to_string(),
            did,
        })
    }

    /// Puts an accepted call to the crate, or a grant that finds no block; the answer is in the document's terms.
    fn ask(&mut self, call: Call, recount: Option<u64>) -> Answer {
        let Real { heap, arena } = self;
        // SAFETY of the three: the document accepted the call, so it is what the crate asks of its callers.
        match call {
            Call::Add { start, end } => unsafe {
                heap.add_to_heap(arena.behind_base(start), arena.behind_base(end))
            },
            Call::Init { start, size } => unsafe {
                heap.init(arena.behind_base(start), size as usize)
            },
            Call::Alloc { size, align } => {
                let granted = heap.alloc(layout(size, align).expect("a Layout for what is asked"));
                return match granted {
                    Some(address) => Answer::Value(arena.offset(address as u64)),
                    None => Answer::Refused(Refusal::NoBlock),
                };
            }
            Call::Free {
                address,
                size,
                align,
            } => {
                let layout = layout(size, align).expect("a Layout for a granted size");
                unsafe { heap.dealloc(arena.behind_base(address), layout) };
                return Answer::Value(recount.expect("a count for every accepted release"));
            }
            // The crate has no zero fill: whoever holds the block clears it.
            Call::Zero { address, size, .. } => {
                let first = (address / WORD) as usize;
                (first..first + size.div_ceil(WORD) as usize).for_each(|index| arena.put(index, 0));
            }
            Call::List { class } => {
                let class = usize::try_from(class).unwrap_or(usize::MAX);
                let nodes = heap.iterated(class, arena.words());
                return Answer::Nodes(nodes.iter().map(|node| arena.offset(*node)).collect());
            }
            Call::Stats => return Answer::Figures(heap.stats()),
            Call::Make { .. } | Call::Remake { .. } | Call::Put(_) => {}
        }
        Answer::Value(0)
    }

    /// For each class visited: the pushed block, and the list up to the buddy, or all of it.
    fn positions(&self, address: u64, class: u32) -> u64 {
        let heads = self.heap.heads();
        let mut compared = 0;
        let mut block = address;
        for class in class as usize..heads.len() - 1 {
            let list = self.arena.nodes(heads[class]);
            let buddy = block ^ (1 << class);
            compared += 1;
            match list.iter().position(|node| *node == buddy) {
                Some(place) => compared += place as u64 + 1,
                None => return compared + list.len() as u64,
            }
            block &= !(1 << class);
        }
        compared
    }
}

/// Accepted calls, and refusal 9 on what a `Layout` can hold; the crate checks nothing else.
fn reaches_the_crate(call: Call, answer: &Answer) -> bool {
    match (answer, call) {
        (Answer::Refused(Refusal::NoBlock), Call::Alloc { size, align }) => {
            layout(size, align).is_some()
        }
        _ => answer.number() == Some(0),
    }
}

fn layout(size: u64, align: u64) -> Option<Layout> {
    Layout::from_size_align(size as usize, align as usize).ok()
}
