//! The heap a second time, over lists instead of links, with one thing wrong where that is asked for. With no fault it is right.
//!
//! It shows that recorded lines notice a faulty port; with no fault it is a second reading of the rules beside the bookkeeping.

use crate::answer::{Answer, Refusal};
use crate::bookkeeping::Bookkeeping;
use crate::call::Call;
use crate::fault::Fault;
use crate::ledger::Grant;
use crate::record::{Memory, Record};
use crate::soundness::Clause;
use crate::stand_in_sound::{Hand, CLAUSES};
use frame_oracle::rules::Cut;

pub struct StandIn {
    pub(crate) fault: Fault,
    pub(crate) memory: Memory,
}

impl StandIn {
    pub fn new(fault: Fault) -> StandIn {
        StandIn {
            fault,
            memory: Memory::nothing(),
        }
    }

    /// Over memory as it stands.
    pub fn of_memory(fault: Fault, memory: Memory) -> StandIn {
        StandIn { fault, memory }
    }

    pub fn memory(&self) -> &Memory {
        &self.memory
    }

    /// The lists, where the stand-in takes the heap for sound.
    pub fn lists(&self) -> Option<Vec<Vec<u64>>> {
        self.open().map(|hand| hand.lists)
    }

    pub(crate) fn is(&self, fault: Fault) -> bool {
        self.fault == fault
    }

    fn open(&self) -> Option<Hand> {
        let hand = Hand::of(&self.memory);
        let tested = |clause: &Clause| !self.is(Fault::Ignores(*clause));
        let sound = CLAUSES
            .iter()
            .filter(|clause| tested(clause))
            .all(|clause| hand.keeps(&self.memory, *clause));
        sound.then_some(hand)
    }

    pub fn call(&mut self, call: Call) -> Answer {
        match call {
            Call::Make {
                order,
                words,
                ledger,
            } => self.make(order, words, ledger),
            Call::Remake { order } => self.remake(order),
            Call::Put(_) => {
                // Putting a word follows no rule that could be faulty.
                let mut putting = Bookkeeping::of_memory(self.memory.clone());
                let answer = putting.call(call);
                self.memory = putting.memory().clone();
                answer
            }
            _ => self.call_on_heap(call),
        }
    }

    fn call_on_heap(&mut self, call: Call) -> Answer {
        let Some(hand) = self.open() else {
            return match call {
                Call::Stats => Answer::FiguresRefused(Refusal::BadState),
                _ => Answer::Refused(Refusal::BadState),
            };
        };
        let result = match call {
            Call::Add { start, end } => self.add(hand, start.into(), end.into()),
            Call::Init { start, size } => {
                self.add(hand, start.into(), u128::from(start) + u128::from(size))
            }
            Call::Alloc { size, align } => self.grant(hand, size, align),
            Call::Free {
                address,
                size,
                align,
            } => self.release(hand, address, size, align),
            Call::Zero {
                address,
                size,
                align,
            } => self.clear(hand, address, size, align),
            Call::List { class } => Ok(Answer::Nodes(
                hand.lists.get(class as usize).cloned().unwrap_or_default(),
            )),
            _ => {
                let record = &self.memory.record;
                Ok(Answer::Figures([
                    record.user,
                    record.allocated,
                    record.total,
                ]))
            }
        };
        result.unwrap_or_else(Answer::Refused)
    }

    fn make(&mut self, order: u64, words: usize, ledger: usize) -> Answer {
        if let Some(refused) = self.refused_making(order, words, ledger) {
            return refused;
        }
        self.memory = Memory {
            record: Record::fresh(order),
            arena: vec![0; words],
            ledger: vec![0; ledger],
        };
        Answer::Value(0)
    }

    fn remake(&mut self, order: u64) -> Answer {
        if let Some(refused) =
            self.refused_making(order, self.memory.arena.len(), self.memory.ledger.len())
        {
            return refused;
        }
        self.memory.record = Record::fresh(order);
        if !self.is(Fault::RemakeKeepsTheLedger) {
            self.memory.ledger.fill(0);
        }
        if self.is(Fault::RemakeClearsTheArena) {
            self.memory.arena.fill(0);
        }
        Answer::Value(0)
    }

    fn refused_making(&mut self, order: u64, words: usize, ledger: usize) -> Option<Answer> {
        let bad_order = order < 4 || order > 33;
        let bad_size = words < 2 || ledger < 1 || words > 1 << 20 || ledger >= 1 << 16;
        if !bad_order && !bad_size {
            return None;
        }
        if !self.is(Fault::RefusedMakingKeepsTheRecord) {
            self.memory.record = Record::zeros();
        }
        if self.is(Fault::RefusedMakingClearsTheLedger) {
            self.memory.ledger.fill(0);
        }
        let size_first = self.is(Fault::SizeBeforeOrder) && bad_size;
        let refusal = if bad_order && !size_first {
            Refusal::BadOrder
        } else {
            Refusal::BadSize
        };
        Some(Answer::Refused(refusal))
    }

    /// Writes lists' heads, ledger and counters as they follow from what is in hand.
    pub(crate) fn close(&mut self, hand: &Hand) {
        let record = &mut self.memory.record;
        for (head, list) in record.heads.iter_mut().zip(&hand.lists) {
            *head = list.first().copied().unwrap_or(0);
        }
        record.count = hand.grants.len() as u64;
        record.user = hand.requested_bytes() as u64;
        record.allocated = hand.granted_bytes() as u64;
        record.total = (hand.granted_bytes() + hand.free_bytes()) as u64;
        self.memory.ledger.fill(0);
        for (word, grant) in self.memory.ledger.iter_mut().zip(&hand.grants) {
            *word = grant.word();
        }
    }

    pub(crate) fn pieces(&self, start: u64, end: u64) -> Vec<(usize, u64)> {
        let order = if self.is(Fault::TopBlockNoBound) {
            33
        } else {
            self.memory.record.order as u32
        };
        let cut = Cut::new(start, end, order);
        cut.map(|piece| (piece.class as usize, piece.start))
            .collect()
    }

    pub(crate) fn put_word(&mut self, address: u64, word: u64) {
        if let Some(place) = self.memory.arena.get_mut((address / 8) as usize) {
            *place = word;
        }
    }

    /// The grant that is named, by what the fault leaves of start, class and requested bytes.
    pub(crate) fn named(&self, hand: &Hand, wanted: Grant) -> Option<usize> {
        hand.grants.iter().position(|grant| {
            let same_class = grant.class == wanted.class || self.is(Fault::ClassNotCompared);
            let same_bytes =
                grant.requested == wanted.requested || self.is(Fault::RequestedBytesNotCompared);
            grant.address == wanted.address && same_class && same_bytes
        })
    }
}
