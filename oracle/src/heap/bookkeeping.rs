//! A heap as docs/RULES.md has it, without the crate: what every call answers and every word that it leaves.

use crate::answer::{Answer, Refusal};
use crate::call::{Call, Put};
use crate::decision::{decide, Decision};
use crate::ledger::{self, Grant};
use crate::links;
use crate::record::{is_arena_length, is_ledger_length, is_order, Memory, Record, WORD};
use crate::soundness::{self, Clause, Reading};
use frame_oracle::block::Block;

pub struct Bookkeeping {
    memory: Memory,
    reading: Reading,
    broken: Vec<Clause>,
}

impl Bookkeeping {
    /// Nothing made and nothing lent.
    pub fn new() -> Bookkeeping {
        Bookkeeping::of_memory(Memory::nothing())
    }

    /// Any memory at all, sound or not.
    pub fn of_memory(memory: Memory) -> Bookkeeping {
        let reading = soundness::read(&memory);
        let broken = soundness::broken(&memory, &reading);
        Bookkeeping {
            memory,
            reading,
            broken,
        }
    }

    pub fn memory(&self) -> &Memory {
        &self.memory
    }

    /// The clauses of soundness that the memory breaks.
    pub fn broken(&self) -> &[Clause] {
        &self.broken
    }

    /// What the words say, where the heap is sound.
    pub fn sound(&self) -> Option<&Reading> {
        self.broken.is_empty().then_some(&self.reading)
    }

    /// Any call: its answer, and the words as it leaves them.
    pub fn call(&mut self, call: Call) -> Answer {
        let answer = match call {
            Call::Make {
                order,
                words,
                ledger,
            } => self.make(order, words, ledger),
            Call::Remake { order } => self.remake(order),
            Call::Put(put) => self.put(put),
            _ => match decide(&self.memory, self.sound(), call) {
                Ok(decision) => self.carry_out(decision),
                Err(refusal) if call == Call::Stats => Answer::FiguresRefused(refusal),
                Err(refusal) => Answer::Refused(refusal),
            },
        };
        self.reading = soundness::read(&self.memory);
        self.broken = soundness::broken(&self.memory, &self.reading);
        answer
    }

    /// A heap over words lent anew, the arena zeroed by whoever lends it; refused, only the record changes.
    fn make(&mut self, order: u64, words: usize, ledger: usize) -> Answer {
        if let Some(refusal) = making_refused(order, words, ledger) {
            self.memory.record = Record::zeros();
            return Answer::Refused(refusal);
        }
        self.memory = Memory {
            record: Record::fresh(order),
            arena: vec![0; words],
            ledger: vec![0; ledger],
        };
        Answer::Value(0)
    }

    /// A heap over the words lent before: the ledger becomes zeros, the arena is not touched.
    fn remake(&mut self, order: u64) -> Answer {
        let memory = &mut self.memory;
        if let Some(refusal) = making_refused(order, memory.arena.len(), memory.ledger.len()) {
            memory.record = Record::zeros();
            return Answer::Refused(refusal);
        }
        memory.record = Record::fresh(order);
        memory.ledger.fill(0);
        Answer::Value(0)
    }

    fn put(&mut self, put: Put) -> Answer {
        let Memory {
            record,
            arena,
            ledger,
        } = &mut self.memory;
        let (place, value) = match put {
            Put::Arena { index, word } => (arena.get_mut(index as usize), word),
            Put::Ledger { index, word } => (ledger.get_mut(index as usize), word),
            Put::Head { class, address } => (record.heads.get_mut(class), address),
            Put::Count(value) => (Some(&mut record.count), value),
            Put::User(value) => (Some(&mut record.user), value),
            Put::Allocated(value) => (Some(&mut record.allocated), value),
            Put::Total(value) => (Some(&mut record.total), value),
            Put::Order(value) => (Some(&mut record.order), value),
        };
        let Some(place) = place else {
            return Answer::Outside;
        };
        *place = value;
        Answer::Set
    }

    fn carry_out(&mut self, decision: Decision) -> Answer {
        let record = &self.memory.record;
        match decision {
            Decision::Add(pieces) => self.add(&pieces),
            Decision::Grant {
                class,
                from,
                requested,
            } => self.grant(class, from, requested),
            Decision::Release(grant) => self.release(grant),
            Decision::Clear(grant) => self.clear(grant),
            Decision::Nodes(nodes) => Answer::Nodes(nodes),
            Decision::Figures => Answer::Figures([record.user, record.allocated, record.total]),
        }
    }

    fn add(&mut self, pieces: &[Block]) -> Answer {
        for piece in pieces {
            links::push(&mut self.memory, piece.class, piece.start);
            self.memory.record.total += piece.size();
        }
        Answer::Value(0)
    }

    /// Halves from the class that serves down to the wanted one; a split pushes the upper half, then the lower.
    fn grant(&mut self, class: u32, from: u32, requested: u64) -> Answer {
        let memory = &mut self.memory;
        for half in (class..from).rev() {
            let block = links::pop(memory, half + 1).expect("a block to split");
            links::push(memory, half, block + (1 << half));
            links::push(memory, half, block);
        }
        let address = links::pop(memory, class).expect("a block to grant");
        let grant = Grant {
            class,
            requested,
            address,
        };
        ledger::insert(&mut memory.ledger, memory.record.count as usize, grant);
        memory.record.count += 1;
        memory.record.user += requested;
        memory.record.allocated += grant.size();
        Answer::Value(address)
    }

    /// Pushes the block, then joins while the buddy is found; the answer is the number of nodes compared.
    fn release(&mut self, grant: Grant) -> Answer {
        let memory = &mut self.memory;
        ledger::remove(&mut memory.ledger, memory.record.count as usize, grant);
        memory.record.count -= 1;
        memory.record.user -= grant.requested;
        memory.record.allocated -= grant.size();
        let (mut class, mut address, mut compared) = (grant.class, grant.address, 0);
        links::push(memory, class, address);
        while u64::from(class) < memory.record.order - 1 {
            let buddy = address ^ (1 << class);
            let (looked_at, place) = links::look_for(memory, class, buddy);
            compared += looked_at;
            let Some(place) = place else {
                break;
            };
            links::unlink(memory, place);
            links::pop(memory, class).expect("the released block");
            class += 1;
            address = address.min(buddy);
            links::push(memory, class, address);
        }
        Answer::Value(compared)
    }

    /// Clears the words of the requested bytes, rounded up to whole words.
    fn clear(&mut self, grant: Grant) -> Answer {
        let first = (grant.address / WORD) as usize;
        let words = grant.requested.div_ceil(WORD) as usize;
        self.memory.arena[first..first + words].fill(0);
        Answer::Value(0)
    }
}

impl Default for Bookkeeping {
    fn default() -> Bookkeeping {
        Bookkeeping::new()
    }
}

/// Refusal 1 is tested before refusal 2.
fn making_refused(order: u64, words: usize, ledger: usize) -> Option<Refusal> {
    if !is_order(order) {
        return Some(Refusal::BadOrder);
    }
    let lengths_fit = is_arena_length(words) && is_ledger_length(ledger);
    (!lengths_fit).then_some(Refusal::BadSize)
}
