//! A port in plain Rust with one thing wrong, to see that the comparison notices it. With no fault it is right.

use crate::port::{Port, Reply};
use frame_oracle::block::Block;
use frame_oracle::call::Call;
use frame_oracle::rules::{self, Cut, FRAME_LIMIT};
use frame_oracle::soundness::{broken, read, Clause};
use frame_oracle::words::table_words;

#[derive(Clone, Copy, PartialEq, Eq, Debug)]
pub enum Fault {
    None,
    HighestStart,
    LargestClass,
    NeverJoins,
    JoinsInTheTopClass,
    JoinsAtAddTime,
    RoomTestedAfterTheSplit,
    MisalignedBeforeSize,
    ReleaseNotRounded,
    CapacityOneLess,
    CapacityOneMore,
    /// The clause of soundness is not tested; of a length and an ORDER their lower bound still is.
    Ignores(Clause),
    GrantedNotSeenInOverlap,
    LastFrameRefused,
    AlignmentTestedLate,
    LargestRunCountsGranted,
    RefusedGrantKeepsItsStart,
}

pub const FAULTS: [Fault; 23] = [
    Fault::HighestStart,
    Fault::LargestClass,
    Fault::NeverJoins,
    Fault::JoinsInTheTopClass,
    Fault::JoinsAtAddTime,
    Fault::RoomTestedAfterTheSplit,
    Fault::MisalignedBeforeSize,
    Fault::ReleaseNotRounded,
    Fault::CapacityOneLess,
    Fault::CapacityOneMore,
    Fault::Ignores(Clause::Length),
    Fault::Ignores(Clause::Order),
    Fault::Ignores(Clause::Count),
    Fault::Ignores(Clause::ZeroField),
    Fault::Ignores(Clause::ZeroWords),
    Fault::Ignores(Clause::Class),
    Fault::Ignores(Clause::Alignment),
    Fault::Ignores(Clause::Next),
    Fault::GrantedNotSeenInOverlap,
    Fault::LastFrameRefused,
    Fault::AlignmentTestedLate,
    Fault::LargestRunCountsGranted,
    Fault::RefusedGrantKeepsItsStart,
];

pub struct StandIn {
    pub fault: Fault,
}

/// A table in hand: what it says, and how many blocks it has room for.
struct Hand {
    fault: Fault,
    order: u32,
    room: usize,
    blocks: Vec<Block>,
}

impl Port for StandIn {
    fn answer(&mut self, words: &mut [u64], call: Call) -> Reply {
        if let Call::Make { order } = call {
            return make(words, order);
        }
        let Some(mut hand) = self.open(words) else {
            return Reply::refused(3);
        };
        let reply = hand.answer(call);
        let written = self.fault == Fault::RoomTestedAfterTheSplit && reply.number == 11;
        if (reply.number == 0 || written) && hand.blocks.len() < words.len() {
            words.copy_from_slice(&table_words(hand.order, &hand.blocks, words.len()));
        }
        reply
    }
}

impl StandIn {
    fn open(&self, words: &[u64]) -> Option<Hand> {
        let tested = |clause: &Clause| self.fault != Fault::Ignores(*clause);
        let table = read(words);
        if broken(words).iter().any(tested) || words.is_empty() || table.order == 0 {
            return None;
        }
        let room = match self.fault {
            Fault::CapacityOneLess => words.len().saturating_sub(2),
            Fault::CapacityOneMore => words.len(),
            _ => words.len() - 1,
        };
        Some(Hand {
            fault: self.fault,
            order: table.order as u32,
            room,
            blocks: table.blocks,
        })
    }
}

fn make(words: &mut [u64], order: u64) -> Reply {
    if !rules::is_order(order) {
        return Reply::refused(1);
    }
    if !(1..=65_536).contains(&words.len()) {
        return Reply::refused(2);
    }
    words.fill(0);
    words[0] = order << 58;
    Reply::done(0)
}

impl Hand {
    fn answer(&mut self, call: Call) -> Reply {
        match call {
            Call::Make { .. } => unreachable!("made before"),
            Call::AddFrame { start, end } | Call::Insert { start, end } => self.add(start, end),
            Call::Alloc { count } => self.grant(rules::rounded_class(count)),
            Call::AllocAligned { count, align } => self.grant_aligned(count, align),
            Call::AllocAt { start, count } => self.grant_at(start, rules::rounded_class(count)),
            Call::Dealloc { start, count } => self.release(start, count, 1),
            Call::DeallocAligned {
                start,
                count,
                align,
            } => self.release(start, count, align),
            Call::Summary => self.summary(),
        }
    }

    fn add(&mut self, start: u64, end: u64) -> Reply {
        let last_refused = self.fault == Fault::LastFrameRefused && end == FRAME_LIMIT;
        if start > end || end > FRAME_LIMIT || last_refused {
            return Reply::refused(4);
        }
        let seen = |block: &Block| self.fault != Fault::GrantedNotSeenInOverlap || !block.granted;
        let touched = |block: &Block| block.start < end && start < block.end();
        if start < end
            && self
                .blocks
                .iter()
                .any(|block| seen(block) && touched(block))
        {
            return Reply::refused(6);
        }
        let pieces: Vec<Block> = Cut::new(start, end, self.order)
            .take(self.room + 1)
            .collect();
        if self.blocks.len() + pieces.len() > self.room {
            return Reply::refused(11);
        }
        self.blocks.extend(&pieces);
        self.blocks.sort_by_key(|block| block.start);
        if self.fault == Fault::JoinsAtAddTime {
            pieces.iter().for_each(|piece| self.join(*piece));
        }
        Reply::done(0)
    }

    fn grant_aligned(&mut self, count: u64, align: u64) -> Reply {
        let class = rules::aligned_class(count, align.max(1));
        let too_large = class.is_none_or(|class| class >= self.order);
        match align.is_power_of_two() {
            _ if self.fault == Fault::AlignmentTestedLate && too_large => Reply::refused(9),
            true => self.grant(class),
            false => Reply::refused(7),
        }
    }

    fn grant(&mut self, class: Option<u32>) -> Reply {
        let Some(class) = class.filter(|class| *class < self.order) else {
            return Reply::refused(9);
        };
        let (fault, numbered) = (self.fault, self.blocks.iter().enumerate());
        let fitting = numbered.filter(|(_, block)| !block.granted && block.class >= class);
        let found = fitting.min_by_key(|(_, block)| match fault {
            Fault::HighestStart => (block.class, FRAME_LIMIT - block.start),
            Fault::LargestClass => (64 - block.class, block.start),
            _ => (block.class, block.start),
        });
        match found.map(|(place, block)| (place, block.start)) {
            Some((place, start)) => self.split(place, class, start),
            None => Reply::refused(9),
        }
    }

    fn grant_at(&mut self, start: u64, class: Option<u32>) -> Reply {
        let misaligned = |class: u32| start & ((1u64 << class) - 1) != 0;
        if self.fault == Fault::MisalignedBeforeSize && class.is_some_and(misaligned) {
            return Reply::refused(8);
        }
        let Some(class) = class.filter(|class| *class < self.order) else {
            return Reply::refused(9);
        };
        if misaligned(class) {
            return Reply::refused(8);
        }
        let contains = |block: &Block| block.start <= start && start < block.end();
        let serves = |block: &Block| !block.granted && block.class >= class && contains(block);
        match self.blocks.iter().position(serves) {
            Some(place) => self.split(place, class, start),
            None => Reply::refused(9),
        }
    }

    fn split(&mut self, place: usize, class: u32, start: u64) -> Reply {
        let put = rules::halve_towards(self.blocks[place], class, start);
        if self.blocks.len() - 1 + put.len() > self.room {
            if self.fault == Fault::RoomTestedAfterTheSplit {
                self.blocks[place].class -= 1;
            }
            let mut refused = Reply::refused(11);
            if self.fault == Fault::RefusedGrantKeepsItsStart {
                refused.values[0] = start;
            }
            return refused;
        }
        self.blocks.splice(place..place + 1, put);
        Reply::done(start)
    }

    fn release(&mut self, start: u64, count: u64, align: u64) -> Reply {
        if !align.is_power_of_two() {
            return Reply::refused(7);
        }
        let class = rules::aligned_class(count, align);
        let wanted = class.filter(|class| *class < self.order);
        let wanted = wanted.map(|class| Block::granted(class, start));
        let exact = align == 1 && !count.is_power_of_two();
        let refused = self.fault == Fault::ReleaseNotRounded && exact;
        let place = self.blocks.iter().position(|block| Some(*block) == wanted);
        let Some(place) = place.filter(|_| !refused) else {
            return Reply::refused(10);
        };
        self.blocks[place].granted = false;
        self.join(self.blocks[place]);
        Reply::done(0)
    }

    /// Joins the free block with its buddies as far as that goes.
    fn join(&mut self, mut block: Block) {
        let above = u32::from(self.fault == Fault::JoinsInTheTopClass && self.order < 33);
        while self.fault != Fault::NeverJoins && block.class + 1 < self.order + above {
            let buddy = rules::buddy(block);
            if !self.blocks.contains(&buddy) {
                return;
            }
            self.blocks.retain(|one| *one != block && *one != buddy);
            block = rules::joined(block);
            let place = self.blocks.partition_point(|one| one.start < block.start);
            self.blocks.insert(place, block);
        }
    }

    fn summary(&self) -> Reply {
        let mut values = [0; 3];
        for block in &self.blocks {
            values[1] += block.size();
            if block.granted {
                values[0] += block.size();
            }
            if !block.granted || self.fault == Fault::LargestRunCountsGranted {
                values[2] = values[2].max(block.size());
            }
        }
        Reply { number: 0, values }
    }
}
