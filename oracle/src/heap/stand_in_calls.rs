//! The stand-in's adding, granting, releasing and zero fill, over the lists in hand.

use crate::answer::{Answer, Refusal};
use crate::fault::Fault;
use crate::ledger::Grant;
use crate::stand_in::StandIn;
use crate::stand_in_sound::Hand;

impl StandIn {
    pub(crate) fn add(
        &mut self,
        mut hand: Hand,
        start: u128,
        end: u128,
    ) -> Result<Answer, Refusal> {
        let bytes = self.memory.arena.len() as u128 * 8;
        let (first, after) = ((start + 7) & !7, end & !7);
        let empty_at_0 = self.is(Fault::Range0To7Refused) && first == 0 && after == 0;
        let at_the_end = self.is(Fault::EndOfArenaRefused) && end == bytes;
        if start > bytes || end > bytes || first > after || empty_at_0 || at_the_end {
            return Err(Refusal::BadRange);
        }
        if first == 0 && after > 0 && !self.is(Fault::Address0Cut) {
            return Err(Refusal::NullStart);
        }
        if self.meets(&hand, start, end, first, after) {
            return Err(Refusal::Overlap);
        }
        for (class, piece) in self.pieces(first as u64, after as u64) {
            if self.is(Fault::JoinsAtAddTime) {
                self.join(&mut hand, class, piece);
            } else {
                self.push(&mut hand, class, piece);
            }
        }
        self.close(&hand);
        Ok(Answer::Value(0))
    }

    fn meets(&self, hand: &Hand, start: u128, end: u128, first: u128, after: u128) -> bool {
        let (from, to) = match self.fault {
            Fault::OverlapBeforeRounding => (start, end),
            _ => (first, after),
        };
        let mut spans = hand.spans();
        if self.is(Fault::GrantedNotSeenInOverlap) {
            spans.truncate(spans.len() - hand.grants.len());
        }
        let matters = first < after || self.is(Fault::EmptyRangeInABlockRefused);
        matters && spans.iter().any(|span| span.0 < to && from < span.1)
    }

    pub(crate) fn grant(
        &mut self,
        mut hand: Hand,
        size: u64,
        align: u64,
    ) -> Result<Answer, Refusal> {
        let spare = usize::from(self.is(Fault::LedgerOneLess));
        let full = hand.grants.len() + spare >= self.memory.ledger.len();
        if full && self.is(Fault::LedgerFullTestedFirst) {
            return Err(Refusal::NoRoom);
        }
        let class = self.class(size, align);
        let from = self.serving(&hand, class, align)?;
        if full && !self.is(Fault::RoomTestedAfterTheSplit) {
            return Err(Refusal::NoRoom);
        }
        let address = self.split(&mut hand, class, from);
        if full {
            hand.lists[class].insert(0, address);
            self.close(&hand);
            return Err(Refusal::NoRoom);
        }
        if self.is(Fault::GrantClearsItsFirstWord) {
            self.put_word(address, 0);
        }
        let grant = Grant {
            class: class as u32,
            requested: size,
            address,
        };
        self.enter(&mut hand, grant);
        self.close(&hand);
        let told = if self.is(Fault::GrantAnswers0) {
            0
        } else {
            address
        };
        Ok(Answer::Value(told))
    }

    /// The class whose first block serves, after the test of the alignment.
    fn serving(&self, hand: &Hand, class: usize, align: u64) -> Result<usize, Refusal> {
        let bad_align = self.bad_align(align);
        if bad_align && !self.is(Fault::AlignmentTestedLate) {
            return Err(Refusal::BadAlign);
        }
        let top = (self.memory.record.order as usize).min(hand.lists.len());
        let mut serving = (class..top).filter(|class| !hand.lists[*class].is_empty());
        let found = match self.fault {
            Fault::GrantRefusesAlways => None,
            Fault::LargestClass => serving.last(),
            _ => serving.next(),
        };
        let from = found.ok_or(Refusal::NoBlock)?;
        if bad_align {
            return Err(Refusal::BadAlign);
        }
        Ok(from)
    }

    fn bad_align(&self, align: u64) -> bool {
        align.count_ones() != 1 && !self.is(Fault::AlignmentNotTested)
    }

    /// Halves the first block of `from` until it is of `class`; what is kept has been in its list, and keeps that link.
    fn split(&mut self, hand: &mut Hand, class: usize, from: usize) -> u64 {
        let mut address = hand.lists[from].remove(0);
        for half in (class..from).rev() {
            let mut upper = address.wrapping_add(1 << half);
            if self.is(Fault::GrantsUpperHalf) {
                std::mem::swap(&mut address, &mut upper);
            }
            self.push(hand, half, upper);
            if !self.is(Fault::LowerHalfNotPushed) {
                self.put_word(address, upper);
            }
        }
        address
    }

    fn enter(&mut self, hand: &mut Hand, grant: Grant) {
        let before = hand
            .grants
            .iter()
            .filter(|held| held.address < grant.address)
            .count();
        let place = if self.is(Fault::LedgerNotAscending) {
            hand.grants.len()
        } else {
            before
        };
        hand.grants.insert(place, grant);
    }

    pub(crate) fn release(
        &mut self,
        mut hand: Hand,
        address: u64,
        size: u64,
        align: u64,
    ) -> Result<Answer, Refusal> {
        let place = self.find(&hand, address, size, align)?;
        if self.is(Fault::ReleaseTouchesNothing) {
            return Ok(Answer::Value(0));
        }
        let grant = hand.grants.remove(place);
        let compared = self.join(&mut hand, grant.class as usize, address);
        self.close(&hand);
        Ok(Answer::Value(if self.is(Fault::CountsNothing) {
            0
        } else {
            compared
        }))
    }

    pub(crate) fn clear(
        &mut self,
        hand: Hand,
        address: u64,
        size: u64,
        align: u64,
    ) -> Result<Answer, Refusal> {
        let place = self.find(&hand, address, size, align)?;
        let words = match self.fault {
            Fault::ZeroFillClearsTheBlock => 1 << (hand.grants[place].class - 3),
            Fault::ZeroFillRoundsDown => size / 8,
            Fault::ZeroFillOf0ClearsAWord => size.div_ceil(8).max(1),
            _ => size / 8 + u64::from(size % 8 != 0),
        };
        (0..words).for_each(|word| self.put_word(address + 8 * word, 0));
        Ok(Answer::Value(0))
    }

    fn find(&self, hand: &Hand, address: u64, size: u64, align: u64) -> Result<usize, Refusal> {
        let bad_align = self.bad_align(align);
        if bad_align && !self.is(Fault::AlignmentTestedLate) {
            return Err(Refusal::BadAlign);
        }
        let class = self.class(size, align) as u32;
        let found = self.named(
            hand,
            Grant {
                class,
                requested: size,
                address,
            },
        );
        let place = found.ok_or(Refusal::NotGranted)?;
        if bad_align {
            return Err(Refusal::BadAlign);
        }
        Ok(place)
    }

    /// The least class from 3 up whose blocks hold size and alignment; 64 where there is none.
    fn class(&self, size: u64, align: u64) -> usize {
        let align = if self.is(Fault::AlignmentAboveSizeIgnored) {
            1
        } else {
            align
        };
        let wanted = u128::from(size.max(align));
        (3..64).find(|class| 1u128 << class >= wanted).unwrap_or(64)
    }

    /// Puts a block in front of a list: its first word says who was first before.
    fn push(&mut self, hand: &mut Hand, class: usize, address: u64) {
        let first = hand.lists[class].first().copied().unwrap_or(0);
        self.put_word(address, first);
        hand.lists[class].insert(0, address);
        if self.is(Fault::ListsInAddressOrder) {
            hand.lists[class].sort_unstable();
            let list = hand.lists[class].clone();
            for (place, node) in list.iter().enumerate() {
                self.put_word(*node, list.get(place + 1).copied().unwrap_or(0));
            }
        }
    }

    /// Pushes a block and joins it while its buddy is found; the nodes compared, from the buddies' positions.
    fn join(&mut self, hand: &mut Hand, class: usize, address: u64) -> u64 {
        let order = self.memory.record.order as usize;
        let joining = match self.fault {
            Fault::NeverJoins => 0,
            Fault::JoinsInTheTopClass => order.min(32),
            _ => order.saturating_sub(1).min(32),
        };
        let (mut class, mut address, mut compared) = (class, address, 0);
        self.push(hand, class, address);
        while class < joining {
            let buddy = address ^ 1 << class;
            let list = &hand.lists[class];
            let found = list.iter().position(|node| *node == buddy);
            compared += found.map_or(list.len(), |place| place + 1) as u64;
            compared -= u64::from(self.is(Fault::PushedBlockNotCounted));
            let Some(place) = found else {
                return compared;
            };
            compared -= u64::from(self.is(Fault::BuddyNotCounted));
            self.take_both(hand, class, place, address);
            class += 1;
            address = address.min(buddy);
            self.push(hand, class, address);
        }
        let top = hand.lists[class].len() as u64;
        compared
            + if self.is(Fault::TopClassCounted) {
                top
            } else {
                0
            }
    }

    /// Takes out the buddy at `place`, then the released block, which is in front.
    fn take_both(&mut self, hand: &mut Hand, class: usize, place: usize, released: u64) {
        if self.is(Fault::PopsBeforeRemoving) {
            hand.lists[class].remove(0);
            return self.take_out(hand, class, place - 1);
        }
        self.take_out(hand, class, place);
        let own = hand.lists[class].iter().position(|node| *node == released);
        hand.lists[class].remove(own.unwrap_or(0));
    }

    /// Takes out a node: the word of the node before it is written, where there is one.
    fn take_out(&mut self, hand: &mut Hand, class: usize, place: usize) {
        let list = &mut hand.lists[class];
        let next = list.get(place + 1).copied().unwrap_or(0);
        list.remove(place);
        if let Some(before) = place.checked_sub(1).map(|before| list[before]) {
            self.put_word(before, next);
        }
    }
}
