//! Soundness a second time, for the stand-in: blocks compared in pairs, each clause by a test of its own that can be left out.

use crate::ledger::Grant;
use crate::record::Memory;
use crate::soundness::Clause;

/// Every clause, in the sentence's order.
pub const CLAUSES: [Clause; 18] = [
    Clause::ArenaLength,
    Clause::LedgerLength,
    Clause::Order,
    Clause::LedgerCount,
    Clause::HeadsWithoutList,
    Clause::ListsEnd,
    Clause::LedgerZeroField,
    Clause::LedgerAscending,
    Clause::LedgerRest,
    Clause::LedgerClass,
    Clause::LedgerHoldsRequest,
    Clause::Aligned,
    Clause::AboveZero,
    Clause::InsideArena,
    Clause::Disjoint,
    Clause::User,
    Clause::Allocated,
    Clause::Total,
];

/// Lists and grants of a memory, and whether each list came to its end.
pub struct Hand {
    pub lists: Vec<Vec<u64>>,
    pub grants: Vec<Grant>,
    ended: bool,
}

impl Hand {
    pub fn of(memory: &Memory) -> Hand {
        let mut ended = true;
        let mut lists = Vec::new();
        for head in memory.record.heads {
            let mut list = Vec::new();
            let mut node = head;
            while node != 0 && list.len() < memory.arena.len() {
                list.push(node);
                let inside = node % 8 == 0 && node / 8 < memory.arena.len() as u64;
                node = if inside {
                    memory.arena[(node / 8) as usize]
                } else {
                    0
                };
            }
            ended = ended && list.len() < memory.arena.len();
            lists.push(list);
        }
        let counted = memory.ledger.iter().zip(0..memory.record.count);
        let grants = counted.map(|(word, _)| Grant::of_word(*word)).collect();
        Hand {
            lists,
            grants,
            ended,
        }
    }

    /// Every block as start and end, in 128 bits so that no number is too large.
    pub fn spans(&self) -> Vec<(u128, u128)> {
        let mut spans = Vec::new();
        for (class, list) in self.lists.iter().enumerate() {
            spans.extend(
                list.iter()
                    .map(|node| (u128::from(*node), u128::from(*node) + (1 << class))),
            );
        }
        for grant in &self.grants {
            spans.push((
                grant.address.into(),
                u128::from(grant.address) + (1 << grant.class),
            ));
        }
        spans
    }

    pub fn granted_bytes(&self) -> u128 {
        self.grants.iter().map(|grant| 1u128 << grant.class).sum()
    }

    pub fn free_bytes(&self) -> u128 {
        let numbered = self.lists.iter().enumerate();
        numbered
            .map(|(class, list)| (list.len() as u128) << class)
            .sum()
    }

    pub fn requested_bytes(&self) -> u128 {
        self.grants
            .iter()
            .map(|grant| u128::from(grant.requested))
            .sum()
    }

    /// Whether the memory keeps the clause.
    pub fn keeps(&self, memory: &Memory, clause: Clause) -> bool {
        let (record, words) = (&memory.record, memory.arena.len());
        let spans = self.spans();
        match clause {
            Clause::ArenaLength => words >= 2 && words <= 1 << 20,
            Clause::LedgerLength => !memory.ledger.is_empty() && memory.ledger.len() < 1 << 16,
            Clause::Order => record.order >= 4 && record.order <= 33,
            Clause::LedgerCount => record.count <= memory.ledger.len() as u64,
            Clause::HeadsWithoutList => (0..33).all(|class| {
                record.heads[class] == 0 || class >= 3 && (class as u64) < record.order
            }),
            Clause::ListsEnd => self.ended,
            Clause::Aligned => spans.iter().all(|(start, end)| start % (end - start) == 0),
            Clause::AboveZero => spans.iter().all(|(start, _)| *start != 0),
            Clause::InsideArena => spans.iter().all(|(_, end)| *end <= words as u128 * 8),
            Clause::Disjoint => disjoint(&spans),
            Clause::User => self.requested_bytes() == record.user.into(),
            Clause::Allocated => self.granted_bytes() == record.allocated.into(),
            Clause::Total => self.granted_bytes() + self.free_bytes() == record.total.into(),
            _ => self.ledger_keeps(memory, clause),
        }
    }

    fn ledger_keeps(&self, memory: &Memory, clause: Clause) -> bool {
        let count = self.grants.len();
        let order = memory.record.order;
        match clause {
            Clause::LedgerZeroField => {
                (0..count).all(|place| memory.ledger[place] << 30 >> 54 == 0)
            }
            Clause::LedgerAscending => {
                (1..count).all(|place| self.grants[place - 1].address < self.grants[place].address)
            }
            Clause::LedgerRest => {
                (count..memory.ledger.len()).all(|place| memory.ledger[place] == 0)
            }
            Clause::LedgerClass => self
                .grants
                .iter()
                .all(|grant| grant.class >= 3 && u64::from(grant.class) < order),
            _ => self.grants.iter().all(|grant| {
                grant.requested >> grant.class == 0 || grant.requested == 1 << grant.class
            }),
        }
    }
}

fn disjoint(spans: &[(u128, u128)]) -> bool {
    let apart = |one: &(u128, u128), other: &(u128, u128)| one.1 <= other.0 || other.1 <= one.0;
    (1..spans.len()).all(|place| {
        spans[..place]
            .iter()
            .all(|before| apart(before, &spans[place]))
    })
}
