//! The faults that the stand-in can be asked for, each of them an error that looks right to somebody.

use crate::soundness::Clause;
use crate::stand_in_sound::CLAUSES;

/// Every fault but the clauses left out, and a list of them, from one place.
macro_rules! faults {
    ($($name:ident)*) => {
        #[derive(Clone, Copy, PartialEq, Eq, Debug)]
        pub enum Fault {
            None,
            $($name,)*
            /// The clause of soundness is not tested.
            Ignores(Clause),
        }

        const NAMED: &[Fault] = &[$(Fault::$name),*];
    };
}

faults! {
    GrantRefusesAlways
    GrantAnswers0
    GrantsUpperHalf
    LowerHalfNotPushed
    GrantClearsItsFirstWord
    LargestClass
    RoomTestedAfterTheSplit
    ReleaseTouchesNothing
    NeverJoins
    JoinsInTheTopClass
    JoinsAtAddTime
    PopsBeforeRemoving
    ListsInAddressOrder
    CountsNothing
    PushedBlockNotCounted
    BuddyNotCounted
    TopClassCounted
    TopBlockNoBound
    Address0Cut
    Range0To7Refused
    EmptyRangeInABlockRefused
    OverlapBeforeRounding
    GrantedNotSeenInOverlap
    EndOfArenaRefused
    AlignmentNotTested
    AlignmentTestedLate
    AlignmentAboveSizeIgnored
    LedgerFullTestedFirst
    LedgerOneLess
    LedgerNotAscending
    RequestedBytesNotCompared
    ClassNotCompared
    ZeroFillClearsTheBlock
    ZeroFillRoundsDown
    ZeroFillOf0ClearsAWord
    RemakeClearsTheArena
    RemakeKeepsTheLedger
    RefusedMakingKeepsTheRecord
    RefusedMakingClearsTheLedger
    SizeBeforeOrder
}

/// Every fault. Three clauses cannot be missed alone by any line: a list that does not end meets itself, and lines lend
/// arena and ledger together, in range or not at all.
pub fn faults() -> Vec<Fault> {
    let unseen = [Clause::ArenaLength, Clause::LedgerLength, Clause::ListsEnd];
    let clauses = CLAUSES
        .into_iter()
        .filter(|clause| !unseen.contains(clause));
    let named = NAMED.iter().copied();
    named.chain(clauses.map(Fault::Ignores)).collect()
}
