//! The oracle for heaps: the rules of docs/RULES.md, "The heap over an arena", held beside the real crate, call by call.
//!
//! `judge::Judge` is what another program uses; the other modules are its parts and the parts of the program `heaps`.
//! Lines, random numbers, cutting, rounding and the guard around the crate are those of the oracle for frame tables.

pub mod answer;
pub mod bookkeeping;
pub mod call;
pub mod decision;
pub mod fault;
pub mod judge;
pub mod ledger;
pub mod line_language;
pub mod links;
pub mod listing;
pub mod random_calls;
pub mod random_damage;
pub mod random_run;
pub mod real_heap;
pub mod record;
pub mod same_state;
pub mod soundness;
pub mod stand_in;
mod stand_in_calls;
pub mod stand_in_sound;
