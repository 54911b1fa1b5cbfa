//! The oracle for frame tables: the rules of docs/RULES.md held beside the real crate, call by call.
//!
//! `judge::Judge` is what another program uses; the other modules are its parts and the parts of the program `frames`.

pub mod answer;
pub mod block;
pub mod bookkeeping;
pub mod call;
pub mod crate_guard;
pub mod judge;
pub mod line_language;
pub mod line_reader;
pub mod program;
pub mod random_calls;
pub mod random_numbers;
pub mod random_run;
pub mod real_crate;
pub mod rules;
pub mod same_state;
pub mod soundness;
pub mod words;
