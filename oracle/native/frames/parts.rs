//! The parts of a run, each a kind of trouble; every part works on any port.

use crate::lives::*;
use crate::port::Port;
use crate::refusals::*;
use crate::side_by_side::{Stop, Tally};
use frame_oracle::random_numbers::RandomNumbers;
use frame_oracle::soundness::Clause;

/// A run of parts on one port; `times` is how often each part does what it does.
pub struct Run<'p> {
    pub port: &'p mut dyn Port,
    pub numbers: RandomNumbers,
    pub tally: Tally,
    pub times: u64,
}

pub type Part = (&'static str, fn(&mut Run) -> Result<(), Stop>);

/// The parts on small tables, and on long ones where a call takes no crate and no list of blocks.
pub const PARTS: [Part; 16] = [
    ("making over any words and any length", making),
    ("tables of 2 words, every ORDER", |run| {
        every_order(run, 2, 300)
    }),
    ("tables of 1 word, every ORDER", |run| {
        every_order(run, 1, 60)
    }),
    ("tables of 64 words, every ORDER", |run| {
        every_order(run, 64, 3_000)
    }),
    ("numbers near 2^32, 2^33, 2^63 and 2^64", near_powers),
    ("tables of any length", any_length),
    ("sound tables that no calls made", not_made_by_calls),
    ("tables with a length out of range", |run| {
        damaged(run, Clause::Length)
    }),
    ("tables with an ORDER out of range", |run| {
        damaged(run, Clause::Order)
    }),
    ("tables with a count out of range", |run| {
        damaged(run, Clause::Count)
    }),
    ("tables with a zero field that is not zero", |run| {
        damaged(run, Clause::ZeroField)
    }),
    ("tables with a word after the last record", |run| {
        damaged(run, Clause::ZeroWords)
    }),
    ("tables with a class that is not below ORDER", |run| {
        damaged(run, Clause::Class)
    }),
    ("tables with a start that is no multiple", |run| {
        damaged(run, Clause::Alignment)
    }),
    ("tables with an end above 2^32", |run| {
        damaged(run, Clause::End)
    }),
    ("tables with an end above the next start", |run| {
        damaged(run, Clause::Next)
    }),
];

/// The parts on long tables, for the proved object alone.
pub const LONG_PARTS: [Part; 5] = [
    ("tables of 4,096 words, every ORDER", |run| {
        every_order(run, 4_096, 1_500)
    }),
    ("tables of 4,096 words, fragmented, every ORDER", |run| {
        (1..=33).try_for_each(|order| fragmented(run, 4_096, order, 1_500, 1_000))
    }),
    ("tables of 65,536 words, every ORDER", |run| {
        every_order(run, 65_536, 100)
    }),
    ("tables of 65,536 words, fragmented", |run| {
        [13, 33]
            .into_iter()
            .try_for_each(|order| fragmented(run, 65_536, order, 4_000, 1_000))
    }),
    (
        "tables of 65,536 words, full of single frames",
        full_of_single_frames,
    ),
];
