//! What is compared: anything that answers calls over lent words. The proved object does so through its C face.

use frame_oracle::answer::Answer;
use frame_oracle::call::Call;
use std::fmt;

/// The numbers that come back: of a summary the three figures, of any other call its value and two zeros.
#[derive(Clone, Copy, PartialEq, Eq, Debug)]
pub struct Reply {
    pub number: u64,
    pub values: [u64; 3],
}

impl Reply {
    pub fn refused(number: u64) -> Reply {
        Reply {
            number,
            values: [0; 3],
        }
    }

    pub fn done(value: u64) -> Reply {
        Reply {
            number: 0,
            values: [value, 0, 0],
        }
    }

    /// What C must get for an answer of the document.
    pub fn expected(answer: Answer) -> Reply {
        let figures = answer.figures();
        let values = match answer {
            Answer::Summed(_) => [figures.granted, figures.managed, figures.largest],
            _ => [answer.value(), 0, 0],
        };
        Reply {
            number: answer.number(),
            values,
        }
    }
}

impl fmt::Display for Reply {
    fn fmt(&self, out: &mut fmt::Formatter) -> fmt::Result {
        let [first, second, third] = self.values;
        write!(out, "number {} with {first} {second} {third}", self.number)
    }
}

pub trait Port {
    fn answer(&mut self, words: &mut [u64], call: Call) -> Reply;
}

/// `lavikety_answer` of include/lavikety.h.
#[repr(C)]
struct CAnswer {
    number: u64,
    value: u64,
}

extern "C" {
    fn lavikety_frame_new(table: *mut u64, words: usize, order: u64) -> CAnswer;
    fn lavikety_frame_add(table: *mut u64, words: usize, start: u64, end: u64) -> CAnswer;
    fn lavikety_frame_alloc(table: *mut u64, words: usize, count: u64) -> CAnswer;
    fn lavikety_frame_alloc_aligned(t: *mut u64, words: usize, size: u64, align: u64) -> CAnswer;
    fn lavikety_frame_alloc_at(table: *mut u64, words: usize, start: u64, count: u64) -> CAnswer;
    fn lavikety_frame_dealloc(table: *mut u64, words: usize, start: u64, count: u64) -> CAnswer;
    fn lavikety_frame_dealloc_aligned(
        table: *mut u64,
        words: usize,
        start: u64,
        size: u64,
        align: u64,
    ) -> CAnswer;
    fn lavikety_frame_summary(table: *const u64, words: usize, figures: *mut u64) -> u64;
}

/// The proved object.
pub struct Native;

impl Port for Native {
    fn answer(&mut self, words: &mut [u64], call: Call) -> Reply {
        let (mut t, n) = (words.as_mut_ptr(), words.len());
        if n == 0 {
            t = std::ptr::null_mut(); // the header allows it
        }
        // SAFETY: the words are lent for the time of the call, and three words are lent for the figures.
        let got = unsafe {
            match call {
                Call::Make { order } => lavikety_frame_new(t, n, order),
                Call::AddFrame { start, end } | Call::Insert { start, end } => {
                    lavikety_frame_add(t, n, start, end)
                }
                Call::Alloc { count } => lavikety_frame_alloc(t, n, count),
                Call::AllocAligned { count, align } => {
                    lavikety_frame_alloc_aligned(t, n, count, align)
                }
                Call::AllocAt { start, count } => lavikety_frame_alloc_at(t, n, start, count),
                Call::Dealloc { start, count } => lavikety_frame_dealloc(t, n, start, count),
                Call::DeallocAligned {
                    start,
                    count,
                    align,
                } => lavikety_frame_dealloc_aligned(t, n, start, count, align),
                Call::Summary => {
                    // a figure that is not written would show
                    let mut values = [u64::MAX; 3];
                    let number = lavikety_frame_summary(t, n, values.as_mut_ptr());
                    return Reply { number, values };
                }
            }
        };
        Reply {
            number: got.number,
            values: [got.value, 0, 0],
        }
    }
}
