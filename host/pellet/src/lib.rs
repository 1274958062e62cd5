//! Safe bindings over the C interface of the pick-routine library.
//!
//! Routines have document 01's commands and, from note 1 of document 02, the
//! unsigned quotient (0x0E) and remainder (0x0F). [`space`] is the call of note 2.
//! From note 4 on an input list has one word for each variable, the parameters
//! first and then what the last pick left in the others, and then one for each
//! read in the order of the text.
//!
//! The functions take slices where C takes pointers and lengths, and hand back
//! what C returns: 0, the number of a refusal, [`ANSWER_TOO_SHORT`], or from
//! [`prove`] [`NOT_STANDING`]. What is filled and what is left alone is said in
//! `include/pelletperiod.h`.

/// How many entries every call needs in `answer`.
pub const ANSWER_LEN: usize = 16;

/// Returned when `answer` has fewer than [`ANSWER_LEN`] entries. Nothing is
/// changed then, except that [`judge`] zeroes its five buffers on every return.
pub const ANSWER_TOO_SHORT: u8 = 255;

/// Only so many entries of a buffer are used; a call that needs more refuses
/// the buffer as too small.
pub const MAX_ENTRIES: usize = 16_777_216;

mod judge;
mod prove;

pub use judge::{alike, judge};
pub use prove::{prove, NOT_STANDING};

mod ffi {
    extern "C" {
        pub fn pellet_check(
            routine: *const u8,
            routine_len: usize,
            answer: *mut u64,
            answer_len: usize,
        ) -> u8;

        pub fn pellet_run(
            routine: *const u8,
            routine_len: usize,
            inputs: *const u32,
            inputs_len: usize,
            values: *mut u32,
            values_len: usize,
            trail: *mut u8,
            trail_len: usize,
            answer: *mut u64,
            answer_len: usize,
        ) -> u8;

        pub fn pellet_translate(
            routine: *const u8,
            routine_len: usize,
            access: u8,
            side: u8,
            decisions: *const u8,
            decisions_len: usize,
            words: *mut u32,
            words_len: usize,
            starts: *mut u32,
            starts_len: usize,
            answer: *mut u64,
            answer_len: usize,
        ) -> u8;

        pub fn pellet_space(
            routine: *const u8,
            routine_len: usize,
            access: u8,
            side: u8,
            decisions: *const u8,
            decisions_len: usize,
            answer: *mut u64,
            answer_len: usize,
        ) -> u8;
    }
}

/// Checks a routine. On 0, `answer` begins with the numbers of variables,
/// parameters, arrays, ifs, accesses and reads, and the first command's offset.
pub fn check(routine: &[u8], answer: &mut [u64]) -> u8 {
    // SAFETY: each pointer comes from a slice of the length given with it, so it
    // is not null and is aligned, and the exclusive borrow keeps `answer` apart
    // from `routine`.
    unsafe {
        ffi::pellet_check(
            routine.as_ptr(),
            routine.len(),
            answer.as_mut_ptr(),
            answer.len(),
        )
    }
}

/// Runs a routine on an input list: a word for each variable, which begins with
/// it, and then one for each read. On 0, `answer` begins with 0 for a run that
/// ended, or with 1, the access, the side, whether the index is negative, and its
/// magnitude for one that stopped; `values` and `trail` are filled in both cases.
pub fn run(
    routine: &[u8],
    inputs: &[u32],
    values: &mut [u32],
    trail: &mut [u8],
    answer: &mut [u64],
) -> u8 {
    // SAFETY: as in `check`; the exclusive borrows keep what is written apart
    // from everything else that is lent, and what is only read may overlap.
    unsafe {
        ffi::pellet_run(
            routine.as_ptr(),
            routine.len(),
            inputs.as_ptr(),
            inputs.len(),
            values.as_mut_ptr(),
            values.len(),
            trail.as_mut_ptr(),
            trail.len(),
            answer.as_mut_ptr(),
            answer.len(),
        )
    }
}

/// Translates a routine into clauses that say how a run comes to this access
/// with an index not on this side. On 0, `answer` begins with the numbers of
/// clauses, words and variables; `words` holds the clauses, each as a count and
/// its literals, and `starts` the offset of each count. The variables from 2 on
/// are the bits with which the routine's variables begin.
pub fn translate(
    routine: &[u8],
    access: u8,
    side: u8,
    decisions: &[u8],
    words: &mut [u32],
    starts: &mut [u32],
    answer: &mut [u64],
) -> u8 {
    // SAFETY: as in `run`.
    unsafe {
        ffi::pellet_translate(
            routine.as_ptr(),
            routine.len(),
            access,
            side,
            decisions.as_ptr(),
            decisions.len(),
            words.as_mut_ptr(),
            words.len(),
            starts.as_mut_ptr(),
            starts.len(),
            answer.as_mut_ptr(),
            answer.len(),
        )
    }
}

/// Tells the space that a translation takes, without buffers. On 0, `answer`
/// begins with the numbers of clauses, words and variables that [`translate`]
/// then answers where `words` and `starts` have so many entries and these are
/// at most [`MAX_ENTRIES`].
pub fn space(routine: &[u8], access: u8, side: u8, decisions: &[u8], answer: &mut [u64]) -> u8 {
    // SAFETY: as in `check`.
    unsafe {
        ffi::pellet_space(
            routine.as_ptr(),
            routine.len(),
            access,
            side,
            decisions.as_ptr(),
            decisions.len(),
            answer.as_mut_ptr(),
            answer.len(),
        )
    }
}
