//! The judging of reports, and their likeness.

mod ffi {
    extern "C" {
        pub fn pellet_judge(
            routine: *const u8,
            routine_len: usize,
            report: *const u8,
            report_len: usize,
            words: *mut u32,
            words_len: usize,
            starts: *mut u32,
            starts_len: usize,
            marks: *mut u8,
            marks_len: usize,
            values: *mut u32,
            values_len: usize,
            trail: *mut u8,
            trail_len: usize,
            answer: *mut u64,
            answer_len: usize,
        ) -> u8;

        pub fn pellet_alike(
            routine: *const u8,
            routine_len: usize,
            first: *const u8,
            first_len: usize,
            second: *const u8,
            second_len: usize,
            answer: *mut u64,
            answer_len: usize,
        ) -> u8;
    }
}

/// Judges a report: an access, a side, a decision for each if, an input list of
/// four bytes a word, and a proof. On 0, the claim holds on every run, from any
/// leftovers, and `answer` holds the access, the side, the array, its size,
/// whether the index is negative, its magnitude, and the numbers of steps and
/// hints. On every return, [`ANSWER_TOO_SHORT`](crate::ANSWER_TOO_SHORT) too,
/// the first 16,777,216 entries of all five buffers are zeros.
#[allow(clippy::too_many_arguments)] // They are those of C.
pub fn judge(
    routine: &[u8],
    report: &[u8],
    words: &mut [u32],
    starts: &mut [u32],
    marks: &mut [u8],
    values: &mut [u32],
    trail: &mut [u8],
    answer: &mut [u64],
) -> u8 {
    // SAFETY: as in `run`.
    unsafe {
        ffi::pellet_judge(
            routine.as_ptr(),
            routine.len(),
            report.as_ptr(),
            report.len(),
            words.as_mut_ptr(),
            words.len(),
            starts.as_mut_ptr(),
            starts.len(),
            marks.as_mut_ptr(),
            marks.len(),
            values.as_mut_ptr(),
            values.len(),
            trail.as_mut_ptr(),
            trail.len(),
            answer.as_mut_ptr(),
            answer.len(),
        )
    }
}

/// Says whether two reports name the same access and side. On 0, `answer`
/// begins with 1 where they do and 0 where not.
pub fn alike(routine: &[u8], first: &[u8], second: &[u8], answer: &mut [u64]) -> u8 {
    // SAFETY: as in `run`.
    unsafe {
        ffi::pellet_alike(
            routine.as_ptr(),
            routine.len(),
            first.as_ptr(),
            first.len(),
            second.as_ptr(),
            second.len(),
            answer.as_mut_ptr(),
            answer.len(),
        )
    }
}
