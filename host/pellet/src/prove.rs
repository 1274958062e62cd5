//! The check of a proof.

mod ffi {
    extern "C" {
        pub fn pellet_prove(
            report: *const u8,
            report_len: usize,
            from: usize,
            clauses: u32,
            variables: u32,
            words: *const u32,
            words_len: usize,
            starts: *mut u32,
            starts_len: usize,
            marks: *mut u8,
            marks_len: usize,
            answer: *mut u64,
            answer_len: usize,
        ) -> u8;
    }
}

/// Returned when `words`, `starts`, `marks` or the report do not go with so
/// many clauses and variables. Nothing is changed then, not even `answer`.
pub const NOT_STANDING: u8 = 254;

/// Checks the proof that begins at the offset `from` of a report, against the
/// first `clauses` clauses in `words` and `starts`, over the variables 1 to
/// `variables`. On 0, `answer` begins with the numbers of steps and hints. On 0
/// and on a refusal the first 16,777,216 entries of `starts` and `marks` are
/// zeros.
#[allow(clippy::too_many_arguments)] // They are those of C.
pub fn prove(
    report: &[u8],
    from: usize,
    clauses: u32,
    variables: u32,
    words: &[u32],
    starts: &mut [u32],
    marks: &mut [u8],
    answer: &mut [u64],
) -> u8 {
    // SAFETY: as in `run`.
    unsafe {
        ffi::pellet_prove(
            report.as_ptr(),
            report.len(),
            from,
            clauses,
            variables,
            words.as_ptr(),
            words.len(),
            starts.as_mut_ptr(),
            starts.len(),
            marks.as_mut_ptr(),
            marks.len(),
            answer.as_mut_ptr(),
            answer.len(),
        )
    }
}
