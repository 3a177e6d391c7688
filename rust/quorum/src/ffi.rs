//! The C interface of `include/quorum.h`, each function with its results in a
//! row as the library writes them. All unsafe code is here.
//!
//! The library reads and writes only the memory that it is lent, and returns
//! for every input. A row starts as `u64::MAX`, which is no result.

use std::ops::Range;

extern "C" {
    fn quorum_query(
        numbers: *const u32,
        numbers_len: usize,
        ends: *const u32,
        ends_len: usize,
        threshold: u32,
        allowance: u32,
        answers: *mut u32,
        answers_len: usize,
        certificate: *mut u8,
        certificate_len: usize,
        result: *mut [u64; 7],
    );
    fn quorum_check(
        numbers: *const u32,
        numbers_len: usize,
        ends: *const u32,
        ends_len: usize,
        threshold: u32,
        certificate: *const u8,
        certificate_len: usize,
        result: *mut [u64; 4],
    );
    fn quorum_query_many(
        numbers: *const u32,
        numbers_len: usize,
        ends: *const u32,
        ends_len: usize,
        masks: *const u64,
        masks_len: usize,
        thresholds: *const u32,
        thresholds_len: usize,
        allowance: u32,
        answers: *mut u32,
        answers_len: usize,
        certificate: *mut u8,
        certificate_len: usize,
        results: *mut u64,
        results_len: usize,
        result: *mut [u64; 8],
    );
    fn quorum_query_alone(
        numbers: *const u32,
        numbers_len: usize,
        ends: *const u32,
        ends_len: usize,
        threshold: u32,
        allowance: u32,
        answers: *mut u32,
        answers_len: usize,
        certificate: *mut u8,
        certificate_len: usize,
        result: *mut [u64; 7],
    );
    fn quorum_check_chosen(
        numbers: *const u32,
        numbers_len: usize,
        ends: *const u32,
        ends_len: usize,
        mask: u64,
        threshold: u32,
        certificate: *const u8,
        certificate_len: usize,
        result: *mut [u64; 4],
    );
    fn quorum_query_weighted(
        numbers: *const u32,
        numbers_len: usize,
        ends: *const u32,
        ends_len: usize,
        weights: *const u32,
        weights_len: usize,
        wanted: u32,
        allowance: u32,
        answers: *mut u32,
        answers_len: usize,
        certificate: *mut u8,
        certificate_len: usize,
        result: *mut [u64; 7],
    );
    fn quorum_check_weighted(
        numbers: *const u32,
        numbers_len: usize,
        ends: *const u32,
        ends_len: usize,
        weights: *const u32,
        weights_len: usize,
        wanted: u32,
        certificate: *const u8,
        certificate_len: usize,
        result: *mut [u64; 4],
    );
    fn quorum_pair(
        numbers: *const u32,
        numbers_len: usize,
        ends: *const u32,
        ends_len: usize,
        answers: *mut u32,
        answers_len: usize,
        result: *mut [u64; 3],
    );
    fn quorum_between(
        list: *const u32,
        list_len: usize,
        first: u32,
        last: u32,
        part: *mut [u64; 2],
    );
    fn quorum_probe_bound(ends: *const u32, ends_len: usize, parts: u32, result: *mut [u64; 3]);
    fn quorum_probe_bound_chosen(
        ends: *const u32,
        ends_len: usize,
        mask: u64,
        parts: u32,
        result: *mut [u64; 3],
    );
    fn quorum_lcov_run(
        file: *const u8,
        file_len: usize,
        section: usize,
        run: *mut u32,
        run_len: usize,
        result: *mut [u64; 3],
    );
}

/// Returns refusal, place, answers, parts, bytes, doubling probes and halving
/// probes.
///
/// ```
/// let (mut answers, mut certificate) = ([0; 1], [0; 53]);
/// let row = quorum::ffi::query(&[7, 9, 7], &[2, 3], 2, 0, &mut answers, &mut certificate);
/// assert_eq!(row, [0, 0, 1, 3, 53, 0, 0]);
/// ```
pub fn query(
    numbers: &[u32],
    ends: &[u32],
    threshold: u32,
    allowance: u32,
    answers: &mut [u32],
    certificate: &mut [u8],
) -> [u64; 7] {
    // SAFETY: it reads and writes only what it is lent, and returns.
    unsafe {
        row_of(
            quorum_query,
            numbers,
            ends,
            threshold,
            allowance,
            answers,
            certificate,
        )
    }
}

/// A call with a threshold that writes answers, a certificate and a row.
type Query = unsafe extern "C" fn(
    *const u32,
    usize,
    *const u32,
    usize,
    u32,
    u32,
    *mut u32,
    usize,
    *mut u8,
    usize,
    *mut [u64; 7],
);

/// The row that the call writes.
///
/// # Safety
///
/// The call reads and writes only what it is lent.
#[inline]
unsafe fn row_of(
    call: Query,
    numbers: &[u32],
    ends: &[u32],
    threshold: u32,
    allowance: u32,
    answers: &mut [u32],
    certificate: &mut [u8],
) -> [u64; 7] {
    let mut result = [u64::MAX; 7];
    // SAFETY: each pointer and length are those of one slice, and the slices
    // written to are borrowed by this call alone.
    unsafe {
        call(
            numbers.as_ptr(),
            numbers.len(),
            ends.as_ptr(),
            ends.len(),
            threshold,
            allowance,
            answers.as_mut_ptr(),
            answers.len(),
            certificate.as_mut_ptr(),
            certificate.len(),
            &mut result,
        );
    }
    result
}

/// Returns refusal, place, answers and parts.
///
/// ```
/// // The certificate ends with every bin uncovered.
/// assert_eq!(quorum::ffi::check(&[7], &[1], 1, &[]), [9, 0, 0, 0]);
/// ```
pub fn check(numbers: &[u32], ends: &[u32], threshold: u32, certificate: &[u8]) -> [u64; 4] {
    let mut result = [u64::MAX; 4];
    // SAFETY: each pointer and length are those of one slice; only `result`
    // is written to.
    unsafe {
        quorum_check(
            numbers.as_ptr(),
            numbers.len(),
            ends.as_ptr(),
            ends.len(),
            threshold,
            certificate.as_ptr(),
            certificate.len(),
            &mut result,
        );
    }
    result
}

/// Returns refusal, place, question, answers, parts, bytes, doubling probes and
/// halving probes.
///
/// ```
/// let (mut answers, mut certificate, mut results) = ([0; 2], [0; 106], [0; 4]);
/// let row = quorum::ffi::query_many(
///     &[7, 9, 7],
///     &[2, 3],
///     &[0b11, 0b10],
///     &[2, 1],
///     0,
///     &mut answers,
///     &mut certificate,
///     &mut results,
/// );
/// assert_eq!(row, [0, 0, 0, 2, 6, 106, 0, 0]);
/// assert_eq!(results, [1, 53, 2, 106]);
/// ```
#[allow(clippy::too_many_arguments)]
pub fn query_many(
    numbers: &[u32],
    ends: &[u32],
    masks: &[u64],
    thresholds: &[u32],
    allowance: u32,
    answers: &mut [u32],
    certificate: &mut [u8],
    results: &mut [u64],
) -> [u64; 8] {
    let mut result = [u64::MAX; 8];
    // SAFETY: as in `row_of`.
    unsafe {
        quorum_query_many(
            numbers.as_ptr(),
            numbers.len(),
            ends.as_ptr(),
            ends.len(),
            masks.as_ptr(),
            masks.len(),
            thresholds.as_ptr(),
            thresholds.len(),
            allowance,
            answers.as_mut_ptr(),
            answers.len(),
            certificate.as_mut_ptr(),
            certificate.len(),
            results.as_mut_ptr(),
            results.len(),
            &mut result,
        );
    }
    result
}

/// Returns refusal, place, answers, parts, bytes, doubling probes and halving
/// probes.
///
/// ```
/// let (mut answers, mut certificate) = ([0; 1], [0; 53]);
/// // {7, 9} and {7}: the second run does not hold 9.
/// let row = quorum::ffi::query_alone(&[7, 9, 7], &[2, 3], 1, 0, &mut answers, &mut certificate);
/// assert_eq!((row, answers), ([0, 0, 1, 3, 53, 0, 0], [9]));
/// ```
pub fn query_alone(
    numbers: &[u32],
    ends: &[u32],
    threshold: u32,
    allowance: u32,
    answers: &mut [u32],
    certificate: &mut [u8],
) -> [u64; 7] {
    // SAFETY: as in `query`.
    unsafe {
        row_of(
            quorum_query_alone,
            numbers,
            ends,
            threshold,
            allowance,
            answers,
            certificate,
        )
    }
}

/// Returns refusal, place, answers and parts.
///
/// ```
/// // No run is chosen.
/// assert_eq!(quorum::ffi::check_chosen(&[7], &[1], 0, 1, &[]), [13, 0, 0, 0]);
/// ```
pub fn check_chosen(
    numbers: &[u32],
    ends: &[u32],
    mask: u64,
    threshold: u32,
    certificate: &[u8],
) -> [u64; 4] {
    let mut result = [u64::MAX; 4];
    // SAFETY: as in `check`.
    unsafe {
        quorum_check_chosen(
            numbers.as_ptr(),
            numbers.len(),
            ends.as_ptr(),
            ends.len(),
            mask,
            threshold,
            certificate.as_ptr(),
            certificate.len(),
            &mut result,
        );
    }
    result
}

/// Returns refusal, place, answers, parts, bytes, doubling probes and halving
/// probes.
///
/// ```
/// let (mut answers, mut certificate) = ([0; 2], [0; 87]);
/// // {7, 9} and {7}: the first run counts for two.
/// let row = quorum::ffi::query_weighted(
///     &[7, 9, 7],
///     &[2, 3],
///     &[2, 1],
///     2,
///     0,
///     &mut answers,
///     &mut certificate,
/// );
/// assert_eq!((row, answers), ([0, 0, 2, 5, 87, 0, 0], [7, 9]));
/// ```
pub fn query_weighted(
    numbers: &[u32],
    ends: &[u32],
    weights: &[u32],
    wanted: u32,
    allowance: u32,
    answers: &mut [u32],
    certificate: &mut [u8],
) -> [u64; 7] {
    let mut result = [u64::MAX; 7];
    // SAFETY: as in `row_of`.
    unsafe {
        quorum_query_weighted(
            numbers.as_ptr(),
            numbers.len(),
            ends.as_ptr(),
            ends.len(),
            weights.as_ptr(),
            weights.len(),
            wanted,
            allowance,
            answers.as_mut_ptr(),
            answers.len(),
            certificate.as_mut_ptr(),
            certificate.len(),
            &mut result,
        );
    }
    result
}

/// Returns refusal, place, answers and parts.
///
/// ```
/// // There is a weight too few.
/// assert_eq!(quorum::ffi::check_weighted(&[7], &[1], &[], 1, &[]), [17, 1, 0, 0]);
/// ```
pub fn check_weighted(
    numbers: &[u32],
    ends: &[u32],
    weights: &[u32],
    wanted: u32,
    certificate: &[u8],
) -> [u64; 4] {
    let mut result = [u64::MAX; 4];
    // SAFETY: as in `check`.
    unsafe {
        quorum_check_weighted(
            numbers.as_ptr(),
            numbers.len(),
            ends.as_ptr(),
            ends.len(),
            weights.as_ptr(),
            weights.len(),
            wanted,
            certificate.as_ptr(),
            certificate.len(),
            &mut result,
        );
    }
    result
}

/// Returns refusal, place and answers.
///
/// ```
/// let mut answers = [0; 2];
/// // {7, 9} and {7}.
/// let row = quorum::ffi::pair(&[7, 9, 7], &[2, 3], &mut answers);
/// assert_eq!((row, answers), ([0, 0, 1], [7, 0]));
/// ```
pub fn pair(numbers: &[u32], ends: &[u32], answers: &mut [u32]) -> [u64; 3] {
    let mut result = [u64::MAX; 3];
    // SAFETY: as in `row_of`.
    unsafe {
        quorum_pair(
            numbers.as_ptr(),
            numbers.len(),
            ends.as_ptr(),
            ends.len(),
            answers.as_mut_ptr(),
            answers.len(),
            &mut result,
        );
    }
    result
}

/// Returns the places of the list that the part has.
///
/// ```
/// assert_eq!(quorum::ffi::between(&[2, 5, 9], 3, 9), 1..3);
/// ```
pub fn between(list: &[u32], first: u32, last: u32) -> Range<u64> {
    let mut part = [u64::MAX; 2];
    // SAFETY: as in `check`, with `part` for `result`.
    unsafe { quorum_between(list.as_ptr(), list.len(), first, last, &mut part) };
    part[0]..part[1]
}

/// Returns refusal, place and bound.
///
/// ```
/// assert_eq!(quorum::ffi::probe_bound(&[3, 7, 9], 6), [0, 0, 84]);
/// ```
pub fn probe_bound(ends: &[u32], parts: u32) -> [u64; 3] {
    let mut result = [u64::MAX; 3];
    // SAFETY: as in `check`.
    unsafe { quorum_probe_bound(ends.as_ptr(), ends.len(), parts, &mut result) };
    result
}

/// Returns refusal, place and bound.
///
/// ```
/// assert_eq!(quorum::ffi::probe_bound_chosen(&[3, 7, 9], 0b11, 5), [0, 0, 50]);
/// ```
pub fn probe_bound_chosen(ends: &[u32], mask: u64, parts: u32) -> [u64; 3] {
    let mut result = [u64::MAX; 3];
    // SAFETY: as in `check`.
    unsafe { quorum_probe_bound_chosen(ends.as_ptr(), ends.len(), mask, parts, &mut result) };
    result
}

/// Returns refusal, place and the count of numbers written.
///
/// ```
/// let mut run = [0; 2];
/// let row = quorum::ffi::lcov_run(b"SF:a.c\nDA:4,1\nDA:7,0\nend_of_record\n", 0, &mut run);
/// assert_eq!((row, run), ([0, 0, 1], [4, 0]));
/// ```
pub fn lcov_run(file: &[u8], section: usize, run: &mut [u32]) -> [u64; 3] {
    let mut result = [u64::MAX; 3];
    // SAFETY: as in `row_of`.
    unsafe {
        quorum_lcov_run(
            file.as_ptr(),
            file.len(),
            section,
            run.as_mut_ptr(),
            run.len(),
            &mut result,
        );
    }
    result
}
