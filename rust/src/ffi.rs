//! The library's C calls on slices: numbers in, a number out, nothing interpreted. The rest of the crate is over
//! these; they are public, but hidden, so that tests can hand over any number and any length.
//!
//! Each call returns 0 and fills the front of `answer`, or returns the number of a refusal and changes nothing. Two
//! numbers are not refusals of the rules: [`UNKNOWN_METHOD`] and [`ANSWER_CELLS_MISSING`].
#![allow(unsafe_code)]
// The calls' parameters are fixed by the library.
#![allow(clippy::too_many_arguments)]

/// The method's number is above 4.
pub const UNKNOWN_METHOD: u32 = 100;
/// The answer has fewer cells than the call fills.
pub const ANSWER_CELLS_MISSING: u32 = 101;

/// The answer cells of a read of eight bits, and what they hold: the byte, and how many of its bits lie before n.
pub const EIGHT_CELLS: usize = 2;
pub const BYTE: usize = 0;
pub const COUNT: usize = 1;

// include/mitongory.h says what the library asks of a pointer and its count of elements. A Rust slice gives more than
// that: its pointer is aligned and never NULL, also for no elements; its elements are initialised; and nothing else has
// access to those of a `&mut` slice during the call. Nothing checks these declarations against the library:
// tests/library/boundary.rs tests them.
mod raw {
    extern "C" {
        pub(super) fn mitongory_version_0_8() -> u32;
        pub(super) fn mitongory_search(
            text: *const u8,
            text_len: usize,
            n: u64,
            pattern: *const u8,
            pattern_len: usize,
            fixed: *const u8,
            fixed_len: usize,
            m: u64,
            method: u32,
            mark: u32,
            budget: u32,
            list: *mut u32,
            list_len: usize,
            scratch: *mut u64,
            scratch_len: usize,
            answer: *mut u64,
            answer_len: usize,
        ) -> u32;
        pub(super) fn mitongory_search_set(
            text: *const u8,
            text_len: usize,
            n: u64,
            patterns: *const u8,
            patterns_len: usize,
            fixed: *const u8,
            fixed_len: usize,
            counts: *const u64,
            counts_len: usize,
            mark: u32,
            budget: u32,
            list: *mut u32,
            list_len: usize,
            answer: *mut u64,
            answer_len: usize,
        ) -> u32;
        pub(super) fn mitongory_scratch_cells(method: u32, m: u64, answer: *mut u64, answer_len: usize) -> u32;
        pub(super) fn mitongory_hash_value(
            pattern: *const u8,
            pattern_len: usize,
            fixed: *const u8,
            fixed_len: usize,
            m: u64,
            value: u8,
            answer: *mut u64,
            answer_len: usize,
        ) -> u32;
        pub(super) fn mitongory_eight_bits(
            bytes: *const u8,
            bytes_len: usize,
            n: u64,
            place: u32,
            answer: *mut u64,
            answer_len: usize,
        ) -> u32;
        pub(super) fn mitongory_list_size(
            list: *const u32,
            list_len: usize,
            answer: *mut u64,
            answer_len: usize,
        ) -> u32;
        pub(super) fn mitongory_list_write(
            list: *const u32,
            list_len: usize,
            target: *mut u8,
            target_len: usize,
            answer: *mut u64,
            answer_len: usize,
        ) -> u32;
        pub(super) fn mitongory_list_read(
            file: *const u8,
            file_len: usize,
            cells: *mut u32,
            cells_len: usize,
            answer: *mut u64,
            answer_len: usize,
        ) -> u32;
        pub(super) fn mitongory_mark_sitting(
            key: *const u32,
            key_len: usize,
            sheets: *const u32,
            sheets_len: usize,
            counts: *const u64,
            counts_len: usize,
            report: *mut u32,
            report_len: usize,
            answer: *mut u64,
            answer_len: usize,
        ) -> u32;
    }
}

// Kept in every program, used or not, so that the linker refuses an archive of another version.
#[used]
static VERSION: unsafe extern "C" fn() -> u32 = raw::mitongory_version_0_8;

/// The archive's version, as major * 10,000 + minor * 100 + patch.
#[must_use]
pub fn version() -> u32 {
    // SAFETY: the function takes nothing and returns a number.
    unsafe { raw::mitongory_version_0_8() }
}

/// A search call. A 1 in the run `fixed` is a bit of the pattern that is compared, a 0 one that is wild. Method 0 is plain,
/// 1 hash, 2 skip, 3 wide, 4 tail; the answer's four cells are steps, occurrences, mark and how the call stopped (0 done,
/// 1 full, 2 spent).
pub fn search(
    text: &[u8],
    n: u64,
    pattern: &[u8],
    fixed: &[u8],
    m: u64,
    method: u32,
    mark: u32,
    budget: u32,
    list: &mut [u32],
    scratch: &mut [u64],
    answer: &mut [u64],
) -> u32 {
    // SAFETY: each pointer and length come from one live slice, and the `&mut` slices overlap nothing.
    unsafe {
        raw::mitongory_search(
            text.as_ptr(),
            text.len(),
            n,
            pattern.as_ptr(),
            pattern.len(),
            fixed.as_ptr(),
            fixed.len(),
            m,
            method,
            mark,
            budget,
            list.as_mut_ptr(),
            list.len(),
            scratch.as_mut_ptr(),
            scratch.len(),
            answer.as_mut_ptr(),
            answer.len(),
        )
    }
}

/// A search call for a set of patterns. They lie one after the other in `patterns`, each from a whole byte on, and alike
/// in `fixed`, and `counts` has how many bits each pattern has. An occurrence takes two cells of the list, its place and
/// the number of its pattern. The answer's four cells are those of [`search`].
pub fn search_set(
    text: &[u8],
    n: u64,
    patterns: &[u8],
    fixed: &[u8],
    counts: &[u64],
    mark: u32,
    budget: u32,
    list: &mut [u32],
    answer: &mut [u64],
) -> u32 {
    // SAFETY: each pointer and length come from one live slice, and the `&mut` slices overlap nothing.
    unsafe {
        raw::mitongory_search_set(
            text.as_ptr(),
            text.len(),
            n,
            patterns.as_ptr(),
            patterns.len(),
            fixed.as_ptr(),
            fixed.len(),
            counts.as_ptr(),
            counts.len(),
            mark,
            budget,
            list.as_mut_ptr(),
            list.len(),
            answer.as_mut_ptr(),
            answer.len(),
        )
    }
}

/// How many cells of scratch a method takes for a pattern of m bits, in the answer's first cell.
pub fn scratch_cells(method: u32, m: u64, answer: &mut [u64]) -> u32 {
    // SAFETY: the pointer and the length come from one live `&mut` slice.
    unsafe { raw::mitongory_scratch_cells(method, m, answer.as_mut_ptr(), answer.len()) }
}

/// H of a value for a pattern, in the answer's first cell.
pub fn hash_value(pattern: &[u8], fixed: &[u8], m: u64, value: u8, answer: &mut [u64]) -> u32 {
    // SAFETY: each pointer and length come from one live slice, and the `&mut` slice overlaps nothing.
    unsafe {
        raw::mitongory_hash_value(
            pattern.as_ptr(),
            pattern.len(),
            fixed.as_ptr(),
            fixed.len(),
            m,
            value,
            answer.as_mut_ptr(),
            answer.len(),
        )
    }
}

/// Eight bits from a bit number on, and how many of them lie before n, in the answer's first two cells.
pub fn eight_bits(bytes: &[u8], n: u64, place: u32, answer: &mut [u64]) -> u32 {
    // SAFETY: each pointer and length come from one live slice, and the `&mut` slice overlaps nothing.
    unsafe { raw::mitongory_eight_bits(bytes.as_ptr(), bytes.len(), n, place, answer.as_mut_ptr(), answer.len()) }
}

/// The byte count of a list's file, in the answer's first cell.
pub fn list_size(list: &[u32], answer: &mut [u64]) -> u32 {
    // SAFETY: each pointer and length come from one live slice, and the `&mut` slice overlaps nothing.
    unsafe { raw::mitongory_list_size(list.as_ptr(), list.len(), answer.as_mut_ptr(), answer.len()) }
}

/// Writes a list's file to the front of the target; the byte count is in the answer's first cell.
pub fn list_write(list: &[u32], target: &mut [u8], answer: &mut [u64]) -> u32 {
    // SAFETY: each pointer and length come from one live slice, and the `&mut` slices overlap nothing.
    unsafe {
        raw::mitongory_list_write(
            list.as_ptr(),
            list.len(),
            target.as_mut_ptr(),
            target.len(),
            answer.as_mut_ptr(),
            answer.len(),
        )
    }
}

/// Reads a file's list to the front of the cells; the list's count is in the answer's first cell.
pub fn list_read(file: &[u8], cells: &mut [u32], answer: &mut [u64]) -> u32 {
    // SAFETY: each pointer and length come from one live slice, and the `&mut` slices overlap nothing.
    unsafe {
        raw::mitongory_list_read(
            file.as_ptr(),
            file.len(),
            cells.as_mut_ptr(),
            cells.len(),
            answer.as_mut_ptr(),
            answer.len(),
        )
    }
}

/// Marks sheets against a key. The positions of all sheets lie one after the other in `sheets`, and `counts` has how many
/// each sheet has. The report gets three cells for each sheet: right, missed, false positives; the answer's first three
/// cells are their sums.
pub fn mark_sitting(key: &[u32], sheets: &[u32], counts: &[u64], report: &mut [u32], answer: &mut [u64]) -> u32 {
    // SAFETY: each pointer and length come from one live slice, and the `&mut` slices overlap nothing.
    unsafe {
        raw::mitongory_mark_sitting(
            key.as_ptr(),
            key.len(),
            sheets.as_ptr(),
            sheets.len(),
            counts.as_ptr(),
            counts.len(),
            report.as_mut_ptr(),
            report.len(),
            answer.as_mut_ptr(),
            answer.len(),
        )
    }
}
