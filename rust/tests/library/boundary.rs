//! The lengths and the types at the boundary: nothing checks the declarations in `ffi` against the library, so each
//! parameter is handed over with values that a narrower type or another order would change.
use crate::rules::{pattern_bits, METHODS};
use mitongory::{ffi, SCRATCH_CELLS};

/// A search with a fresh scratch, for a pattern with its second run: the number and the answer.
fn search_with(
    text: &[u8],
    n: u64,
    [pattern, fixed]: [&[u8]; 2],
    m: u64,
    [method, mark, budget]: [u32; 3],
    list: &mut [u32],
) -> (u32, [u64; 4]) {
    let (mut scratch, mut answer) = (vec![u64::MAX; SCRATCH_CELLS], [9; 4]);
    let said = ffi::search(text, n, pattern, fixed, m, method, mark, budget, list, &mut scratch, &mut answer);
    (said, answer)
}

/// The same with every bit fixed.
fn search(text: &[u8], n: u64, pattern: &[u8], m: u64, numbers: [u32; 3], list: &mut [u32]) -> (u32, [u64; 4]) {
    search_with(text, n, [pattern, &ALL_FIXED], m, numbers, list)
}

/// A search for a set of patterns, with its two runs and its counts: the number and the answer.
fn search_set(
    text: &[u8],
    n: u64,
    [patterns, fixed]: [&[u8]; 2],
    counts: &[u64],
    [mark, budget]: [u32; 2],
    list: &mut [u32],
) -> (u32, [u64; 4]) {
    let mut answer = [9; 4];
    let said = ffi::search_set(text, n, patterns, fixed, counts, mark, budget, list, &mut answer);
    (said, answer)
}

const ALL_FIXED: [u8; 256] = [0xff; 256];

const ALL: u32 = u32::MAX;
const UNCHANGED: [u64; 4] = [9; 4];

/// Every bit of the method's, mark's and budget's 32 bits counts.
#[test]
fn numbers_of_32_bits() {
    let text = vec![0; 1 << 15];
    let n = 1 << 18;
    for bit in 3..32 {
        for method in 0..=7 {
            assert_eq!(search(&text, n, &[0x80], 1, [1 << bit | method, 0, 1], &mut []), (100, UNCHANGED));
            assert_eq!(ffi::scratch_cells(1 << bit | method, 1, &mut [9]), 100);
        }
    }
    for method in 5..=7 {
        assert_eq!(search(&text, n, &[0x80], 1, [method, 0, 1], &mut []), (100, UNCHANGED));
    }
    for bit in 0..32 {
        let (mark, budget) = (1u32 << bit, 1u32 << bit);
        let want = if u64::from(mark) <= n {
            (0, [0, 0, mark.into(), 2 * u64::from(u64::from(mark) < n)])
        } else {
            (6, UNCHANGED)
        };
        assert_eq!(search(&text, n, &[0x80], 1, [0, mark, 0], &mut []), want);
        assert_eq!(search_set(&text, n, [&[0x80; 2]; 2], &[1, 1], [mark, 0], &mut []), want);
        let made = n.min(budget.into());
        let want = [made, 0, made, 2 * u64::from(made < n)];
        assert_eq!(search(&text, n, &[0x80], 1, [0, 0, budget], &mut []).1, want);
        assert_eq!(search_set(&text, n, [&[0x80; 2]; 2], &[1, 1], [0, budget], &mut []).1, want);
    }
    assert_eq!(search_set(&text, n, [&[0x80]; 2], &[1], [ALL, ALL], &mut []), (6, UNCHANGED));
    assert_eq!(search(&text, n, &[0x80], 1, [0, ALL, ALL], &mut []), (6, UNCHANGED));
    assert_eq!(search(&text, n, &[0x80], 1, [0, n as u32, ALL], &mut []), (0, [0, 0, n, 0]));
}

/// Every bit of the 64 bits of n, of m, of the count of a pattern of a set and of a sheet's count counts.
#[test]
fn counts_of_64_bits() {
    let bytes = [0xff; 300];
    for bit in 31..64 {
        let more = 1u64 << bit;
        assert_eq!(search(&bytes, more | 16, &bytes, 8, [0, 0, ALL], &mut []), (1, UNCHANGED));
        assert_eq!(search_set(&bytes, more | 16, [&bytes; 2], &[8], [0, ALL], &mut []), (1, UNCHANGED));
        assert_eq!(ffi::eight_bits(&bytes, more | 16, 0, &mut [9; 2]), 1);
    }
    for bit in 12..64 {
        let more = 1u64 << bit;
        assert_eq!(search(&bytes, 16, &bytes, more | 8, [0, 0, ALL], &mut []), (3, UNCHANGED));
        for counts in [[more | 8, 8, 8], [8, more | 8, 8], [8, 8, more | 8]] {
            assert_eq!(search_set(&bytes, 16, [&bytes; 2], &counts, [0, ALL], &mut []), (3, UNCHANGED));
        }
        assert_eq!(ffi::hash_value(&bytes, &bytes, more | 8, 0, &mut [9]), 3);
        assert_eq!(ffi::scratch_cells(0, more | 8, &mut [9]), 3);
    }
    for bit in 0..64 {
        assert_eq!(ffi::mark_sitting(&[], &[4, 5, 6], &[3 ^ 1 << bit], &mut [0; 3], &mut [9; 3]), 16);
        let wrapping = [1 << bit, 3u64.wrapping_sub(1 << bit)];
        let want = if bit < 2 { 0 } else { 16 };
        assert_eq!(ffi::mark_sitting(&[], &[4, 5, 6], &wrapping, &mut [0; 6], &mut [9; 3]), want);
    }
    assert_eq!(search(&bytes, u64::MAX, &bytes, u64::MAX, [0, ALL, ALL], &mut []).0, 1);
    assert_eq!(search(&bytes, 16, &bytes, u64::MAX, [3, ALL, ALL], &mut []).0, 3);
    // m = 264 is not 8, and n = 2,400 is not below 2^11.
    assert_eq!(search(&bytes, 2_400, &bytes, 264, [1, 0, ALL], &mut [0; 3_000]), (0, [2_137, 2_137, 2_137, 0]));
}

/// Every length from none on, also for buffers that are not used.
#[test]
fn lengths() {
    let bytes = [0xff; 40];
    for bits in 0..=300u64 {
        for len in 0..=38 {
            let short = (len as u64) < bits.div_ceil(8);
            let want = if short { 2 } else { 3 };
            assert_eq!(search(&bytes[..len], bits, &[], 0, [0, 0, 0], &mut []).0, want);
            let want = if bits == 0 { 3 } else { 4 * u32::from(short) };
            assert_eq!(search(&[], 0, &bytes[..len], bits, [0, 0, 0], &mut []).0, want);
            let want = if bits == 0 { 3 } else { 17 * u32::from(short) };
            assert_eq!(search_with(&[], 0, [&bytes, &bytes[..len]], bits, [0, 0, 0], &mut []).0, want);
            let want = if (1..8).contains(&bits) && !short { 5 } else { want };
            assert_eq!(ffi::hash_value(&bytes, &bytes[..len], bits, 0, &mut [9]), want);
        }
    }
    // The second of two patterns, which begins on the second byte.
    for bits in 1..=300u64 {
        for len in 0..=38 {
            let short = (len as u64) < bits.div_ceil(8);
            let set = |runs| search_set(&[], 0, runs, &[3, bits], [0, 0], &mut []).0;
            assert_eq!(set([&bytes[..=len], &bytes]), 4 * u32::from(short));
            assert_eq!(set([&bytes, &bytes[..=len]]), 17 * u32::from(short));
        }
    }
    for patterns in 0..=130 {
        let want = if (1..=64).contains(&patterns) { 0 } else { 18 };
        assert_eq!(search_set(&[], 0, [&ALL_FIXED; 2], &vec![1; patterns], [0, 0], &mut []).0, want);
    }
    // Three pairs for each of 20 places.
    for cells in 0..=140 {
        let mut list = vec![7; cells];
        let (said, answer) = search_set(&bytes, 20, [&[0xff; 3]; 2], &[1; 3], [0, ALL], &mut list);
        let places = (cells / 6).min(20) as u64;
        assert_eq!((said, answer), (0, [places, 3 * places, places, u64::from(places < 20)]));
        let cell = |i: usize| if i % 2 == 0 { i as u32 / 6 } else { i as u32 / 2 % 3 };
        let written = 6 * places as usize;
        assert!(list.iter().enumerate().all(|(i, &found)| found == if i < written { cell(i) } else { 7 }));
    }
    for cells in 0..=70 {
        let mut list = vec![7; cells];
        let (said, answer) = search(&bytes, 64, &[0x80], 1, [3, 0, ALL], &mut list);
        let places = cells.min(64) as u64;
        assert_eq!((said, answer), (0, [u64::from(cells >= 64), places, places, u64::from(cells < 64)]));
        assert!(list.iter().enumerate().all(|(i, &cell)| cell == if i < 64 { i as u32 } else { 7 }));
    }
    for cells in 0..=12 {
        let (mut report, mut answer) = (vec![7; cells], [9; 4]);
        let said = ffi::mark_sitting(&[0, 6, 12], &[0, 6, 12, 0, 7, 12], &[3, 3, 0], &mut report, &mut answer);
        if cells < 9 {
            assert_eq!((said, report, answer), (9, vec![7; cells], UNCHANGED));
        } else {
            assert_eq!((said, answer), (0, [5, 4, 1, 9]));
            assert_eq!(report, [&[3, 0, 0, 2, 1, 1, 0, 3, 0], &[7; 3][..cells - 9]].concat());
        }
    }
    for answer in 0..6 {
        let want = if answer < 1 { 101 } else { 0 };
        let mut cells = vec![9; answer];
        assert_eq!(ffi::list_size(&[], &mut cells), want);
        assert_eq!(ffi::list_write(&[], &mut [0], &mut cells), want);
        assert_eq!(ffi::list_read(&[0], &mut [], &mut cells), want);
        assert_eq!(ffi::hash_value(&[0], &[0], 8, 0, &mut cells), want);
        assert_eq!(ffi::scratch_cells(0, 8, &mut cells), want);
        let want = if answer < 2 { 101 } else { 0 };
        assert_eq!(ffi::eight_bits(&[0], 8, 0, &mut cells), want);
        assert!(answer < 2 || cells[..2] == [0, 8]);
        let want = if answer < 3 { 101 } else { 0 };
        assert_eq!(ffi::mark_sitting(&[], &[], &[], &mut [], &mut cells), want);
        let want = if answer < 4 { 101 } else { 0 };
        assert_eq!(ffi::search(&[], 0, &[0], &[0], 1, 0, 0, 0, &mut [], &mut [0; 16], &mut cells), want);
        assert_eq!(ffi::search_set(&[], 0, &[0], &[0], &[1], 0, 0, &mut [], &mut cells), want);
    }
}

/// Empty slices everywhere.
#[test]
fn nothing_lent() {
    assert_eq!(ffi::search(&[], 0, &[], &[], 0, 0, 0, 0, &mut [], &mut [], &mut []), 101);
    assert_eq!(ffi::search(&[], 0, &[], &[], 0, 5, 0, 0, &mut [], &mut [], &mut []), 100);
    assert_eq!(ffi::search(&[], 0, &[], &[], 0, 0, 0, 0, &mut [], &mut [], &mut [0; 4]), 3);
    assert_eq!(ffi::search(&[], 0, &[], &[], 1, 0, 0, 0, &mut [], &mut [], &mut [0; 4]), 4);
    assert_eq!(ffi::search(&[], 0, &[0], &[], 1, 0, 0, 0, &mut [], &mut [], &mut [0; 4]), 17);
    assert_eq!(ffi::search(&[], 0, &[0], &[0], 1, 0, 0, 0, &mut [], &mut [], &mut [0; 4]), 7);
    assert_eq!(ffi::search_set(&[], 0, &[], &[], &[], 0, 0, &mut [], &mut []), 101);
    assert_eq!(ffi::search_set(&[], 0, &[], &[], &[], 0, 0, &mut [], &mut [0; 4]), 18);
    assert_eq!(ffi::search_set(&[], 0, &[], &[], &[0], 0, 0, &mut [], &mut [0; 4]), 3);
    assert_eq!(ffi::search_set(&[], 0, &[], &[], &[1], 0, 0, &mut [], &mut [0; 4]), 4);
    assert_eq!(ffi::search_set(&[], 0, &[0], &[], &[1], 0, 0, &mut [], &mut [0; 4]), 17);
    assert_eq!(ffi::search_set(&[], 0, &[0], &[0], &[1], 0, 0, &mut [], &mut [0; 4]), 0);
    assert_eq!(ffi::scratch_cells(0, 0, &mut []), 101);
    assert_eq!(ffi::scratch_cells(5, 0, &mut []), 100);
    assert_eq!(ffi::scratch_cells(0, 0, &mut [0]), 3);
    assert_eq!(ffi::hash_value(&[], &[], 0, 0, &mut []), 101);
    assert_eq!(ffi::hash_value(&[], &[], 0, 0, &mut [0]), 3);
    assert_eq!(ffi::hash_value(&[], &[], 1, 0, &mut [0]), 4);
    assert_eq!(ffi::hash_value(&[0], &[], 1, 0, &mut [0]), 17);
    assert_eq!(ffi::hash_value(&[0], &[0], 1, 0, &mut [0]), 5);
    let mut answer = [9; 2];
    assert_eq!(ffi::eight_bits(&[], 0, 0, &mut []), 101);
    assert_eq!((ffi::eight_bits(&[], 0, 0, &mut answer), answer), (0, [0; 2]));
    assert_eq!(ffi::list_size(&[], &mut []), 101);
    assert_eq!(ffi::list_write(&[], &mut [], &mut []), 101);
    assert_eq!(ffi::list_write(&[], &mut [], &mut [0]), 9);
    assert_eq!(ffi::list_read(&[], &mut [], &mut []), 101);
    assert_eq!(ffi::list_read(&[], &mut [], &mut [0]), 10);
    let mut answer = [9; 3];
    assert_eq!(ffi::mark_sitting(&[], &[], &[], &mut [], &mut []), 101);
    assert_eq!(ffi::mark_sitting(&[], &[], &[0], &mut [], &mut answer), 9);
    assert_eq!((ffi::mark_sitting(&[], &[], &[], &mut [], &mut answer), answer), (0, [0; 3]));
}

/// Slices of bytes at every address modulo 8, since they need no alignment.
#[test]
fn odd_addresses() {
    let bytes: Vec<u8> = (0..64).map(|i: u8| i.wrapping_mul(37)).collect();
    let copy = |from: usize| bytes[from..from + 24].to_vec();
    for (from, method) in (0..8).flat_map(|from| (0..METHODS).map(move |method| (from, method))) {
        let (text, pattern) = (&bytes[from..from + 24], &bytes[from + 5..from + 8]);
        for fixed in [&[0xff; 11], &[0xff, 0xdf, 0xff, 0xff, 0xdf, 0xff, 0xff, 0xdf, 0xff, 0xff, 0xdf]] {
            let fixed = &fixed[from..from + 3];
            let mut list = [0; 8];
            let at_odd = (search_with(text, 190, [pattern, fixed], 20, [method, 0, ALL], &mut list), list);
            let (text, pattern, fixed) = (copy(from), copy(from)[5..8].to_vec(), fixed.to_vec());
            let again = search_with(&text, 190, [&pattern, &fixed], 20, [method, 0, ALL], &mut list);
            assert_eq!(at_odd, (again, list));
            assert_eq!((at_odd.0 .1[1], list[0]), (1, 40));
        }
    }
    // A set of two patterns that lie one after the other in the text too.
    for from in 0..8 {
        let (text, patterns) = (&bytes[from..from + 24], &bytes[from + 5..from + 11]);
        for fixed in [[0xff; 13], [0xdf; 13]] {
            let fixed = &fixed[from..from + 6];
            let mut list = [0; 8];
            let at_odd = (search_set(text, 190, [patterns, fixed], &[20, 24], [0, ALL], &mut list), list);
            let (text, patterns, fixed) = (copy(from), copy(from)[5..11].to_vec(), fixed.to_vec());
            let again = search_set(&text, 190, [&patterns, &fixed], &[20, 24], [0, ALL], &mut list);
            assert_eq!(at_odd, (again, list));
            assert_eq!((at_odd.0 .1, &list[..4]), ([171, 2, 171, 0], &[40, 0, 64, 1][..]));
        }
    }
}

/// Lengths above 2^32 are not cut down to 32 bits. The pages are never touched.
#[test]
fn lengths_of_64_bits() {
    let mut long = vec![0u8; (1 << 32) + 1];
    assert_eq!(search(&long, 9, &[0x80], 1, [0, 0, ALL], &mut []), (0, [9, 0, 9, 0]));
    assert_eq!(search(&[0], 8, &long, 9, [0, 0, ALL], &mut []), (0, [0, 0, 0, 0]));
    let mut answer = [9; 2];
    assert_eq!((ffi::eight_bits(&long, 9, 1, &mut answer), answer), (0, [0, 8]));
    assert_eq!(search_with(&[0], 8, [&[0, 0], &long], 9, [0, 0, ALL], &mut []), (0, [0, 0, 0, 0]));
    assert_eq!(search_set(&long, 9, [&[0x80, 0x40]; 2], &[1, 2], [0, ALL], &mut []), (0, [9, 0, 9, 0]));
    assert_eq!(search_set(&[0], 8, [&long, &[0; 3]], &[9, 8], [0, 0], &mut []), (0, [0, 0, 0, 2]));
    assert_eq!(search_set(&[0], 8, [&[0; 3], &long], &[9, 8], [0, 0], &mut []), (0, [0, 0, 0, 2]));
    assert_eq!(ffi::hash_value(&long, &[0, 0], 9, 1, &mut [0]), 0);
    assert_eq!(ffi::hash_value(&[0, 0], &long, 9, 1, &mut [0]), 0);
    let mut answer = [0];
    assert_eq!((ffi::list_write(&[300], &mut long, &mut answer), answer), (0, [3]));
    assert_eq!(long[..4], [1, 0xac, 2, 0]);
    assert_eq!(ffi::list_read(&long, &mut [0], &mut answer), 13);
}

/// The largest text: 2^30 bits, with the longest pattern that a method takes at its last place only.
#[test]
fn largest_text() {
    let mut text = vec![0; 1 << 27];
    let (n, ones) = (1 << 30, [0xff; 256]);
    for method in 0..METHODS {
        let m = *pattern_bits(method).end() as u64;
        text[(1 << 27) - 256..].fill(0);
        text[((n - m) / 8) as usize..].fill(0xff);
        let mut list = [7; 2];
        let (said, [_, places, mark, stop]) = search(&text, n, &ones, m, [method, 0, ALL], &mut list);
        assert_eq!((said, places, mark, stop, list), (0, 1, n - m + 1, 0, [(n - m) as u32, 7]));
        let from = (n - m) as u32;
        assert_eq!(search(&text, n, &ones, m, [method, from, ALL], &mut []).1, [0, 0, n - m, 1]);
        assert_eq!(search(&text, n, &ones, m, [method, from + 2, ALL], &mut []).0, 6);
    }
    // A set, over the last hundred thousand places: one pattern at the last place, and a longer one nowhere.
    text[(1 << 27) - 256..].fill(0);
    text[(1 << 27) - 8..].fill(0xff);
    let (runs, counts, mut list) = ([&[0xff; 264][..]; 2], [2_048, 64], [7; 3]);
    let mut from = |mark: u64| (search_set(&text, n, runs, &counts, [mark as u32, ALL], &mut list), list);
    assert_eq!(from(n - 100_000), ((0, [100_000 - 63, 1, n - 63, 0]), [(n - 64) as u32, 1, 7]));
    assert_eq!((from(n - 63).0, from(n - 62).0), ((0, [0, 0, n - 63, 0]), (6, UNCHANGED)));
    assert_eq!(search_set(&text, n, runs, &counts, [(n - 64) as u32, ALL], &mut [7]), (0, [0, 0, n - 64, 1]));
    assert_eq!(search_set(&text, n, runs, &counts, [0, 1_000], &mut []), (0, [1_000, 0, 1_000, 2]));
    assert_eq!(search_set(&text, n + 1, runs, &counts, [0, ALL], &mut []).0, 1);
    assert_eq!(search(&text, n + 1, &ones, 64, [0, 0, ALL], &mut []).0, 1);
    let mut answer = [9; 2];
    for (place, want) in [(8, [0xff, 8]), (7, [0xfe, 7]), (1, [0x80, 1]), (0, [0, 0])] {
        assert_eq!((ffi::eight_bits(&text, n, (1 << 30) - place, &mut answer), answer), (0, want));
    }
}
