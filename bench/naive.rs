// What a Rust programmer would write first: plain loops over places and bits of packed bytes and over the file's bytes, and
// a binary search for each position of a sheet. The functions at the end give them C names.
use std::slice;

fn bit(bytes: &[u8], p: usize) -> bool {
    bytes[p / 8] >> (7 - p % 8) & 1 == 1
}

/// A byte of up to eight bits from p on, and how many there are.
fn eight_bits(text: &[u8], n: u64, p: u64) -> (u64, u64) {
    (p..p + 8).fold((0, 0), |(byte, count), p| {
        let inside = p < n;
        (2 * byte + u64::from(inside && bit(text, p as usize)), count + u64::from(inside))
    })
}

fn search(n: usize, m: usize, list: &mut [u32], agrees: impl Fn(usize, usize) -> bool) -> usize {
    let mut hits = 0;
    for s in 0..(n + 1).saturating_sub(m) {
        if (0..m).all(|j| agrees(s, j)) {
            list[hits] = s as u32;
            hits += 1;
        }
    }
    hits
}

const LIMIT: u32 = 1 << 30;

fn put(mut x: u32, target: &mut [u8], at: &mut usize) -> Option<()> {
    while x >= 128 {
        *target.get_mut(*at)? = (x % 128 + 128) as u8;
        *at += 1;
        x /= 128;
    }
    *target.get_mut(*at)? = x as u8;
    *at += 1;
    Some(())
}

fn write(list: &[u32], target: &mut [u8]) -> Option<usize> {
    let mut at = 0;
    put(list.len() as u32, target, &mut at)?;
    let mut least = 0;
    for &p in list {
        if p < least || p >= LIMIT {
            return None;
        }
        put(p - least, target, &mut at)?;
        least = p + 1;
    }
    Some(at)
}

fn take(file: &[u8], at: &mut usize) -> Option<u32> {
    let mut value = 0u64;
    for group in 0..5 {
        let byte = *file.get(*at)?;
        *at += 1;
        value |= u64::from(byte & 127) << (7 * group);
        if byte < 128 {
            let fewest = group == 0 || byte != 0;
            return u32::try_from(value).ok().filter(|&x| fewest && x <= LIMIT);
        }
    }
    None
}

fn read(file: &[u8], cells: &mut [u32]) -> Option<usize> {
    let mut at = 0;
    let count = take(file, &mut at)? as usize;
    let mut least = 0;
    for cell in cells.get_mut(..count)? {
        let p = least + take(file, &mut at)?;
        if p >= LIMIT {
            return None;
        }
        *cell = p;
        least = p + 1;
    }
    (at == file.len()).then_some(count)
}

fn rises(list: &[u32]) -> bool {
    list.windows(2).all(|pair| pair[0] < pair[1]) && list.last().is_none_or(|&p| p < LIMIT)
}

fn mark(key: &[u32], sheets: &[u32], counts: &[u64], report: &mut [u32]) -> Option<[u64; 3]> {
    let mut totals = [0; 3];
    let mut rest = sheets;
    if counts.len() > 256 || !rises(key) {
        return None;
    }
    for (i, &count) in counts.iter().enumerate() {
        let (sheet, after) = rest.split_at_checked(usize::try_from(count).ok()?)?;
        if !rises(sheet) {
            return None;
        }
        let right = sheet.iter().filter(|p| key.binary_search(p).is_ok()).count();
        let marks = [right, key.len() - right, sheet.len() - right];
        for (k, cell) in report.get_mut(3 * i..3 * i + 3)?.iter_mut().enumerate() {
            *cell = marks[k] as u32;
            totals[k] += marks[k] as u64;
        }
        rest = after;
    }
    rest.is_empty().then_some(totals)
}

/// # Safety
/// The pointers have the bytes of n and m bits, and cells for every hit. The second run is not read.
#[no_mangle]
pub unsafe extern "C" fn naive_search(
    t: *const u8,
    n: usize,
    w: *const u8,
    _fixed: *const u8,
    m: usize,
    list: *mut u32,
    cells: usize,
) -> usize {
    let (text, pattern) = (slice::from_raw_parts(t, n.div_ceil(8)), slice::from_raw_parts(w, m.div_ceil(8)));
    search(n, m, slice::from_raw_parts_mut(list, cells), |s, j| bit(text, s + j) == bit(pattern, j))
}

/// # Safety
/// The pointers have the bytes of n and m bits, and cells for every hit.
#[no_mangle]
pub unsafe extern "C" fn naive_search_wild(
    t: *const u8,
    n: usize,
    w: *const u8,
    fixed: *const u8,
    m: usize,
    list: *mut u32,
    cells: usize,
) -> usize {
    let (text, pattern) = (slice::from_raw_parts(t, n.div_ceil(8)), slice::from_raw_parts(w, m.div_ceil(8)));
    let fixed = slice::from_raw_parts(fixed, m.div_ceil(8));
    let agrees = |s, j| !bit(fixed, j) || bit(text, s + j) == bit(pattern, j);
    search(n, m, slice::from_raw_parts_mut(list, cells), agrees)
}

/// # Safety
/// Each pointer has as many elements as the number after it says.
#[no_mangle]
pub unsafe extern "C" fn naive_eight_bits(
    text: *const u8,
    text_len: usize,
    n: u64,
    place: u32,
    answer: *mut u64,
    answer_len: usize,
) -> u32 {
    let (text, answer) = (slice::from_raw_parts(text, text_len), slice::from_raw_parts_mut(answer, answer_len));
    if n > 1 << 30 || (text_len as u64) < n.div_ceil(8) {
        return 1;
    }
    (answer[0], answer[1]) = eight_bits(text, n, place.into());
    0
}

/// # Safety
/// Each pointer has as many elements as the number after it says.
#[no_mangle]
pub unsafe extern "C" fn naive_write(list: *const u32, count: usize, target: *mut u8, len: usize) -> usize {
    write(slice::from_raw_parts(list, count), slice::from_raw_parts_mut(target, len)).unwrap_or(usize::MAX)
}

/// # Safety
/// Each pointer has as many elements as the number after it says.
#[no_mangle]
pub unsafe extern "C" fn naive_read(file: *const u8, len: usize, cells: *mut u32, count: usize) -> usize {
    read(slice::from_raw_parts(file, len), slice::from_raw_parts_mut(cells, count)).unwrap_or(usize::MAX)
}

/// # Safety
/// Each pointer has as many elements as the number after it says, and the last has three.
#[no_mangle]
pub unsafe extern "C" fn naive_mark(
    key: *const u32,
    key_len: usize,
    sheets: *const u32,
    sheets_len: usize,
    counts: *const u64,
    counts_len: usize,
    report: *mut u32,
    report_len: usize,
    totals: *mut u64,
) -> bool {
    let (key, sheets) = (slice::from_raw_parts(key, key_len), slice::from_raw_parts(sheets, sheets_len));
    let (counts, report) = (slice::from_raw_parts(counts, counts_len), slice::from_raw_parts_mut(report, report_len));
    let marked = mark(key, sheets, counts, report);
    if let Some(sums) = marked {
        slice::from_raw_parts_mut(totals, 3).copy_from_slice(&sums);
    }
    marked.is_some()
}
