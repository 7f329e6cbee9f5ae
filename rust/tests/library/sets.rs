//! Marking by sets, as its rules are written; shares no code with the crate.
use crate::codec::rises;
use std::collections::BTreeSet;

/// Right, missed and false of a sheet.
fn marks(key: &[u32], sheet: &[u32]) -> [u32; 3] {
    let (key, sheet): (BTreeSet<_>, BTreeSet<_>) = (key.iter().collect(), sheet.iter().collect());
    let counts = [key.intersection(&sheet).count(), key.difference(&sheet).count(), sheet.difference(&key).count()];
    counts.map(|count| count as u32)
}

/// The sums of the three columns of a report.
fn sums(report: &[u32]) -> [u64; 3] {
    [0, 1, 2].map(|column| report.iter().skip(column).step_by(3).map(|&cell| u64::from(cell)).sum())
}

/// Sheets as one run of cells, and a count for each.
pub fn joined(sheets: &[Vec<u32>]) -> (Vec<u32>, Vec<u64>) {
    (sheets.concat(), sheets.iter().map(|sheet| sheet.len() as u64).collect())
}

/// The front of the report and the totals; or the first of 101, 15, 16, 8 and 9 that applies to so many report and
/// answer cells.
pub fn mark(
    key: &[u32],
    cells: &[u32],
    counts: &[u64],
    room: usize,
    answer: usize,
) -> Result<(Vec<u32>, [u64; 3]), u32> {
    if answer < 3 {
        return Err(101);
    }
    if counts.len() > 256 {
        return Err(15);
    }
    if counts.iter().map(|&count| u128::from(count)).sum::<u128>() != cells.len() as u128 {
        return Err(16);
    }
    let (mut rest, mut report) = (cells, Vec::new());
    let mut all_rise = rises(key);
    for &count in counts {
        let (sheet, after) = rest.split_at(count as usize);
        all_rise &= rises(sheet);
        report.extend(marks(key, sheet));
        rest = after;
    }
    match () {
        _ if !all_rise => Err(8),
        _ if room < report.len() => Err(9),
        _ => Ok((report.clone(), sums(&report))),
    }
}
