//! Marking lists of positions against a key.
//!
//! The *key* is the list of the right positions, and a *sheet* is a list that somebody wrote down. A sheet comes to three
//! numbers: *right* are the positions of the key that are on the sheet, *missed* those of the key only, and *false
//! positives* those of the sheet only. A *sitting* is a number of sheets that are marked against one key.
//!
//! ```
//! use mitongory::marking::{mark_sitting, Marks, Totals};
//!
//! # fn main() -> Result<(), mitongory::Refusal> {
//! let sitting = mark_sitting(&[0, 6, 12], &[vec![0, 6, 12], vec![0, 7, 12], vec![]])?;
//! assert_eq!(sitting.marks[0], Marks { right: 3, missed: 0, false_positives: 0 });
//! assert_eq!(sitting.marks[1], Marks { right: 2, missed: 1, false_positives: 1 });
//! assert_eq!(sitting.marks[2], Marks { right: 0, missed: 3, false_positives: 0 });
//! assert_eq!(sitting.totals, Totals { right: 5, missed: 4, false_positives: 1 });
//! # Ok(())
//! # }
//! ```
//!
//! What the positions mean is the caller's to know. Where the key is the list of all
//! [occurrences](crate::Occurrences) of a pattern in a text, right counts the occurrences that are on the sheet.
use crate::refusal::Refusal;
use crate::{call, ffi};

/// The most sheets of a sitting.
pub const SHEETS: usize = 256;

/// The report's cells for each sheet, and the answer's cells.
const CELLS: usize = 3;

/// What a sheet comes to.
#[derive(Clone, Copy, Debug, Default, PartialEq, Eq, Hash)]
pub struct Marks {
    /// How many positions of the key are on the sheet.
    pub right: u32,
    /// How many positions are in the key only.
    pub missed: u32,
    /// How many positions are on the sheet only.
    pub false_positives: u32,
}

/// The marks of all sheets of a sitting, added up.
#[derive(Clone, Copy, Debug, Default, PartialEq, Eq, Hash)]
pub struct Totals {
    /// The sum of all [`Marks::right`].
    pub right: u64,
    /// The sum of all [`Marks::missed`].
    pub missed: u64,
    /// The sum of all [`Marks::false_positives`].
    pub false_positives: u64,
}

/// What a sitting comes to.
#[derive(Clone, Debug, Default, PartialEq, Eq, Hash)]
pub struct Sitting {
    /// The marks of each sheet, in the order of the sheets.
    pub marks: Vec<Marks>,
    /// The sums over all sheets.
    pub totals: Totals,
}

/// Marks up to [`SHEETS`] sheets against one key.
///
/// It is proved for every sitting that is accepted: right + missed is the key's length, right + false positives is the
/// sheet's, and the totals are the sums. A sheet that equals the key has nothing missed and no false positives.
///
/// ```
/// use mitongory::marking::{mark_sitting, SHEETS};
/// use mitongory::{Bits, Method, Occurrences, Refusal};
///
/// # fn main() -> Result<(), Box<dyn std::error::Error>> {
/// let (text, pattern): (Bits, Bits) = ("11111".parse()?, "111".parse()?);
/// let key: Vec<u32> = Occurrences::new(text.text()?, pattern.pattern()?, Method::Wide)?.collect();
/// assert_eq!(key, [0, 1, 2]);
///
/// let sitting = mark_sitting(&key, &[[0, 2], [2, 3]])?;
/// assert!(sitting.marks.iter().map(|marks| marks.right).eq([2, 1]));
///
/// // With no sheets the totals are 0, and the key is judged all the same.
/// let none: &[Vec<u32>] = &[];
/// assert_eq!(mark_sitting(&key, none)?.totals.missed, 0);
/// assert_eq!(mark_sitting(&[6, 6], none), Err(Refusal::ListNotRising));
/// assert_eq!(mark_sitting(&key, &[[0]; SHEETS + 1]), Err(Refusal::TooManySheets));
/// # Ok(())
/// # }
/// ```
///
/// # Errors
///
/// [`Refusal::TooManySheets`] above [`SHEETS`] sheets; then [`Refusal::ListNotRising`] where the key, or a sheet by
/// itself, does not rise strictly or holds 2^30 or more.
pub fn mark_sitting<S: AsRef<[u32]>>(key: &[u32], sheets: &[S]) -> Result<Sitting, Refusal> {
    // One sheet too many is enough for the library to refuse, whatever is on them. So no more are counted, and then
    // none is copied.
    let lists: Vec<&[u32]> = sheets.iter().take(SHEETS + 1).map(AsRef::as_ref).collect();
    let cells = if lists.len() <= SHEETS { lists.concat() } else { Vec::new() };
    let counts: Vec<u64> = lists.iter().map(|list| list.len() as u64).collect();
    let (mut report, mut answer) = (vec![0; CELLS * counts.len()], [0; CELLS]);
    call::check(ffi::mark_sitting(key, &cells, &counts, &mut report, &mut answer))?;
    let of_sheet = |cells: &[u32]| Marks { right: cells[0], missed: cells[1], false_positives: cells[2] };
    let [right, missed, false_positives] = answer;
    Ok(Sitting {
        marks: report.chunks_exact(CELLS).map(of_sheet).collect(),
        totals: Totals { right, missed, false_positives },
    })
}
