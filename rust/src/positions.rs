//! The file for a list of positions.
//!
//! The file holds the list's count, the first position, and then for each later position its distance from the one
//! before, less 1. Each number is a varint: groups of seven bits, the lowest group first, a byte for each group, with 128
//! added where another follows, and in the fewest groups. So every list has one file, and [`decode`] accepts no other
//! bytes than those that [`encode`] makes. Both, and that each undoes the other, are proved.
//!
//! ```
//! use mitongory::{positions, Refusal};
//!
//! # fn main() -> Result<(), Refusal> {
//! let file = positions::encode(&[0, 6, 12])?;
//! assert_eq!(file, [3, 0, 5, 5]);
//! assert_eq!(positions::decode(&file)?, [0, 6, 12]);
//! assert_eq!(positions::decode(&file[..3]), Err(Refusal::FileEndsEarly));
//! # Ok(())
//! # }
//! ```
//!
//! A file names no text and no pattern: what its positions mean is the caller's to know.
use crate::refusal::Refusal;
use crate::{call, ffi};

/// No file holds more positions than there are numbers below 2^30.
const MOST: usize = 1 << 30;

/// How many bytes a list's file has.
///
/// ```
/// use mitongory::{positions, Refusal};
///
/// assert_eq!(positions::encoded_size(&[0, 6, 12]), Ok(4));
/// assert_eq!(positions::encoded_size(&[6, 6]), Err(Refusal::ListNotRising));
/// ```
///
/// # Errors
///
/// [`Refusal::ListNotRising`] where the positions do not rise strictly, or one is 2^30 or more.
pub fn encoded_size(list: &[u32]) -> Result<usize, Refusal> {
    call::answer(|cell| ffi::list_size(list, cell))
}

/// Writes a list's file to the front of the target and gives its byte count. The bytes after it stay as they were.
///
/// ```
/// let mut target = [0xff; 5];
/// assert_eq!(mitongory::positions::encode_into(&[0, 6, 12], &mut target), Ok(4));
/// assert_eq!(target, [3, 0, 5, 5, 0xff]);
/// ```
///
/// # Errors
///
/// [`Refusal::ListNotRising`] as in [`encoded_size`], [`Refusal::TargetTooShort`] for fewer bytes than the file has.
pub fn encode_into(list: &[u32], target: &mut [u8]) -> Result<usize, Refusal> {
    call::answer(|cell| ffi::list_write(list, target, cell))
}

/// A list's file.
///
/// ```
/// assert_eq!(mitongory::positions::encode(&[300]), Ok(vec![0x01, 0xac, 0x02]));
/// ```
///
/// # Errors
///
/// [`Refusal::ListNotRising`] as in [`encoded_size`].
pub fn encode(list: &[u32]) -> Result<Vec<u8>, Refusal> {
    let mut file = vec![0; encoded_size(list)?];
    encode_into(list, &mut file)?;
    Ok(file)
}

/// Reads a file's list to the front of the cells and gives its count. The cells after it stay as they were.
///
/// ```
/// use mitongory::{positions, Refusal};
///
/// let mut cells = [7; 4];
/// assert_eq!(positions::decode_into(&[3, 0, 5, 5], &mut cells), Ok(3));
/// assert_eq!(cells, [0, 6, 12, 7]);
/// assert_eq!(positions::decode_into(&[3, 0, 5, 5], &mut cells[..2]), Err(Refusal::CellsMissing));
/// assert_eq!(positions::decode_into(&[3, 0, 5], &mut cells[..2]), Err(Refusal::FileEndsEarly));
/// ```
///
/// # Errors
///
/// The file's first fault from front to back, refusals 10 to 13: it [ends early](Refusal::FileEndsEarly), a number is
/// [not in the fewest groups](Refusal::NumberNotShortest) or [too large](Refusal::NumberTooLarge), or bytes
/// [are left over](Refusal::BytesLeftOver). A bad file gets its fault however many cells there are. Last, for a good file,
/// [`Refusal::CellsMissing`] where its count is above the number of cells.
pub fn decode_into(file: &[u8], cells: &mut [u32]) -> Result<usize, Refusal> {
    call::answer(|cell| ffi::list_read(file, cells, cell))
}

/// A file's list.
///
/// The count in front of a file may claim up to 2^30 positions, so it is not trusted: a cell is lent for each byte
/// after the first, which is proved to be enough for every good file. So each bad file gets its own fault, and no file
/// is refused for want of cells.
///
/// ```
/// use mitongory::{positions, Refusal};
///
/// assert_eq!(positions::decode(&[3, 0, 5, 5]), Ok(vec![0, 6, 12]));
/// assert_eq!(positions::decode(&[0xff, 0xff, 0xff, 0xff, 0x03, 0]), Err(Refusal::FileEndsEarly));
/// assert_eq!(positions::decode(&[3, 0, 0x80, 0]), Err(Refusal::NumberNotShortest));
/// ```
///
/// # Errors
///
/// The file's first fault, refusals 10 to 13 as in [`decode_into`]; never [`Refusal::CellsMissing`].
pub fn decode(file: &[u8]) -> Result<Vec<u32>, Refusal> {
    let mut cells = vec![0; file.len().saturating_sub(1).min(MOST)];
    let count = decode_into(file, &mut cells)?;
    cells.truncate(count);
    cells.shrink_to_fit();
    Ok(cells)
}
