//! Exact search for a pattern of bits in packed bits, over a proved library.
//!
//! The crate lists every place where a *pattern* of 1 to 2,048 bits occurs in a *text* of up to 2^30 bits. A place is a
//! bit number: a pattern may occur from any bit on, not only where a byte begins, and occurrences may overlap. Bits of a
//! pattern may be wild, and then any bit of the text will do there. There are five methods of searching, which find the
//! same occurrences. Up to 64 patterns can be searched for in one pass. There is a file format for lists of positions,
//! and such lists can be marked against a key.
//!
//! The work is done by a library in which every function is proved to meet its contract. It is linked as a static
//! archive. This crate gives its calls Rust types and adds no rule of its own. It has no dependencies.
//!
//! # Quick start
//!
//! ```
//! use mitongory::{Bits, Method, Occurrences};
//!
//! # fn main() -> Result<(), Box<dyn std::error::Error>> {
//! let long: Bits = "110010110010110010110010110010110".parse()?;
//! let short: Bits = "110010110010110010110".parse()?;
//! let (text, pattern) = (long.text()?, short.pattern()?);
//!
//! let places: Vec<u32> = Occurrences::new(text, pattern, Method::Skip)?.collect();
//! assert_eq!(places, [0, 6, 12]);
//! # Ok(())
//! # }
//! ```
//!
//! [`Occurrences`] is the iterator over all places. [`Method`] says which patterns each method takes and which is fast
//! where; [`Method::Plain`] and [`Method::Wide`] take every pattern.
//!
//! # Packed bits
//!
//! A text and a pattern are bytes and a bit count. The leftmost bit of a byte, the one of weight 128, comes first: bit
//! `p` is the bit of weight `2^(7 - p % 8)` in byte `p / 8`. So the 13 bits `1100101100101` are two bytes:
//!
//! ```text
//! byte          0: 0xcb                    1: 0x28
//! weight      128 64 32 16  8  4  2  1   128 64 32 16  8  4  2  1
//! bit           1  1  0  0  1  0  1  1     0  0  1  0  1  .  .  .
//! bit number    0  1  2  3  4  5  6  7     8  9 10 11 12
//! ```
//!
//! What is at the dots never matters. [`Text`] and [`Pattern`] borrow such bytes; [`Bits`] owns them and is made from
//! characters 0 and 1. Whole bytes are eight bits each:
//!
//! ```
//! use mitongory::{Method, Occurrences, Pattern, Text};
//!
//! # fn main() -> Result<(), mitongory::Refusal> {
//! let text = Text::from_bytes(b"a bit, and a bit more")?;
//! let places: Vec<u32> = Occurrences::new(text, Pattern::from_bytes(b"bit")?, Method::Hash)?.collect();
//! assert_eq!(places, [2 * 8, 13 * 8]);
//!
//! let text = Text::new(&[0xcb, 0x28], 13)?;
//! let pattern = Pattern::new(&[0b1011_0000], 4)?;
//! assert!(Occurrences::new(text, pattern, Method::Plain)?.eq([4]));
//! # Ok(())
//! # }
//! ```
//!
//! [`Text::eight_bits`] reads eight bits from any place on and says how many of them are bits of the text, and
//! [`Text::around`] shows a place with the bits on both sides of it:
//!
//! ```
//! # fn main() -> Result<(), mitongory::Refusal> {
//! let text = mitongory::Text::new(&[0xcb, 0x2f], 13)?;
//! let near_end = text.eight_bits(8);
//! assert_eq!((near_end.byte, near_end.count), (0b0010_1000, 5));
//! assert_eq!(text.around(8), "1100 1011 | 0010 1···");
//! # Ok(())
//! # }
//! ```
//!
//! # Wild bits
//!
//! A bit of a pattern is fixed or *wild*. The text has to have the fixed bits; at a wild one it may have either value. So
//! a word with a field that differs, such as an address, is one pattern. [`WildBits`] is made from characters 0, 1 and ?,
//! where each ? is a wild bit:
//!
//! ```
//! use mitongory::{Bits, Method, Occurrences, WildBits};
//!
//! # fn main() -> Result<(), Box<dyn std::error::Error>> {
//! let long: Bits = "101100000100101101100100".parse()?;
//! let word: WildBits = "1011????01".parse()?;
//! let places: Vec<u32> = Occurrences::new(long.text()?, word.pattern()?, Method::Hash)?.collect();
//! assert_eq!(places, [0, 12]);
//! # Ok(())
//! # }
//! ```
//!
//! [`Pattern::with_fixed`] takes bits that are packed already: the pattern's bytes, and a second run of as many bits, with
//! a 1 for fixed and a 0 for wild. What the pattern's bytes have at a wild bit never matters.
//!
//! ```
//! use mitongory::{Method, Occurrences, Pattern, Text};
//!
//! # fn main() -> Result<(), mitongory::Refusal> {
//! let text = Text::from_bytes(b"a bit, and a bat more")?;
//! let pattern = Pattern::with_fixed(b"b.t", &[0xff, 0x00, 0xff], 24)?;
//! assert!(Occurrences::new(text, pattern, Method::Skip)?.eq([2 * 8, 13 * 8]));
//! assert!(pattern.is_fixed(7) && !pattern.is_fixed(8));
//! # Ok(())
//! # }
//! ```
//!
//! A pattern of wild bits alone occurs at every place.
//!
//! # A call with a mark and a budget
//!
//! [`search`] is the call under the iterator: a bounded piece of work. It gets a *mark*, the first place that is not yet
//! decided; a *budget* of steps; a *list* for the places; and a *scratch* for its tables. It allocates nothing. Its
//! [`Answer`] has the steps made, how many places were written to the front of the list, the mark moved on, and how the
//! call stopped: [done](Stop::Done), [full](Stop::Full) (no free cell for an occurrence) or [spent](Stop::Spent) (the
//! budget). The next call goes on from the mark; after a full list it needs a free cell to get any further.
//!
//! ```
//! use mitongory::{search, Bits, Mark, Method, Scratch, Stop};
//!
//! # fn main() -> Result<(), Box<dyn std::error::Error>> {
//! let (zeros, one): (Bits, Bits) = ("0".repeat(200).parse()?, "1".parse()?);
//! let (text, pattern) = (zeros.text()?, one.pattern()?);
//! let (mut list, mut scratch) = ([0; 8], Scratch::new());
//!
//! let mut mark = Mark::START;
//! let mut marks = vec![mark.place()];
//! loop {
//!     let answer = search(text, pattern, Method::Wide, mark, 1, &mut list, &mut scratch)?;
//!     mark = answer.mark;
//!     marks.push(mark.place());
//!     if answer.stop == Stop::Done {
//!         break;
//!     }
//! }
//! assert_eq!(marks, [0, 65, 130, 195, 200]);
//! # Ok(())
//! # }
//! ```
//!
//! [`Occurrences::next_within`] is the same bound for the iterator, and [`Occurrences::mark`] its mark.
//!
//! # A set of patterns
//!
//! A [`PatternSet`] is 1 to 64 patterns, of any lengths, that are searched for together in one pass. Each has a number,
//! from 0 on. [`SetOccurrences`] is the iterator over all places at which one of them occurs, each with the number:
//!
//! ```
//! use mitongory::{Bits, PatternSet, SetOccurrences, WildBits};
//!
//! # fn main() -> Result<(), Box<dyn std::error::Error>> {
//! let long: Bits = "011001001000100110100101000101001001".parse()?;
//! let words: [WildBits; 3] = ["0100110100".parse()?, "0100??0100".parse()?, "1000".parse()?];
//! let set = PatternSet::new(words.iter().map(WildBits::pattern).collect::<Result<Vec<_>, _>>()?)?;
//!
//! let found: Vec<(u32, usize)> = SetOccurrences::new(long.text()?, &set).collect();
//! assert_eq!(found, [(8, 2), (11, 0), (11, 1), (22, 1), (23, 2)]);
//! # Ok(())
//! # }
//! ```
//!
//! [`search_set`] is the call under it, with a mark, a budget and a list. An occurrence takes two cells of the list, its
//! place and its number, and those at one place are all written or none is. It takes no scratch.
//!
//! # Refusals
//!
//! A call that cannot be made is refused with a [`Refusal`], which has a number and says why; nothing is then changed.
//! Nothing here panics on any input.
//!
//! ```
//! use mitongory::{Method, Occurrences, Pattern, Refusal, Text};
//!
//! # fn main() -> Result<(), Refusal> {
//! assert_eq!(Text::new(&[0xff], 9), Err(Refusal::TextBytesMissing));
//!
//! let (text, pattern) = (Text::new(&[0xff], 8)?, Pattern::new(&[0xff], 7)?);
//! let refusal = Occurrences::new(text, pattern, Method::Hash).unwrap_err();
//! assert_eq!((refusal, refusal.number()), (Refusal::PatternUnfit, 5));
//! # Ok(())
//! # }
//! ```
//!
//! # The file of a list
//!
//! [`positions`] writes a rising list of positions as a short file and reads it again:
//!
//! ```
//! use mitongory::positions;
//!
//! # fn main() -> Result<(), mitongory::Refusal> {
//! let file = positions::encode(&[0, 6, 12])?;
//! assert_eq!(file, [3, 0, 5, 5]);
//! assert_eq!(positions::decode(&file)?, [0, 6, 12]);
//! # Ok(())
//! # }
//! ```
//!
//! # Marking a sitting
//!
//! [`marking`] compares lists of positions with a key, up to 256 of them in one call, and counts for each what is right,
//! what is missed and what is false:
//!
//! ```
//! use mitongory::marking::{mark_sitting, Marks};
//!
//! # fn main() -> Result<(), mitongory::Refusal> {
//! let sitting = mark_sitting(&[0, 6, 12], &[[0, 6, 12], [0, 7, 12]])?;
//! assert_eq!(sitting.marks[1], Marks { right: 2, missed: 1, false_positives: 1 });
//! assert_eq!(sitting.totals.right, 5);
//! # Ok(())
//! # }
//! ```
//!
//! # What is proved
//!
//! For every input, refusals included, each call of the library answers as its short definition says and leaves every
//! buffer as that says; the calls of a search, joined, list every occurrence once (see [`search`] and, for a set of
//! patterns, [`search_set`]); and what a call answers depends neither on its scratch, if that has enough cells (see
//! [`Scratch`]), nor on the values of wild bits (see [`Pattern`]). The proofs end at the archive. This crate's Rust code,
//! its declarations of the calls, and the compiler and linker are not proved: the crate is tested against a naive search,
//! a naive codec and naive marking. One module has `unsafe` code, around the calls.

mod bits;
mod call;
mod calls;
mod eight_bits;
#[doc(hidden)]
pub mod ffi;
pub mod marking;
mod method;
mod occurrences;
mod packed;
mod pattern;
mod pattern_set;
pub mod positions;
mod refusal;
mod search;
mod search_set;
mod set_occurrences;
mod text;
mod wild_bits;

pub use bits::{Bits, NotABit};
pub use calls::Progress;
pub use eight_bits::EightBits;
pub use method::{Method, UnknownMethod};
pub use occurrences::Occurrences;
pub use pattern::Pattern;
pub use pattern_set::PatternSet;
pub use refusal::Refusal;
pub use search::{search, Answer, Mark, Scratch, Stop, SCRATCH_CELLS};
pub use search_set::search_set;
pub use set_occurrences::SetOccurrences;
pub use text::Text;
pub use wild_bits::WildBits;

/// The examples of the crate's page are run as well.
#[cfg(doctest)]
#[doc = include_str!("../README.md")]
struct Readme;

/// The examples of the repository's guide and of its first page are run as well.
#[cfg(doctest)]
#[doc = include_str!("../../docs/GUIDE.md")]
#[doc = include_str!("../../README.md")]
struct Guide;
