//! The five methods of searching. They find the same occurrences and differ in their steps.
use crate::refusal::Refusal;
use crate::{call, ffi};
use std::error::Error;
use std::fmt;
use std::str::FromStr;

/// A method of searching. All find the same occurrences; they differ in the patterns that they take, in what a step
/// does, and in speed.
///
/// On texts with about as many ones as zeros, skip is the fastest for patterns from 15 bits on, hash as fast at some
/// hundred bits, and plain the fastest below 15. Where 90 % of the bits are zeros, plain is the fastest from 15 bits to
/// some hundred, and hash above. Tail is the fastest on none of these: choose it for its steps. This is so for patterns
/// with every bit fixed: with wild bits hash and tail move on less far, and skip has more places to compare.
/// `docs/PERFORMANCE.md` in the repository has the measurements.
#[derive(Clone, Copy, Debug, PartialEq, Eq, Hash)]
#[repr(u32)]
#[non_exhaustive]
pub enum Method {
    /// A step compares the pattern at one place and goes on to the next. For every pattern.
    Plain = 0,
    /// A step looks at the last eight bits of a window and moves on as far as these allow. For patterns of 8 bits or
    /// more.
    Hash = 1,
    /// A step looks at one whole byte of the text and decides all places that contain it, fewer than the pattern has
    /// bits. For patterns of 15 bits or more.
    Skip = 2,
    /// A step decides 64 places at once, and often passes over more. For every pattern.
    Wide = 3,
    /// A step compares the pattern at one place. It also looks for the longest beginning of the pattern, shorter than
    /// all of it, with which the window ends (the bits that were compared), and moves on to where that begins. This is
    /// the rule of BNDM. For patterns of 64 bits or fewer.
    ///
    /// In the example the window at 0 is `1001`. It ends in `001`, with which the pattern begins, so the next mark is
    /// 1. The window there, `0010`, ends in `0`, so the next mark is 4, and the pattern stands there.
    ///
    /// ```
    /// use mitongory::{search, Bits, Mark, Method, Pattern, Refusal, Scratch};
    ///
    /// # fn main() -> Result<(), Box<dyn std::error::Error>> {
    /// let (long, short): (Bits, Bits) = ("10010011".parse()?, "0011".parse()?);
    /// let (text, pattern) = (long.text()?, short.pattern()?);
    /// let (mut list, mut scratch) = ([0; 8], Scratch::new());
    /// for (mark, occurrences, next) in [(0, 0, 1), (1, 0, 4), (4, 1, 5)] {
    ///     let answer = search(text, pattern, Method::Tail, Mark::at(mark), 1, &mut list, &mut scratch)?;
    ///     assert_eq!((answer.occurrences, answer.mark), (occurrences, Mark::at(next)));
    /// }
    /// assert_eq!(list[0], 4);
    ///
    /// let mut tail = |pattern| search(text, pattern, Method::Tail, Mark::START, 1, &mut list, &mut scratch);
    /// assert!(tail(Pattern::new(&[0; 9], 64)?).is_ok());
    /// assert_eq!(tail(Pattern::new(&[0; 9], 65)?), Err(Refusal::PatternUnfit));
    /// # Ok(())
    /// # }
    /// ```
    Tail = 4,
}

impl Method {
    /// Every method, in the order of their numbers.
    ///
    /// ```
    /// use mitongory::Method;
    ///
    /// let names: Vec<&str> = Method::ALL.iter().map(|method| method.name()).collect();
    /// assert_eq!(names, ["plain", "hash", "skip", "wide", "tail"]);
    /// ```
    pub const ALL: &'static [Method] = &[Method::Plain, Method::Hash, Method::Skip, Method::Wide, Method::Tail];

    /// The method's name.
    ///
    /// ```
    /// assert_eq!(mitongory::Method::Skip.name(), "skip");
    /// ```
    #[must_use]
    pub const fn name(self) -> &'static str {
        match self {
            Method::Plain => "plain",
            Method::Hash => "hash",
            Method::Skip => "skip",
            Method::Wide => "wide",
            Method::Tail => "tail",
        }
    }

    /// How many 64-bit cells of scratch the method takes for a pattern of so many bits, whatever bits they are and however
    /// many of them are wild. With `m` for `bit_count`, plain takes 16 for each of the bytes that `m + 7` bits take, hash
    /// 512, skip `256 + m`, wide `2 * (63 + m)`, and tail 2. No figure is above [`SCRATCH_CELLS`](crate::SCRATCH_CELLS).
    ///
    /// ```
    /// use mitongory::{Method, Refusal};
    ///
    /// assert_eq!(Method::Plain.scratch_cells(48), Ok(112));
    /// assert_eq!(Method::Hash.scratch_cells(48), Ok(512));
    /// assert_eq!(Method::Skip.scratch_cells(48), Ok(304));
    /// assert_eq!(Method::Wide.scratch_cells(48), Ok(222));
    /// assert_eq!(Method::Tail.scratch_cells(48), Ok(2));
    /// assert_eq!(Method::Tail.scratch_cells(65), Err(Refusal::PatternUnfit));
    /// ```
    ///
    /// # Errors
    ///
    /// [`Refusal::PatternLength`] for no bit or more than 2,048, [`Refusal::PatternUnfit`] for a length that the method
    /// does not take.
    pub fn scratch_cells(self, bit_count: u64) -> Result<usize, Refusal> {
        call::answer(|cell| ffi::scratch_cells(self.number(), bit_count, cell))
    }

    /// The library's number for it.
    pub(crate) const fn number(self) -> u32 {
        self as u32
    }
}

/// The method's name.
///
/// ```
/// assert_eq!(mitongory::Method::Wide.to_string(), "wide");
/// ```
impl fmt::Display for Method {
    fn fmt(&self, f: &mut fmt::Formatter<'_>) -> fmt::Result {
        f.pad(self.name())
    }
}

/// The method of a name.
///
/// ```
/// use mitongory::{Method, UnknownMethod};
///
/// assert_eq!("hash".parse(), Ok(Method::Hash));
/// assert_eq!("Hash".parse::<Method>(), Err(UnknownMethod));
/// assert_eq!(UnknownMethod.to_string(), "a method is one of plain, hash, skip, wide, tail");
/// ```
impl FromStr for Method {
    type Err = UnknownMethod;

    fn from_str(name: &str) -> Result<Method, UnknownMethod> {
        Method::ALL.iter().copied().find(|method| method.name() == name).ok_or(UnknownMethod)
    }
}

/// A name that no method has.
#[derive(Clone, Copy, Debug, PartialEq, Eq)]
pub struct UnknownMethod;

impl fmt::Display for UnknownMethod {
    fn fmt(&self, f: &mut fmt::Formatter<'_>) -> fmt::Result {
        f.write_str("a method is one of plain, hash, skip, wide, tail")
    }
}

impl Error for UnknownMethod {}
