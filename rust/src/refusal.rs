//! Why a call was refused, with the number that the requirements give each reason.
use std::error::Error;
use std::fmt;

/// Why a call was refused. A refused call changes nothing: no cell, no byte, no mark.
///
/// A search is refused with the first of 1, 2, 3, 4, 17, 5, 6 and 7 that applies, and one for a set of patterns with the
/// first of 1, 2, 18, then 3, 4 and 17 for each pattern in turn, and then 6; a file with its first fault from front to
/// back, 10 to 13, or a good one with 14 where there are fewer cells than its count; a sitting with the first of 15, 16,
/// 8 and 9. Where none applies, the call is accepted.
///
/// ```
/// use mitongory::{Pattern, Refusal};
///
/// let refusal = Pattern::new(&[], 0).unwrap_err();
/// assert_eq!((refusal, refusal.number()), (Refusal::PatternLength, 3));
/// assert_eq!(refusal.to_string(), "refusal 3: the pattern has no bit or more than 2,048 bits");
/// ```
#[derive(Clone, Copy, Debug, PartialEq, Eq, Hash)]
#[repr(u32)]
#[non_exhaustive]
pub enum Refusal {
    /// The text has more than 2^30 bits.
    TextTooLong = 1,
    /// The text has fewer bytes than its bits take.
    TextBytesMissing = 2,
    /// The pattern has no bit or more than 2,048.
    PatternLength = 3,
    /// The pattern has fewer bytes than its bits take.
    PatternBytesMissing = 4,
    /// The pattern is below 8 bits for hash and H, below 15 for skip, or above 64 for tail.
    PatternUnfit = 5,
    /// The mark is above the number of places.
    BeyondEnd = 6,
    /// The scratch has fewer cells than the method takes for the pattern. One of
    /// [`Scratch::new`](crate::Scratch::new) never has.
    ScratchTooShort = 7,
    /// A list of positions, such as a key or a sheet, does not rise strictly, or holds 2^30 or more.
    ListNotRising = 8,
    /// The target has fewer bytes than the list's file; or the report of a sitting fewer than three cells for each
    /// sheet, which [`mark_sitting`](crate::marking::mark_sitting) never has.
    TargetTooShort = 9,
    /// The file ends early.
    FileEndsEarly = 10,
    /// A number of the file is not in the fewest groups.
    NumberNotShortest = 11,
    /// A number of the file is above 2^30, or a position is 2^30 or more.
    NumberTooLarge = 12,
    /// Bytes are left over after the list.
    BytesLeftOver = 13,
    /// There are fewer cells than the file's count, and the file is good.
    CellsMissing = 14,
    /// There are more than 256 sheets.
    TooManySheets = 15,
    /// The counts of the sheets do not add up to the number of their positions.
    /// [`mark_sitting`](crate::marking::mark_sitting) has the right counts always.
    CountsDiffer = 16,
    /// The run that says which bits of the pattern are fixed has fewer bytes than the pattern's bits take.
    FixedBytesMissing = 17,
    /// The set has no patterns, or more than 64.
    SetSize = 18,
}

impl Refusal {
    /// Every refusal, by its number.
    ///
    /// ```
    /// use mitongory::Refusal;
    ///
    /// assert!(Refusal::ALL.iter().map(|refusal| refusal.number()).eq(1..=18));
    /// ```
    pub const ALL: &'static [Refusal] = &[
        Refusal::TextTooLong,
        Refusal::TextBytesMissing,
        Refusal::PatternLength,
        Refusal::PatternBytesMissing,
        Refusal::PatternUnfit,
        Refusal::BeyondEnd,
        Refusal::ScratchTooShort,
        Refusal::ListNotRising,
        Refusal::TargetTooShort,
        Refusal::FileEndsEarly,
        Refusal::NumberNotShortest,
        Refusal::NumberTooLarge,
        Refusal::BytesLeftOver,
        Refusal::CellsMissing,
        Refusal::TooManySheets,
        Refusal::CountsDiffer,
        Refusal::FixedBytesMissing,
        Refusal::SetSize,
    ];

    /// The number in the requirements, 1 to 18.
    ///
    /// ```
    /// assert_eq!(mitongory::Refusal::BeyondEnd.number(), 6);
    /// ```
    #[must_use]
    pub const fn number(self) -> u32 {
        self as u32
    }

    /// The refusal with a number.
    ///
    /// ```
    /// use mitongory::Refusal;
    ///
    /// assert_eq!(Refusal::from_number(13), Some(Refusal::BytesLeftOver));
    /// assert_eq!(Refusal::from_number(0), None);
    /// ```
    #[must_use]
    pub fn from_number(number: u32) -> Option<Refusal> {
        Refusal::ALL.iter().copied().find(|refusal| refusal.number() == number)
    }
}

impl fmt::Display for Refusal {
    fn fmt(&self, f: &mut fmt::Formatter<'_>) -> fmt::Result {
        let why = match self {
            Refusal::TextTooLong => "the text has more than 2^30 bits",
            Refusal::TextBytesMissing => "the text has fewer bytes than its bits take",
            Refusal::PatternLength => "the pattern has no bit or more than 2,048 bits",
            Refusal::PatternBytesMissing => "the pattern has fewer bytes than its bits take",
            Refusal::PatternUnfit => {
                "the pattern's length does not fit the method: hash and H take 8 bits or more, skip 15 or more, \
                 tail 64 or fewer"
            }
            Refusal::BeyondEnd => "the mark is above the number of places",
            Refusal::ScratchTooShort => "the scratch has fewer cells than the method takes for the pattern",
            Refusal::ListNotRising => "a list of positions does not rise strictly below 2^30",
            Refusal::TargetTooShort => {
                "the target has fewer bytes than the list's file, or the report fewer than three cells for each sheet"
            }
            Refusal::FileEndsEarly => "the file ends early",
            Refusal::NumberNotShortest => "a number of the file is not in the fewest groups",
            Refusal::NumberTooLarge => "a number or a position of the file is too large",
            Refusal::BytesLeftOver => "bytes are left over after the list",
            Refusal::CellsMissing => "there are fewer cells than the file's count",
            Refusal::TooManySheets => "there are more than 256 sheets",
            Refusal::CountsDiffer => "the counts of the sheets do not add up to the number of their positions",
            Refusal::FixedBytesMissing => {
                "the run that says which bits of the pattern are fixed has fewer bytes than these take"
            }
            Refusal::SetSize => "the set has no patterns, or more than 64",
        };
        write!(f, "refusal {}: {why}", self.number())
    }
}

impl Error for Refusal {}
