//! A set of patterns: what one search looks for.
use crate::packed;
use crate::pattern::Pattern;
use crate::refusal::Refusal;
use crate::{call, ffi};
use std::fmt;

/// Patterns that are searched for together, 1 to 64 of them ([`PatternSet::MOST`]). Each has a *number*, counted from 0
/// in the order in which they were given.
///
/// They may have any lengths and wild bits, and there may be equal ones. [`SetOccurrences`](crate::SetOccurrences) is
/// the iterator over all places at which one of them occurs, and [`search_set`](crate::search_set) the call under it.
///
/// ```
/// use mitongory::{PatternSet, SetOccurrences, WildBits};
///
/// # fn main() -> Result<(), Box<dyn std::error::Error>> {
/// let words: [WildBits; 3] = ["110".parse()?, "0??0".parse()?, "11".parse()?];
/// let patterns: Vec<_> = words.iter().map(WildBits::pattern).collect::<Result<_, _>>()?;
/// let set = PatternSet::new(patterns)?;
/// assert_eq!(set.pattern_count(), 3);
///
/// let text = mitongory::Text::new(&[0b0110_1110], 8)?;
/// let occurrences: Vec<(u32, usize)> = SetOccurrences::new(text, &set).collect();
/// assert_eq!(occurrences, [(0, 1), (1, 0), (1, 2), (4, 2), (5, 0), (5, 2)]);
/// # Ok(())
/// # }
/// ```
///
/// The set owns its bits. It lays them out as the library takes them: in one run of bytes, in which each pattern begins
/// on the byte after the one before. Two sets are equal just if they have equal patterns, in the same order.
///
/// ```
/// use mitongory::{Pattern, PatternSet};
///
/// # fn main() -> Result<(), mitongory::Refusal> {
/// let set = PatternSet::new([Pattern::new(&[0xab, 0xcd], 12)?, Pattern::new(&[0xff], 3)?])?;
/// assert_eq!((set.bytes(), set.bit_counts()), (&[0xab, 0xc0, 0xe0][..], &[12, 3][..]));
/// assert_eq!(set, PatternSet::new([Pattern::new(&[0xab, 0xc9], 12)?, Pattern::new(&[0xe0], 3)?])?);
/// # Ok(())
/// # }
/// ```
#[derive(Clone, PartialEq, Eq, Hash)]
pub struct PatternSet {
    /// The bits of all patterns, with zeros in place of the wild ones and after the last one of each, so that the
    /// derived `Eq` and `Hash` see the fixed bits alone.
    bytes: Vec<u8>,
    /// Laid out alike, 1 for fixed and 0 for wild.
    fixed: Vec<u8>,
    bit_counts: Vec<u64>,
}

impl PatternSet {
    /// The most patterns of a set.
    pub const MOST: usize = 64;

    /// The set of some patterns, with their numbers in this order.
    ///
    /// ```
    /// use mitongory::{Pattern, PatternSet, Refusal};
    ///
    /// # fn main() -> Result<(), Refusal> {
    /// let patterns = vec![Pattern::from_bytes(b"bit")?; PatternSet::MOST + 1];
    /// assert!(PatternSet::new(patterns[1..].iter().copied()).is_ok());
    /// assert_eq!(PatternSet::new(patterns), Err(Refusal::SetSize));
    /// assert_eq!(PatternSet::new([]), Err(Refusal::SetSize));
    /// # Ok(())
    /// # }
    /// ```
    ///
    /// # Errors
    ///
    /// [`Refusal::SetSize`] for no patterns or more than 64.
    pub fn new<'a>(patterns: impl IntoIterator<Item = Pattern<'a>>) -> Result<PatternSet, Refusal> {
        let mut set = PatternSet { bytes: Vec::new(), fixed: Vec::new(), bit_counts: Vec::new() };
        // One pattern too many is enough for the library to refuse, so no more are asked for.
        for pattern in patterns.into_iter().take(PatternSet::MOST + 1) {
            for (bits, fixed) in pattern.compared().take(packed::bytes_for(pattern.bit_count())) {
                set.bytes.push(bits);
                set.fixed.push(fixed);
            }
            set.bit_counts.push(pattern.bit_count());
        }
        // With patterns that are good by themselves, a text of no bits and the mark 0, no refusal but 18 is left.
        call::check(ffi::search_set(&[], 0, &set.bytes, &set.fixed, &set.bit_counts, 0, 0, &mut [], &mut [0; 4]))?;
        Ok(set)
    }

    /// How many patterns there are.
    ///
    /// ```
    /// use mitongory::{Pattern, PatternSet};
    ///
    /// let pattern = Pattern::new(&[0xe0], 3).unwrap();
    /// assert_eq!(PatternSet::new([pattern, pattern]).unwrap().pattern_count(), 2);
    /// ```
    #[must_use]
    pub fn pattern_count(&self) -> usize {
        self.bit_counts.len()
    }

    /// The patterns, by their numbers.
    ///
    /// ```
    /// use mitongory::{Pattern, PatternSet};
    ///
    /// # fn main() -> Result<(), mitongory::Refusal> {
    /// let patterns = [Pattern::new(&[0xe0], 3)?, Pattern::with_fixed(&[0xab, 0xcd], &[0xff, 0x0f], 16)?];
    /// assert!(PatternSet::new(patterns)?.patterns().eq(patterns));
    /// # Ok(())
    /// # }
    /// ```
    #[must_use]
    pub fn patterns(&self) -> impl ExactSizeIterator<Item = Pattern<'_>> + '_ {
        let mut begin = 0;
        self.bit_counts.iter().map(move |&bit_count| {
            let run = begin..begin + packed::bytes_for(bit_count);
            begin = run.end;
            Pattern::with_fixed(&self.bytes[run.clone()], &self.fixed[run], bit_count)
                .expect("the set has all bytes of its patterns")
        })
    }

    /// The bytes of all patterns, one pattern after the other, with zeros in place of the wild bits and after the last
    /// bit of each.
    ///
    /// ```
    /// use mitongory::{Pattern, PatternSet};
    ///
    /// let pattern = Pattern::with_fixed(&[0xff], &[0b1010_0000], 3).unwrap();
    /// assert_eq!(PatternSet::new([pattern; 2]).unwrap().bytes(), [0b1010_0000; 2]);
    /// ```
    #[must_use]
    pub fn bytes(&self) -> &[u8] {
        &self.bytes
    }

    /// The bytes that say which bits are fixed, laid out alike, with zeros after the last bit of each pattern.
    ///
    /// ```
    /// use mitongory::{Pattern, PatternSet};
    ///
    /// let pattern = Pattern::new(&[0; 2], 9).unwrap();
    /// assert_eq!(PatternSet::new([pattern; 2]).unwrap().fixed(), [0xff, 0x80, 0xff, 0x80]);
    /// ```
    #[must_use]
    pub fn fixed(&self) -> &[u8] {
        &self.fixed
    }

    /// How many bits each pattern has.
    ///
    /// ```
    /// use mitongory::{Pattern, PatternSet};
    ///
    /// let pattern = |bit_count| Pattern::new(&[0; 2], bit_count).unwrap();
    /// assert_eq!(PatternSet::new([9, 1, 16].map(pattern)).unwrap().bit_counts(), [9, 1, 16]);
    /// ```
    #[must_use]
    pub fn bit_counts(&self) -> &[u64] {
        &self.bit_counts
    }
}

/// The patterns, each with its bit count and its first 64 bits.
impl fmt::Debug for PatternSet {
    fn fmt(&self, f: &mut fmt::Formatter<'_>) -> fmt::Result {
        let patterns: Vec<Pattern<'_>> = self.patterns().collect();
        f.debug_struct("PatternSet").field("patterns", &patterns).finish()
    }
}
