//! All occurrences of the patterns of a set, one after another.
use crate::calls::{self, Calls, Progress};
use crate::pattern_set::PatternSet;
use crate::refusal::Refusal;
use crate::search::Mark;
use crate::search_set::search_set;
use crate::text::Text;
use std::fmt;
use std::iter::FusedIterator;

/// An iterator over all occurrences of the patterns of a set: pairs of a place and the number of the pattern that
/// occurs there, rising by place, and at one place by number.
///
/// It calls [`search_set`] with a list of its own, which has room for all occurrences at one place, and goes on from
/// the mark. That none is missing and none comes twice follows from what is proved of such calls.
///
/// ```
/// use mitongory::{Pattern, PatternSet, SetOccurrences, Text};
///
/// # fn main() -> Result<(), mitongory::Refusal> {
/// let words = [&b"bit"[..], b"more", b"it"];
/// let patterns = words.map(|word| Pattern::from_bytes(word).unwrap());
/// let set = PatternSet::new(patterns)?;
/// let text = Text::from_bytes(b"a bit more")?;
/// let found: Vec<_> = SetOccurrences::new(text, &set).map(|(place, number)| (place / 8, words[number])).collect();
/// assert_eq!(found, [(2, &b"bit"[..]), (3, b"it"), (6, b"more")]);
/// # Ok(())
/// # }
/// ```
///
/// As with [`Occurrences`](crate::Occurrences), `next` goes on until it finds an occurrence, and
/// [`next_within`](SetOccurrences::next_within) makes one bounded call at most.
#[derive(Clone)]
#[must_use = "an iterator does nothing until it is asked"]
pub struct SetOccurrences<'a> {
    text: Text<'a>,
    set: &'a PatternSet,
    calls: Calls<2>,
}

impl<'a> SetOccurrences<'a> {
    /// All occurrences of a set's patterns in a text.
    ///
    /// ```
    /// use mitongory::{Pattern, PatternSet, SetOccurrences, Text};
    ///
    /// # fn main() -> Result<(), mitongory::Refusal> {
    /// let set = PatternSet::new([Pattern::new(&[0xf0], 4)?, Pattern::new(&[0x00], 3)?])?;
    /// let text = Text::from_bytes(&[0x0f, 0x1f])?;
    /// assert!(SetOccurrences::new(text, &set).eq([(0, 1), (1, 1), (4, 0), (8, 1), (11, 0), (12, 0)]));
    /// # Ok(())
    /// # }
    /// ```
    pub fn new(text: Text<'a>, set: &'a PatternSet) -> SetOccurrences<'a> {
        SetOccurrences::resume(text, set, Mark::START).expect("a set is searched for in every text from place 0 on")
    }

    /// All occurrences at the mark's place or after it.
    ///
    /// ```
    /// use mitongory::{Mark, Pattern, PatternSet, Refusal, SetOccurrences, Text};
    ///
    /// # fn main() -> Result<(), Refusal> {
    /// let set = PatternSet::new([Pattern::new(&[0xf0], 4)?, Pattern::new(&[0x00], 3)?])?;
    /// let text = Text::from_bytes(&[0x0f, 0x1f])?;
    /// assert!(SetOccurrences::resume(text, &set, Mark::at(11))?.eq([(11, 0), (12, 0)]));
    ///
    /// // The shorter pattern has 14 places, from 0 to 13.
    /// assert!(SetOccurrences::resume(text, &set, Mark::at(14))?.eq([]));
    /// assert_eq!(SetOccurrences::resume(text, &set, Mark::at(15)).unwrap_err(), Refusal::BeyondEnd);
    /// # Ok(())
    /// # }
    /// ```
    ///
    /// # Errors
    ///
    /// [`Refusal::BeyondEnd`] for a mark above the number of places of the shortest pattern.
    pub fn resume(text: Text<'a>, set: &'a PatternSet, mark: Mark) -> Result<SetOccurrences<'a>, Refusal> {
        // A call with no budget makes no step, but judges every refusal.
        let answer = search_set(text, set, mark, 0, &mut [])?;
        Ok(SetOccurrences { text, set, calls: Calls::after(answer) })
    }

    /// Where the iterator is: no occurrence before this mark is still to be given, and none after its place was given.
    /// Of those at the place itself some may have been given. An iterator that resumes from the mark gives all of them.
    ///
    /// ```
    /// use mitongory::{Mark, Pattern, PatternSet, SetOccurrences, Text};
    ///
    /// # fn main() -> Result<(), mitongory::Refusal> {
    /// let set = PatternSet::new([Pattern::new(&[0xf0], 4)?, Pattern::new(&[0xe0], 3)?])?;
    /// let mut occurrences = SetOccurrences::new(Text::from_bytes(&[0x0f])?, &set);
    /// assert_eq!((occurrences.mark(), occurrences.next()), (Mark::START, Some((4, 0))));
    /// assert_eq!((occurrences.mark(), occurrences.next()), (Mark::at(4), Some((4, 1))));
    /// assert_eq!((occurrences.mark(), occurrences.next()), (Mark::at(5), Some((5, 1))));
    /// assert_eq!((occurrences.mark(), occurrences.next()), (Mark::at(6), None));
    /// # Ok(())
    /// # }
    /// ```
    #[must_use]
    pub fn mark(&self) -> Mark {
        self.calls.mark()
    }

    /// The next occurrence, if it is at hand or one call of [`search_set`] with this budget of steps finds it; else how
    /// far the search came. No more than one call is made. A step decides one place. With a budget of 0 nothing moves.
    ///
    /// ```
    /// use mitongory::{Mark, Pattern, PatternSet, Progress, SetOccurrences, Text};
    ///
    /// # fn main() -> Result<(), mitongory::Refusal> {
    /// // One 1, at place 100 of 201.
    /// let mut bytes = [0; 26];
    /// bytes[12] = 0b0000_1000;
    /// let set = PatternSet::new([Pattern::new(&[0xc0], 2)?, Pattern::new(&[0x80], 1)?])?;
    /// let mut occurrences = SetOccurrences::new(Text::new(&bytes, 201)?, &set);
    ///
    /// assert_eq!(occurrences.next_within(60), Progress::Working(Mark::at(60)));
    /// assert_eq!(occurrences.next_within(60), Progress::Occurrence((100, 1)));
    /// // The call that found it went on to place 120.
    /// assert_eq!(occurrences.next_within(60), Progress::Working(Mark::at(180)));
    /// assert_eq!(occurrences.next_within(60), Progress::Done);
    /// # Ok(())
    /// # }
    /// ```
    pub fn next_within(&mut self, budget: u32) -> Progress<(u32, usize)> {
        let (text, set) = (self.text, self.set);
        let call = |mark, list: &mut [u32]| search_set(text, set, mark, budget, list);
        self.calls.next_within(call).map(|[place, number]| (place, number as usize))
    }
}

impl Iterator for SetOccurrences<'_> {
    type Item = (u32, usize);

    fn next(&mut self) -> Option<(u32, usize)> {
        calls::next(|budget| self.next_within(budget))
    }

    fn size_hint(&self) -> (usize, Option<usize>) {
        self.calls.size_hint(self.text.bit_count(), self.set.pattern_count())
    }
}

impl FusedIterator for SetOccurrences<'_> {}

/// What is searched, and how far it came; not the list.
impl fmt::Debug for SetOccurrences<'_> {
    fn fmt(&self, f: &mut fmt::Formatter<'_>) -> fmt::Result {
        f.debug_struct("SetOccurrences")
            .field("text", &self.text)
            .field("set", &self.set)
            .field("mark", &self.mark())
            .finish_non_exhaustive()
    }
}
