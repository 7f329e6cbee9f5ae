//! All occurrences of a pattern, one after another.
use crate::calls::{self, Calls, Progress};
use crate::method::Method;
use crate::pattern::Pattern;
use crate::refusal::Refusal;
use crate::search::{search, Mark, Scratch};
use crate::text::Text;
use std::fmt;
use std::iter::FusedIterator;

/// An iterator over all occurrences of a pattern, rising: the places at which it occurs in a text.
///
/// It calls [`search`] with a list of its own and goes on from the mark. That no occurrence is missing and none comes
/// twice follows from the theorem named there, which speaks of every such list of calls, whatever their budgets.
///
/// ```
/// use mitongory::{Bits, Method, Occurrences};
///
/// # fn main() -> Result<(), Box<dyn std::error::Error>> {
/// let (ones, three): (Bits, Bits) = ("11111".parse()?, "111".parse()?);
/// let occurrences = Occurrences::new(ones.text()?, three.pattern()?, Method::Wide)?;
/// assert!(occurrences.eq([0, 1, 2]));
/// # Ok(())
/// # }
/// ```
///
/// `next` goes on until it finds an occurrence, which in a text of 2^30 bits may take seconds. A caller that wants to
/// stop earlier or to show how far the search came uses [`next_within`](Occurrences::next_within), which makes one
/// bounded call at most. [`mark`](Occurrences::mark) says where the iterator is, and
/// [`resume`](Occurrences::resume) makes one that goes on from there.
#[derive(Clone)]
#[must_use = "an iterator does nothing until it is asked"]
pub struct Occurrences<'a> {
    text: Text<'a>,
    pattern: Pattern<'a>,
    method: Method,
    scratch: Scratch,
    calls: Calls<1>,
}

impl<'a> Occurrences<'a> {
    /// All occurrences of a pattern in a text.
    ///
    /// ```
    /// use mitongory::{Method, Occurrences, Pattern, Refusal, Text};
    ///
    /// # fn main() -> Result<(), Refusal> {
    /// let text = Text::from_bytes(&[0x0f, 0x0f])?;
    /// let pattern = Pattern::new(&[0xf0], 4)?;
    /// assert!(Occurrences::new(text, pattern, Method::Plain)?.eq([4, 12]));
    /// assert_eq!(Occurrences::new(text, pattern, Method::Hash).unwrap_err(), Refusal::PatternUnfit);
    /// # Ok(())
    /// # }
    /// ```
    ///
    /// # Errors
    ///
    /// [`Refusal::PatternUnfit`] for a pattern that the method does not take.
    pub fn new(text: Text<'a>, pattern: Pattern<'a>, method: Method) -> Result<Occurrences<'a>, Refusal> {
        Occurrences::resume(text, pattern, method, Mark::START)
    }

    /// All occurrences at the mark's place or after it. With the mark of another iterator over the same text and
    /// pattern, it goes on where that one is, also with another method.
    ///
    /// ```
    /// use mitongory::{Mark, Method, Occurrences, Pattern, Refusal, Text};
    ///
    /// # fn main() -> Result<(), Refusal> {
    /// let (text, pattern) = (Text::from_bytes(&[0x0f, 0x0f])?, Pattern::new(&[0xf0], 4)?);
    /// let mut first = Occurrences::new(text, pattern, Method::Plain)?;
    /// assert_eq!(first.next(), Some(4));
    /// assert!(Occurrences::resume(text, pattern, Method::Wide, first.mark())?.eq([12]));
    /// # Ok(())
    /// # }
    /// ```
    ///
    /// # Errors
    ///
    /// [`Refusal::PatternUnfit`] for a pattern that the method does not take, [`Refusal::BeyondEnd`] for a mark above
    /// the number of places.
    pub fn resume(
        text: Text<'a>,
        pattern: Pattern<'a>,
        method: Method,
        mark: Mark,
    ) -> Result<Occurrences<'a>, Refusal> {
        let mut scratch = Scratch::for_search(method, pattern)?;
        // A call with no budget makes no step, but judges every refusal.
        let answer = search(text, pattern, method, mark, 0, &mut [], &mut scratch)?;
        Ok(Occurrences { text, pattern, method, scratch, calls: Calls::after(answer) })
    }

    /// Where the iterator is: no occurrence before this mark is still to be given, and none from it on was given.
    ///
    /// ```
    /// use mitongory::{Mark, Method, Occurrences, Pattern, Refusal, Text};
    ///
    /// # fn main() -> Result<(), Refusal> {
    /// let (text, pattern) = (Text::from_bytes(&[0x0f, 0x0f])?, Pattern::new(&[0xf0], 4)?);
    /// let mut occurrences = Occurrences::new(text, pattern, Method::Plain)?;
    /// assert_eq!(occurrences.mark(), Mark::START);
    /// occurrences.by_ref().count();
    /// assert_eq!(occurrences.mark(), Mark::at(13));
    /// # Ok(())
    /// # }
    /// ```
    #[must_use]
    pub fn mark(&self) -> Mark {
        self.calls.mark()
    }

    /// The next occurrence, if it is at hand or one call of [`search`] with this budget of steps finds it; else how far
    /// the search came. No more than one call is made.
    ///
    /// What a step costs depends on the [`Method`] and on the pattern. With a budget of 0 nothing moves.
    ///
    /// ```
    /// use mitongory::{Mark, Method, Occurrences, Pattern, Progress, Refusal, Text};
    ///
    /// # fn main() -> Result<(), Refusal> {
    /// // One 1, at place 100 of 201.
    /// let mut bytes = [0; 26];
    /// bytes[12] = 0b0000_1000;
    /// let mut occurrences = Occurrences::new(Text::new(&bytes, 201)?, Pattern::new(&[0x80], 1)?, Method::Plain)?;
    ///
    /// assert_eq!(occurrences.next_within(60), Progress::Working(Mark::at(60)));
    /// assert_eq!(occurrences.next_within(60), Progress::Occurrence(100));
    /// // The call that found it went on to place 120.
    /// assert_eq!(occurrences.next_within(60), Progress::Working(Mark::at(180)));
    /// assert_eq!(occurrences.next_within(60), Progress::Done);
    /// # Ok(())
    /// # }
    /// ```
    pub fn next_within(&mut self, budget: u32) -> Progress {
        let (text, pattern, method, scratch) = (self.text, self.pattern, self.method, &mut self.scratch);
        let call = |mark, list: &mut [u32]| search(text, pattern, method, mark, budget, list, scratch);
        self.calls.next_within(call).map(|[place]| place)
    }
}

impl Iterator for Occurrences<'_> {
    type Item = u32;

    fn next(&mut self) -> Option<u32> {
        calls::next(|budget| self.next_within(budget))
    }

    fn size_hint(&self) -> (usize, Option<usize>) {
        self.calls.size_hint(self.text.bit_count(), 1)
    }
}

impl FusedIterator for Occurrences<'_> {}

/// What is searched, how, and how far it came; neither the list nor the scratch.
impl fmt::Debug for Occurrences<'_> {
    fn fmt(&self, f: &mut fmt::Formatter<'_>) -> fmt::Result {
        f.debug_struct("Occurrences")
            .field("text", &self.text)
            .field("pattern", &self.pattern)
            .field("method", &self.method)
            .field("mark", &self.mark())
            .finish_non_exhaustive()
    }
}
