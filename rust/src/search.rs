//! The search call: a bounded piece of work that goes on from a mark.
use crate::method::Method;
use crate::pattern::Pattern;
use crate::refusal::Refusal;
use crate::text::Text;
use crate::{call, ffi};
use std::fmt;

/// How many 64-bit cells are enough for the tables of any call: the largest figure of
/// [`Method::scratch_cells`](crate::Method::scratch_cells).
pub const SCRATCH_CELLS: usize = 4222;

/// The first place that is not yet decided.
///
/// A search begins at [`Mark::START`], and each further call goes on from the mark in the answer before it. The number
/// can be stored and a search taken up later: nothing else is needed, and any method may go on.
#[derive(Clone, Copy, Debug, Default, PartialEq, Eq, PartialOrd, Ord, Hash)]
pub struct Mark(u32);

impl Mark {
    /// The mark of a fresh search: place 0.
    pub const START: Mark = Mark(0);

    /// A mark at a place. A search refuses a mark above the number of places.
    ///
    /// ```
    /// use mitongory::Mark;
    ///
    /// assert_eq!(Mark::at(0), Mark::START);
    /// ```
    #[must_use]
    pub const fn at(place: u32) -> Mark {
        Mark(place)
    }

    /// The place that the mark is at.
    ///
    /// ```
    /// assert_eq!(mitongory::Mark::at(7).place(), 7);
    /// ```
    #[must_use]
    pub const fn place(self) -> u32 {
        self.0
    }
}

/// How an accepted call stopped.
#[derive(Clone, Copy, Debug, PartialEq, Eq, Hash)]
pub enum Stop {
    /// Every place is decided.
    Done,
    /// The occurrence at this place found no free cell in the list; for a set of patterns, those at this place did not all
    /// find cells. The mark is at it. The step that came to it is not counted; the next call's step from here counts as
    /// usual, unless it is cut too.
    Full(u32),
    /// The budget was spent before the last place was decided.
    Spent,
}

/// What an accepted call answers: [`search`], or [`search_set`](crate::search_set()) for a set of patterns.
#[derive(Clone, Copy, Debug, PartialEq, Eq, Hash)]
#[must_use = "it says how many cells of the list hold occurrences, and where to go on"]
pub struct Answer {
    /// The steps made, at most the budget. A step that a full list cuts is not counted.
    pub steps: u32,
    /// How many occurrences were written to the front of the list. Each takes a cell, and for a set of patterns two.
    pub occurrences: usize,
    /// Where the next call goes on.
    pub mark: Mark,
    /// How the call stopped.
    pub stop: Stop,
}

impl Answer {
    /// The answer that an accepted call left in its four cells.
    pub(crate) fn of([steps, occurrences, mark, stop]: [u64; 4]) -> Answer {
        let mark = Mark(call::of_cell(mark));
        Answer {
            steps: call::of_cell(steps),
            occurrences: call::of_cell(occurrences),
            mark,
            stop: match stop {
                0 => Stop::Done,
                1 => Stop::Full(mark.place()),
                2 => Stop::Spent,
                _ => unreachable!("a call stops in one of three ways"),
            },
        }
    }
}

/// The cells for the tables that a call makes. Any content will do, so one scratch serves many calls: [`new`](Scratch::new)
/// makes one for every method and every pattern, and [`for_search`](Scratch::for_search) one that is no larger than a
/// method needs for a pattern. What a call answers does not depend on the scratch, if it has enough cells.
#[derive(Clone)]
pub struct Scratch {
    cells: Vec<u64>,
}

impl Scratch {
    /// A scratch for every method and every pattern: [`SCRATCH_CELLS`] cells.
    ///
    /// ```
    /// assert_eq!(mitongory::Scratch::new().cell_count(), mitongory::SCRATCH_CELLS);
    /// ```
    #[must_use]
    pub fn new() -> Scratch {
        Scratch { cells: vec![0; SCRATCH_CELLS] }
    }

    /// A scratch of just the cells that the method takes for the pattern
    /// ([`Method::scratch_cells`](crate::Method::scratch_cells)). It serves every search for which they are enough, and
    /// any other is refused.
    ///
    /// ```
    /// use mitongory::{search, Mark, Method, Pattern, Refusal, Scratch, Text};
    ///
    /// # fn main() -> Result<(), Refusal> {
    /// let (text, pattern) = (Text::from_bytes(b"a bit, and a bit more")?, Pattern::from_bytes(b"bit")?);
    /// let mut scratch = Scratch::for_search(Method::Skip, pattern)?;
    /// assert_eq!(scratch.cell_count(), 256 + 24);
    ///
    /// let (mut list, all) = ([0; 8], u32::MAX);
    /// let answer = search(text, pattern, Method::Skip, Mark::START, all, &mut list, &mut scratch)?;
    /// assert_eq!(list[..answer.occurrences], [2 * 8, 13 * 8]);
    ///
    /// // Hash takes 512 cells for every pattern.
    /// let refused = search(text, pattern, Method::Hash, Mark::START, all, &mut list, &mut scratch);
    /// assert_eq!(refused, Err(Refusal::ScratchTooShort));
    /// # Ok(())
    /// # }
    /// ```
    ///
    /// # Errors
    ///
    /// [`Refusal::PatternUnfit`] for a pattern that the method does not take.
    pub fn for_search(method: Method, pattern: Pattern<'_>) -> Result<Scratch, Refusal> {
        Ok(Scratch { cells: vec![0; method.scratch_cells(pattern.bit_count())?] })
    }

    /// How many cells it has.
    ///
    /// ```
    /// use mitongory::{Method, Pattern, Scratch};
    ///
    /// let pattern = Pattern::new(&[0xe0], 3).unwrap();
    /// assert_eq!(Scratch::for_search(Method::Plain, pattern).unwrap().cell_count(), 32);
    /// ```
    #[must_use]
    pub fn cell_count(&self) -> usize {
        self.cells.len()
    }
}

impl Default for Scratch {
    fn default() -> Scratch {
        Scratch::new()
    }
}

/// The cells mean nothing after a call, so none is shown.
impl fmt::Debug for Scratch {
    fn fmt(&self, f: &mut fmt::Formatter<'_>) -> fmt::Result {
        f.debug_struct("Scratch").finish_non_exhaustive()
    }
}

/// Makes at most `budget` steps from the mark on and writes the occurrences, rising, to the front of the list. The
/// other cells of the list stay as they were.
///
/// The call allocates nothing and keeps nothing: the mark in the answer is all that the next call needs. Each call makes
/// the method's tables anew, which took two microseconds or less where it was measured with every bit fixed, and some
/// microseconds with wild bits, so budgets of ten thousand steps and more lose little by it.
///
/// The call stops early where an occurrence finds no free cell: with [`Stop::Full`], and the step that was cut is not
/// counted. It may then have made no step and yet have written places and moved the mark, so it is the mark that tells
/// whether a search goes on. With an empty list and an occurrence at the mark a call stops full with no step made and
/// the mark where it was, and going on with an empty list would never end. With a free cell and a budget of one step or
/// more a call moves the mark or is done.
///
/// A call writes all occurrences from its mark on that lie before the mark that it leaves. It is proved of every list of
/// such calls on one text and one pattern, of which the first begins at [`Mark::START`] and each goes on from the mark
/// before it, refused calls included: the places that they wrote, joined, are all occurrences before the last mark,
/// rising and each once, whatever the methods, budgets and lists are; and the steps that they made are together at most
/// the last mark. This is the theorem `whole` (`crates/capi/proofs/CallList.antt`).
///
/// ```
/// use mitongory::{search, Bits, Mark, Method, Scratch, Stop};
///
/// # fn main() -> Result<(), Box<dyn std::error::Error>> {
/// let (ones, three): (Bits, Bits) = ("11111".parse()?, "111".parse()?);
/// let (text, pattern) = (ones.text()?, three.pattern()?);
/// let (mut list, mut scratch) = ([0; 2], Scratch::new());
///
/// // The third occurrence finds no free cell. The step that comes to it is not counted.
/// let answer = search(text, pattern, Method::Plain, Mark::START, u32::MAX, &mut list, &mut scratch)?;
/// assert_eq!((list, answer.occurrences), ([0, 1], 2));
/// assert_eq!((answer.steps, answer.mark, answer.stop), (2, Mark::at(2), Stop::Full(2)));
///
/// // With an empty list no call gets past it.
/// let answer = search(text, pattern, Method::Plain, answer.mark, u32::MAX, &mut [], &mut scratch)?;
/// assert_eq!((answer.steps, answer.mark, answer.stop), (0, Mark::at(2), Stop::Full(2)));
///
/// // One with a free cell begins with it.
/// let answer = search(text, pattern, Method::Wide, answer.mark, u32::MAX, &mut list, &mut scratch)?;
/// assert_eq!((list, answer.occurrences), ([2, 1], 1));
/// assert_eq!((answer.steps, answer.mark, answer.stop), (1, Mark::at(3), Stop::Done));
/// # Ok(())
/// # }
/// ```
///
/// # Errors
///
/// [`Refusal::PatternUnfit`] for a pattern that the method does not take, [`Refusal::BeyondEnd`] for a mark above the
/// number of places, which is `n - m + 1` for `n` bits of text and `m` of pattern, or 0 for a pattern longer than the
/// text; [`Refusal::ScratchTooShort`] for a scratch that was made for another search and has too few cells.
pub fn search(
    text: Text<'_>,
    pattern: Pattern<'_>,
    method: Method,
    mark: Mark,
    budget: u32,
    list: &mut [u32],
    scratch: &mut Scratch,
) -> Result<Answer, Refusal> {
    let mut answer = [0; 4];
    call::check(ffi::search(
        text.bytes(),
        text.bit_count(),
        pattern.bytes(),
        pattern.fixed(),
        pattern.bit_count(),
        method.number(),
        mark.place(),
        budget,
        list,
        &mut scratch.cells,
        &mut answer,
    ))?;
    Ok(Answer::of(answer))
}
