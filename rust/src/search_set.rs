//! The search call for a set of patterns.
use crate::pattern_set::PatternSet;
use crate::refusal::Refusal;
use crate::search::{Answer, Mark};
use crate::text::Text;
use crate::{call, ffi};

/// Searches for all patterns of a set in one pass: makes at most `budget` steps from the mark on and writes the
/// occurrences to the front of the list, as pairs of a place and the number of the pattern that occurs there. They rise
/// by place, and at one place by number. A pair takes two cells, the place first, and [`Answer::occurrences`] counts
/// pairs. The other cells of the list stay as they were.
///
/// Mark, budget and ways to stop are those of [`search`](crate::search()). A step decides one place for all patterns
/// and moves the mark by one. The number of places is that of the shortest pattern, `n - m + 1` for `n` bits of text
/// and `m` of pattern, or 0 if it is longer than the text. The call takes no scratch, and it allocates and keeps
/// nothing. Each call makes its tables anew.
///
/// The occurrences at one place are all written or none is: where they do not all find cells, the call stops with
/// [`Stop::Full`](crate::Stop::Full) and the mark at that place, and that step is not counted. Going on with a list
/// that is too short for the place would never end; two cells for each pattern of the set are enough for every place.
/// With so many and a budget of one step or more, a call moves the mark or is done. An odd cell at the end is no room.
///
/// It is proved of every list of such calls on one text and one set, of which the first begins at [`Mark::START`] and
/// each goes on from the mark before it: the pairs that they wrote, joined, are all occurrences before the last mark,
/// each once, whatever the budgets and lists are. With one pattern the places, steps, marks and stops are those of
/// [`Method::Plain`](crate::Method::Plain) on half as many cells, rounded down.
///
/// ```
/// use mitongory::{search_set, Bits, Mark, PatternSet, Stop};
///
/// # fn main() -> Result<(), Box<dyn std::error::Error>> {
/// let (text, three, two): (Bits, Bits, Bits) = ("01110".parse()?, "111".parse()?, "11".parse()?);
/// let (text, set) = (text.text()?, PatternSet::new([three.pattern()?, two.pattern()?])?);
///
/// // Both patterns occur at place 1, and pattern 1 at place 2 too. Five cells have room for two pairs.
/// let mut list = [9; 5];
/// let answer = search_set(text, &set, Mark::START, u32::MAX, &mut list)?;
/// assert_eq!((list, answer.occurrences), ([1, 0, 1, 1, 9], 2));
/// assert_eq!((answer.steps, answer.mark, answer.stop), (2, Mark::at(2), Stop::Full(2)));
///
/// // One that goes on begins with place 2. There are four places, as many as for the shorter pattern.
/// let answer = search_set(text, &set, answer.mark, u32::MAX, &mut list)?;
/// assert_eq!((&list[..2], answer.occurrences), (&[2, 1][..], 1));
/// assert_eq!((answer.steps, answer.mark, answer.stop), (2, Mark::at(4), Stop::Done));
///
/// // With one pair's cells no call gets past place 1.
/// let answer = search_set(text, &set, Mark::START, u32::MAX, &mut list[..3])?;
/// assert_eq!((answer.steps, answer.occurrences, answer.stop), (1, 0, Stop::Full(1)));
/// # Ok(())
/// # }
/// ```
///
/// # Errors
///
/// [`Refusal::BeyondEnd`] for a mark above the number of places.
pub fn search_set(
    text: Text<'_>,
    set: &PatternSet,
    mark: Mark,
    budget: u32,
    list: &mut [u32],
) -> Result<Answer, Refusal> {
    let mut answer = [0; 4];
    call::check(ffi::search_set(
        text.bytes(),
        text.bit_count(),
        set.bytes(),
        set.fixed(),
        set.bit_counts(),
        mark.place(),
        budget,
        list,
        &mut answer,
    ))?;
    Ok(Answer::of(answer))
}
