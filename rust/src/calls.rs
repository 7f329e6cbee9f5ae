//! What the iterators have in common: calls that go on from each other's marks, and the occurrences of the last one.
use crate::refusal::Refusal;
use crate::search::{Answer, Mark, Stop};

/// How many occurrences a call may write. Each call makes its tables anew, some microseconds of work at most; over so
/// many occurrences that is little. The occurrences of a set at one place are fewer, so that every call moves on.
const OCCURRENCES: usize = 1024;

/// The budget of each call that `next` makes: mostly some milliseconds of work, so that a call makes its tables seldom
/// and yet ends soon.
const CALL_STEPS: u32 = 1 << 20;

/// What `next_within` of an iterator came to, such as [`Occurrences::next_within`](crate::Occurrences::next_within). An
/// occurrence of a pattern is its place.
#[derive(Clone, Copy, Debug, PartialEq, Eq, Hash)]
#[must_use = "it may hold an occurrence"]
pub enum Progress<T = u32> {
    /// The next occurrence.
    Occurrence(T),
    /// The budget was spent before the next occurrence, and there is none before this mark that was not given.
    Working(Mark),
    /// Every occurrence was given.
    Done,
}

impl<T> Progress<T> {
    /// The same with the occurrence in another form.
    pub(crate) fn map<U>(self, form: impl FnOnce(T) -> U) -> Progress<U> {
        match self {
            Progress::Occurrence(occurrence) => Progress::Occurrence(form(occurrence)),
            Progress::Working(mark) => Progress::Working(mark),
            Progress::Done => Progress::Done,
        }
    }
}

/// The calls of an iterator. An occurrence takes `WIDTH` cells of the list, and the first is its place.
#[derive(Clone)]
pub(crate) struct Calls<const WIDTH: usize> {
    /// Where the next call goes on.
    next_call: Mark,
    done: bool,
    list: Vec<u32>,
    /// The occurrences of the last call are in `list[..written]`, and those from `next` on are still to be given.
    written: usize,
    next: usize,
}

impl<const WIDTH: usize> Calls<WIDTH> {
    /// Calls that go on from a mark, as one with no budget judged it.
    pub(crate) fn after(answer: Answer) -> Calls<WIDTH> {
        let done = answer.stop == Stop::Done;
        Calls { next_call: answer.mark, done, list: vec![0; OCCURRENCES * WIDTH], written: 0, next: 0 }
    }

    /// The place of the next occurrence that is at hand, or else where the next call goes on.
    pub(crate) fn mark(&self) -> Mark {
        self.found().map_or(self.next_call, |occurrence| Mark::at(occurrence[0]))
    }

    /// The next occurrence, if it is at hand or one call on a mark and a list finds it; else how far the calls came.
    pub(crate) fn next_within(
        &mut self,
        call: impl FnOnce(Mark, &mut [u32]) -> Result<Answer, Refusal>,
    ) -> Progress<[u32; WIDTH]> {
        if self.found().is_none() && !self.done {
            let answer =
                call(self.next_call, &mut self.list).expect("what was accepted once is accepted at any later mark");
            self.next_call = answer.mark;
            self.done = answer.stop == Stop::Done;
            self.written = answer.occurrences * WIDTH;
            self.next = 0;
        }
        match self.found() {
            Some(&occurrence) => {
                self.next += WIDTH;
                Progress::Occurrence(occurrence)
            }
            None if self.done => Progress::Done,
            None => Progress::Working(self.next_call),
        }
    }

    /// The bounds of how many occurrences are still to be given, with at most so many at each bit of the text.
    pub(crate) fn size_hint(&self, bit_count: u64, at_each: usize) -> (usize, Option<usize>) {
        let found = (self.written - self.next) / WIDTH;
        // No places but bits after the mark.
        let left = if self.done { 0 } else { bit_count - u64::from(self.next_call.place()) };
        (found, Some(found + left as usize * at_each))
    }

    /// The next occurrence that is at hand.
    fn found(&self) -> Option<&[u32; WIDTH]> {
        let cells = self.list[self.next..self.written].get(..WIDTH)?;
        cells.try_into().ok()
    }
}

/// The next occurrence, with as many calls as it takes.
pub(crate) fn next<T>(mut next_within: impl FnMut(u32) -> Progress<T>) -> Option<T> {
    loop {
        match next_within(CALL_STEPS) {
            Progress::Occurrence(occurrence) => return Some(occurrence),
            Progress::Working(_) => {}
            Progress::Done => return None,
        }
    }
}
