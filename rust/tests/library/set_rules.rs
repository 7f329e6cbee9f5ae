//! The rules of a search for a set of patterns, as they are written; shares no code with the crate.
use crate::rules::{occurs, places, Outcome};

/// A hit: a place and the number of the pattern that occurs there.
pub type Hit = [u32; 2];

/// A text and the patterns of a set; a bit of a pattern that is none is wild.
pub struct TextAndSet {
    pub t: Vec<bool>,
    pub words: Vec<Vec<Option<bool>>>,
    /// The hits at each place before E.
    at: Vec<Vec<Hit>>,
}

impl TextAndSet {
    pub fn new(t: Vec<bool>, words: Vec<Vec<Option<bool>>>) -> TextAndSet {
        // E is the largest E of any pattern.
        let end = words.iter().map(|w| places(t.len(), w.len())).max().unwrap_or(0);
        let hits = |s: usize| {
            let standing = words.iter().enumerate().filter(|(_, w)| occurs(&t, w, s));
            standing.map(|(number, _)| [s as u32, number as u32]).collect()
        };
        let at = (0..end).map(hits).collect();
        TextAndSet { t, words, at }
    }

    /// E.
    pub fn places(&self) -> usize {
        self.at.len()
    }

    /// All hits from a place on and before another.
    pub fn hits(&self, from: usize, to: usize) -> Vec<Hit> {
        self.at[from..to].concat()
    }

    /// The call's loop. A step decides one place. If its hits don't all fit, none of them is written, and the step is
    /// not counted.
    pub fn run(&self, mark: usize, budget: usize, cells: usize) -> Outcome<Hit> {
        let (mut mark, mut steps, mut written) = (mark, 0, Vec::new());
        while mark < self.places() && steps < budget {
            let hits = &self.at[mark];
            if 2 * (written.len() + hits.len()) > cells {
                return Outcome { steps: steps as u64, written, mark: mark as u64, stop: 1 };
            }
            written.extend(hits);
            steps += 1;
            mark += 1;
        }
        let stop = if mark == self.places() { 0 } else { 2 };
        Outcome { steps: steps as u64, written, mark: mark as u64, stop }
    }
}
