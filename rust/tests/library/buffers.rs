//! A lent buffer between cells that are not lent, to see after a call which cells it changed.
use crate::random::{Draw, Random};

/// How many cells on each side are not lent.
const MARGIN: usize = 5;

pub struct Lent<T> {
    all: Vec<T>,
    before: Vec<T>,
    len: usize,
}

impl<T: Draw> Lent<T> {
    /// Room for at most `most` lent cells, of any content.
    pub fn new(random: &Random, most: usize) -> Lent<T> {
        let all: Vec<T> = (0..most + 2 * MARGIN).map(|_| T::draw(random)).collect();
        Lent { before: all.clone(), all, len: 0 }
    }

    /// New content everywhere.
    pub fn redraw(&mut self, random: &Random) {
        self.all.fill_with(|| T::draw(random));
    }

    /// The next call's buffer of `len` cells, with the content that stands there.
    pub fn lend(&mut self, len: usize) -> &mut [T] {
        assert!(len + 2 * MARGIN <= self.all.len());
        self.len = len;
        self.before.copy_from_slice(&self.all);
        &mut self.all[MARGIN..MARGIN + len]
    }

    /// The first `k` cells of the buffer.
    pub fn front(&self, k: usize) -> &[T] {
        assert!(k <= self.len);
        &self.all[MARGIN..MARGIN + k]
    }

    /// No cell was changed.
    pub fn unchanged(&self) -> bool {
        self.all == self.before
    }

    /// The buffer begins with `front`, and no other cell was changed.
    pub fn begins_with(&self, front: &[T]) -> bool {
        let end = MARGIN + front.len();
        front.len() <= self.len && self.all[MARGIN..end] == *front && self.unchanged_but(front.len())
    }

    /// No cell was changed but some of the first `k`.
    pub fn unchanged_but(&self, k: usize) -> bool {
        let end = MARGIN + k;
        self.all[..MARGIN] == self.before[..MARGIN] && self.all[end..] == self.before[end..]
    }
}
