//! The search rules, bit by bit and as they are written: nothing here is made for speed or shares code with the crate.
use std::ops::RangeInclusive;

/// The bits of a packed run, in order.
pub fn bits(bytes: &[u8], count: usize) -> Vec<bool> {
    (0..count).map(|p| bytes[p / 8] & (1 << (7 - p % 8)) != 0).collect()
}

/// A pattern's bits, none where its second run has a 0: there it is wild.
pub fn masked(bits: &[bool], fixed: &[bool]) -> Vec<Option<bool>> {
    bits.iter().zip(fixed).map(|(&bit, &fixed)| fixed.then_some(bit)).collect()
}

/// The bits of a packed pattern.
pub fn pattern(bytes: &[u8], fixed: &[u8], count: usize) -> Vec<Option<bool>> {
    masked(&bits(bytes, count), &bits(fixed, count))
}

/// A bit of a pattern agrees with a bit: a wild one with both values, a fixed one with its own.
fn agrees(bit: Option<bool>, with: bool) -> bool {
    match bit {
        None => true,
        Some(own) => own == with,
    }
}

/// E, the number of places.
pub fn places(n: usize, m: usize) -> usize {
    if m <= n {
        n - m + 1
    } else {
        0
    }
}

/// The pattern w occurs in the text t at place s.
pub fn occurs(t: &[bool], w: &[Option<bool>], s: usize) -> bool {
    s < places(t.len(), w.len()) && (0..w.len()).all(|j| agrees(w[j], t[s + j]))
}

/// A text and a pattern; a bit of the pattern that is none is wild.
pub struct Pair {
    pub t: Vec<bool>,
    pub w: Vec<Option<bool>>,
}

pub const PLAIN: u32 = 0;
pub const HASH: u32 = 1;
pub const SKIP: u32 = 2;
pub const WIDE: u32 = 3;
pub const TAIL: u32 = 4;
/// How many methods there are.
pub const METHODS: u32 = 5;

/// The fewest and the most bits of a pattern that a method takes.
pub fn pattern_bits(method: u32) -> RangeInclusive<usize> {
    match method {
        HASH => 8..=2_048,
        SKIP => 15..=2_048,
        TAIL => 1..=64,
        _ => 1..=2_048,
    }
}

/// A method takes patterns of m bits.
pub fn takes(method: u32, m: usize) -> bool {
    pattern_bits(method).contains(&m)
}

/// How many cells of scratch a method takes for a pattern of m bits.
pub fn scratch_cells(method: u32, m: usize) -> usize {
    match method {
        PLAIN => 16 * (m + 7).div_ceil(8),
        HASH => 512,
        SKIP => 256 + m,
        WIDE => 2 * (63 + m),
        _ => 2,
    }
}

/// The least d from `from` on at which the pattern agrees with eight bits that end its window.
pub fn least_move(w: &[Option<bool>], eight: &[bool], from: usize) -> usize {
    let m = w.len() as isize;
    let meets = |d: usize| {
        (0..8).all(|j: isize| {
            let i = m - 8 - d as isize + j;
            i < 0 || agrees(w[i as usize], eight[j as usize])
        })
    };
    (from..=w.len()).find(|&d| meets(d)).expect("d = m meets it: no index is left")
}

/// What a call answers.
#[derive(Debug, PartialEq)]
pub struct Outcome<T = u32> {
    pub steps: u64,
    pub written: Vec<T>,
    pub mark: u64,
    /// 0 done, 1 full, 2 spent.
    pub stop: u64,
}

impl<T> Outcome<T> {
    pub fn cells(&self) -> [u64; 4] {
        [self.steps, self.written.len() as u64, self.mark, self.stop]
    }
}

impl Pair {
    pub fn places(&self) -> usize {
        places(self.t.len(), self.w.len())
    }

    /// The pattern occurs at place s.
    pub fn occurs(&self, s: usize) -> bool {
        occurs(&self.t, &self.w, s)
    }

    pub fn occurrences(&self) -> Vec<u32> {
        (0..self.places()).filter(|&s| self.occurs(s)).map(|s| s as u32).collect()
    }

    /// One step from s < E: the places found, and the next mark.
    fn step(&self, method: u32, s: usize) -> (Vec<usize>, usize) {
        let (t, w, n, m, end) = (&self.t, &self.w, self.t.len(), self.w.len(), self.places());
        let (found, next) = match method {
            PLAIN => (vec![s], s + 1),
            HASH => {
                let eight = &t[s + m - 8..s + m];
                match least_move(w, eight, 0) {
                    0 => (vec![s], s + least_move(w, eight, 1)),
                    d => (vec![], s + d),
                }
            }
            SKIP => {
                let b = (s + m) / 8 - 1;
                let shows = |a: &usize| (0..8).all(|j| agrees(w[8 * b - a + j], t[8 * b + j]));
                ((s..=8 * b).filter(|&a| a < end).filter(shows).collect(), 8 * b + 1)
            }
            TAIL => {
                let ends = |r: &usize| (0..*r).all(|j| agrees(w[j], t[s + m - r + j]));
                let r = (0..m).rev().find(ends).expect("r = 0 always is one");
                (vec![s], s + m - r)
            }
            _ => {
                let stands = |i: &usize| (0..m).all(|k| s + i + k >= n || agrees(w[k], t[s + i + k]));
                let window = 63 + m;
                let next = match t.get(s + window) {
                    None => end,
                    Some(&c) => match (0..m).rev().find(|&k| agrees(w[k], c)) {
                        Some(k) => s + window - k,
                        None => s + window + 1,
                    },
                };
                let flags: Vec<usize> = (0..64).filter(|i| s + i < end).filter(stands).map(|i| s + i).collect();
                return (flags, next.min(end));
            }
        };
        (found.into_iter().filter(|&a| self.occurs(a)).collect(), next.min(end))
    }

    /// The call's loop. A step that a full list cuts is not counted.
    pub fn run(&self, method: u32, mark: usize, budget: usize, cells: usize) -> Outcome {
        let (mut mark, mut steps, mut written) = (mark, 0, Vec::new());
        while mark < self.places() && steps < budget {
            let (found, next) = self.step(method, mark);
            for a in found {
                if written.len() == cells {
                    return Outcome { steps: steps as u64, written, mark: a as u64, stop: 1 };
                }
                written.push(a as u32);
            }
            steps += 1;
            mark = next;
        }
        let stop = if mark == self.places() { 0 } else { 2 };
        Outcome { steps: steps as u64, written, mark: mark as u64, stop }
    }
}
