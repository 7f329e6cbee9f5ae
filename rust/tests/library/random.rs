//! A small generator (splitmix64), so that every run draws the same.
use std::cell::Cell;
use std::env;

/// The seed of the run: `MITONGORY_SEED`, or a fixed one.
fn seed() -> u64 {
    match env::var("MITONGORY_SEED") {
        Ok(text) => text.parse().expect("MITONGORY_SEED is a number"),
        Err(_) => 2026,
    }
}

pub struct Random(Cell<u64>);

impl Random {
    /// The generator of one test, which says so.
    pub fn of(test: &str) -> Random {
        let seed = seed();
        println!("{test}: seed {seed}");
        let state = test.bytes().fold(seed, |sum, byte| sum.wrapping_mul(1_000_003).wrapping_add(u64::from(byte)));
        Random(Cell::new(state))
    }

    pub fn draw(&self) -> u64 {
        let x = self.0.get().wrapping_add(0x9e37_79b9_7f4a_7c15);
        self.0.set(x);
        let x = (x ^ x >> 30).wrapping_mul(0xbf58_476d_1ce4_e5b9);
        let x = (x ^ x >> 27).wrapping_mul(0x94d0_49bb_1331_11eb);
        x ^ x >> 31
    }

    /// A number below `k`.
    pub fn below(&self, k: usize) -> usize {
        (self.draw() % k as u64) as usize
    }

    /// True once in `k` times.
    pub fn once_in(&self, k: usize) -> bool {
        self.below(k) == 0
    }

    pub fn one_of<T: Copy>(&self, choices: &[T]) -> T {
        choices[self.below(choices.len())]
    }
}

/// A cell of any content.
pub trait Draw: Copy + PartialEq + std::fmt::Debug {
    fn draw(random: &Random) -> Self;
}

impl Draw for u8 {
    fn draw(random: &Random) -> u8 {
        random.draw() as u8
    }
}

impl Draw for u32 {
    fn draw(random: &Random) -> u32 {
        random.draw() as u32
    }
}

impl Draw for u64 {
    fn draw(random: &Random) -> u64 {
        random.draw()
    }
}
