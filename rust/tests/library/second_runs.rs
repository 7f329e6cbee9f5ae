//! Second runs of patterns, drawn: which bits of a pattern are fixed, and which are wild.
use crate::random::Random;
use std::ops::Range;

/// What a drawn second run is like.
#[derive(Clone, Copy, Debug, PartialEq, Eq, PartialOrd, Ord)]
pub enum Kind {
    NoneWild,
    FewWild,
    ManyWild,
    FewFixed,
    AllWild,
    FieldFirst,
    FieldInside,
    FieldLast,
    Periodic,
}

/// Each kind, one after the other.
pub const KINDS: [Kind; 9] = [
    Kind::NoneWild,
    Kind::FewWild,
    Kind::ManyWild,
    Kind::FewFixed,
    Kind::AllWild,
    Kind::FieldFirst,
    Kind::FieldInside,
    Kind::FieldLast,
    Kind::Periodic,
];

/// A second run of m bits, true for fixed.
pub fn of_kind(random: &Random, kind: Kind, m: usize) -> Vec<bool> {
    let with = |value: bool, count: usize| {
        let mut run = vec![!value; m];
        (0..count).for_each(|_| run[random.below(m)] = value);
        run
    };
    let field = |wild: Range<usize>| (0..m).map(|j| !wild.contains(&j)).collect();
    let len = 1 + random.below(random.one_of(&[4, 8, 16, 64, 2_048]).min(m));
    match kind {
        Kind::NoneWild => vec![true; m],
        Kind::FewWild => with(false, 1 + random.below(3)),
        Kind::ManyWild => (0..m).map(|_| random.once_in(2)).collect(),
        Kind::FewFixed => with(true, 1 + random.below(3)),
        Kind::AllWild => vec![false; m],
        Kind::FieldFirst => field(0..len),
        Kind::FieldInside => {
            let from = random.below(m - len + 1);
            field(from..from + len)
        }
        Kind::FieldLast => field(m - len..m),
        Kind::Periodic => {
            let period: Vec<bool> = (0..1 + random.below(9)).map(|_| random.once_in(2)).collect();
            (0..m).map(|j| period[j % period.len()]).collect()
        }
    }
}

/// A second run of any kind; every bit is fixed one time in three.
pub fn drawn(random: &Random, m: usize) -> Vec<bool> {
    let kind = if random.once_in(4) { Kind::NoneWild } else { random.one_of(&KINDS) };
    of_kind(random, kind, m)
}
