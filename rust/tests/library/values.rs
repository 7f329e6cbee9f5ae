//! The calls for H and for the cells of scratch against their rules.
use crate::buffers::Lent;
use crate::random::Random;
use crate::rules::{self, bits, least_move, takes};
use crate::second_runs;
use mitongory::{ffi, Bits};
use std::collections::BTreeMap;

/// A call's number and answer are as they should be: the value, or a refusal that leaves the answer.
fn check(said: u32, answer: &Lent<u64>, want: Result<u64, u32>) -> bool {
    match want {
        Ok(value) => said == 0 && answer.begins_with(&[value]),
        Err(number) => said == number && answer.unchanged(),
    }
}

#[test]
fn hash_value() {
    let random = Random::of("hash_value");
    let (mut calls, mut seen, mut answer) = (0, BTreeMap::new(), Lent::new(&random, 4));
    let long: Vec<u8> = (0..257).map(|_| random.draw() as u8).collect();
    // All bytes alike, with all bits alike or not: patterns that agree with themselves after many moves.
    let alike: Vec<Vec<u8>> = [0, 255, 0b0101_0101, 0b0001_0001].map(|b| vec![b; 257]).into();
    for round in 0..1_500 {
        let bytes = if round % 3 == 0 { &alike[random.below(4)] } else { &long };
        let from = random.below(257);
        let bytes = &bytes[if round % 10 == 0 { 0 } else { from }..];
        let len = bytes.len() as u64;
        let near = (8 * len + random.below(10) as u64).max(6) - 6;
        let m = random.one_of(&[near, 0, 1, 7, 8, 9, 16, 21, 2_048, 2_049, 1 << random.below(64), u64::MAX]);
        let cells = random.one_of(&[0, 1, 1, 1, 2, 4]);
        let run: Bits = second_runs::drawn(&random, m.clamp(1, 2_048) as usize).into_iter().collect();
        let fixed = &run.bytes()[..run.bytes().len() - usize::from(random.once_in(8))];
        let refused = [
            (101, cells == 0),
            (3, m == 0 || m > 2_048),
            (4, len < m.div_ceil(8)),
            (17, (fixed.len() as u64) < m.div_ceil(8)),
            (5, m < 8),
        ];
        let refused = refused.into_iter().find(|&(_, holds)| holds).map(|(number, _)| number);
        *seen.entry(refused).or_insert(0) += 1;
        let w = refused.map_or_else(|| rules::pattern(bytes, fixed, m as usize), |_| Vec::new());
        for value in 0..=255 {
            let want = match refused {
                Some(number) => Err(number),
                None => Ok(least_move(&w, &bits(&[value], 8), 0) as u64),
            };
            let said = ffi::hash_value(bytes, fixed, m, value, answer.lend(cells));
            assert!(
                check(said, &answer, want),
                "{bytes:x?}, {fixed:x?}, m {m}, value {value}, {cells} cells: {said}, not {want:?}"
            );
            calls += 1;
        }
    }
    println!("hash_value: {calls} calls, patterns by number {seen:?}");
    assert!(seen.keys().copied().eq([None, Some(3), Some(4), Some(5), Some(17), Some(101)]));
}

#[test]
fn scratch_cells() {
    let random = Random::of("scratch_cells");
    let (calls, mut answer) = (200_000, Lent::new(&random, 4));
    for _ in 0..calls {
        let method = random.one_of(&[0, 1, 2, 3, 4, 0, 1, 2, 3, 4, 5, 256, 1 << random.below(32), u32::MAX]);
        let near = 1 + random.below(2_060) as u64;
        let m =
            random.one_of(&[near, near, near, 0, 7, 8, 14, 15, 64, 65, 2_048, 2_049, 1 << random.below(64), u64::MAX]);
        let cells = random.one_of(&[0, 1, 1, 1, 2, 4]);
        let want = match () {
            _ if method > 4 => Err(100),
            _ if cells == 0 => Err(101),
            _ if m == 0 || m > 2_048 => Err(3),
            _ if !takes(method, m as usize) => Err(5),
            _ => Ok(rules::scratch_cells(method, m as usize) as u64),
        };
        let said = ffi::scratch_cells(method, m, answer.lend(cells));
        assert!(check(said, &answer, want), "method {method}, m {m}, {cells} cells: {said}, not {want:?}");
    }
    println!("scratch_cells: {calls} calls");
}
