//! The call for eight bits, and what the crate makes of it, against the rule as it is written.
use crate::buffers::Lent;
use crate::random::Random;
use crate::rules::bits;
use mitongory::{ffi, EightBits, Text};
use std::collections::BTreeMap;

/// Byte and count by the rule: the count is the least of 8 and n - p, or 0 where p is n or more; bit j of the byte is the
/// text's bit p + j for j below the count, else 0.
fn written(text: &[bool], p: u32) -> [u64; 2] {
    let count = text.len().saturating_sub(p as usize).min(8);
    let bit = |j: usize| j < count && text[p as usize + j];
    [(0..8).fold(0, |byte, j| 2 * byte + u64::from(bit(j))), count as u64]
}

#[test]
fn drawn_calls() {
    let random = Random::of("eight_bits");
    let (calls, mut answer, mut seen) = (400_000, Lent::new(&random, 4), BTreeMap::new());
    let bytes: Vec<u8> = (0..40).map(|_| random.draw() as u8).collect();
    for _ in 0..calls {
        let bytes = &bytes[random.below(40)..];
        let len = bytes.len() as u64;
        let near = 8 * len + random.below(20) as u64;
        let n = random.one_of(&[8 * len, near - near.min(10), 0, 7, 8, 1 << random.below(64), u64::MAX]);
        let end = n.wrapping_sub(random.below(12) as u64) as u32;
        let place = random.one_of(&[random.one_of(&[0, 1]), end, random.below(320) as u32, u32::MAX, u32::MAX - 7]);
        let cells = random.one_of(&[0, 1, 2, 2, 2, 4]);
        let want = match () {
            _ if cells < 2 => Err(101),
            _ if n > 1 << 30 => Err(1),
            _ if len < n.div_ceil(8) => Err(2),
            _ => Ok(written(&bits(bytes, n as usize), place)),
        };
        *seen.entry(want.map(|told| told[1])).or_insert(0) += 1;
        let said = ffi::eight_bits(bytes, n, place, answer.lend(cells));
        let good = match want {
            Ok(told) => said == 0 && answer.begins_with(&told),
            Err(number) => said == number && answer.unchanged(),
        };
        assert!(good, "{bytes:x?}, n {n}, place {place}, {cells} cells: {said}, not {want:?}");
    }
    println!("eight_bits: {calls} calls, by count and by number {seen:?}");
    assert!(seen.keys().copied().eq((0..=8).map(Ok).chain([1, 2, 101].map(Err))));
}

/// Every n from 0 to 70 with every place from 0 to n + 20 and the last ones of 32 bits, all bits from n on being ones: by
/// the call and by the method. Reads of eight in a row give the text back, and zeros after its end change nothing.
#[test]
fn near_the_end() {
    let random = Random::of("near_the_end");
    for n in 0..=70 {
        let mut bytes: Vec<u8> = (0..11).map(|_| random.draw() as u8).collect();
        bytes.iter_mut().skip(n / 8 + 1).for_each(|byte| *byte = 0xff);
        bytes[n / 8] |= 0xff >> (n % 8);
        let mut cut = bytes.clone();
        cut.iter_mut().skip(n / 8 + 1).for_each(|byte| *byte = 0);
        cut[n / 8] &= !(0xff >> (n % 8));
        let (own, text) = (bits(&bytes, n), Text::new(&bytes, n as u64).unwrap());
        for place in (0..=n as u32 + 20).chain(u32::MAX - 20..=u32::MAX) {
            let want = written(&own, place);
            for bytes in [&bytes, &cut] {
                let mut cells = [9; 3];
                assert_eq!(ffi::eight_bits(bytes, n as u64, place, &mut cells), 0);
                assert_eq!(cells, [want[0], want[1], 9], "n {n}, place {place}");
            }
            assert_eq!(text.eight_bits(place), EightBits { byte: want[0] as u8, count: want[1] as u32 });
        }
        let reads = (0..n.div_ceil(8)).map(|k| text.eight_bits(8 * k as u32));
        let again: Vec<bool> = reads.flat_map(|read| bits(&[read.byte], read.count as usize)).collect();
        assert_eq!(again, own);
    }
}

/// What is shown of a place: sixteen characters in groups of four, a dot for each bit that there is not.
#[test]
fn around() {
    let random = Random::of("around");
    for n in 0..=40u32 {
        let bytes: Vec<u8> = (0..6).map(|_| random.draw() as u8).collect();
        let (own, text) = (bits(&bytes, n as usize), Text::new(&bytes, n.into()).unwrap());
        for place in (0..=n + 20).chain(u32::MAX - 20..=u32::MAX) {
            let shown = |p: i64| match usize::try_from(p).ok().and_then(|p| own.get(p)) {
                None => '·',
                Some(true) => '1',
                Some(false) => '0',
            };
            let four = |from: i64| (0..4).map(|j| shown(i64::from(place) + from + j)).collect::<String>();
            let want = format!("{} {} | {} {}", four(-8), four(-4), four(0), four(4));
            assert_eq!(text.around(place), want, "n {n}, place {place}");
        }
    }
}
