//! The iterator over all occurrences.
use crate::random::Random;
use crate::rules::{masked, takes, Pair};
use crate::second_runs;
use mitongory::{Bits, Mark, Method, Occurrences, Pattern, Progress, Refusal, Text, WildBits};

/// A drawn text, and a pattern out of it or after its end, with any second run.
fn drawn(random: &Random, most: usize) -> Pair {
    let ones = random.one_of(&[0, 1, 2, 10]);
    let t: Vec<bool> = (0..random.below(most)).map(|_| random.below(20) < ones).collect();
    let m = random.one_of(&[1, 2, 3, 8, 15, 20, 64, 65, 100]);
    let from = random.below(t.len() + 1);
    let w: Vec<bool> = (0..m).map(|j| t.get(from + j).copied().unwrap_or(false)).collect();
    let fixed = second_runs::drawn(random, m);
    Pair { t, w: masked(&w, &fixed) }
}

/// The bits of both.
fn packed(pair: &Pair) -> (Bits, WildBits) {
    (pair.t.iter().copied().collect(), pair.w.iter().copied().collect())
}

/// Every method's occurrences are the rules' occurrences, also where one call's list is too short for them.
#[test]
fn are_those_of_the_rules() {
    let random = Random::of("are_those_of_the_rules");
    let mut most = 0;
    for _ in 0..400 {
        let pair = drawn(&random, 5_000);
        let (text, pattern) = packed(&pair);
        let want = pair.occurrences();
        most = most.max(want.len());
        for &method in Method::ALL {
            match Occurrences::new(text.text().unwrap(), pattern.pattern().unwrap(), method) {
                Ok(occurrences) => {
                    let (low, high) = occurrences.size_hint();
                    assert!(low <= want.len() && want.len() <= high.unwrap());
                    assert_eq!(occurrences.collect::<Vec<u32>>(), want, "{method}");
                }
                Err(refusal) => {
                    assert_eq!(refusal, Refusal::PatternUnfit);
                    assert!(!takes(method as u32, pair.w.len()));
                }
            }
        }
    }
    println!("are_those_of_the_rules: up to {most} occurrences");
    assert!(most > 4_000);
}

/// A count of exactly one list's cells, one less and one more; and nothing after the end.
#[test]
fn around_one_list() {
    for count in [0, 1, 1_023, 1_024, 1_025, 2_048, 2_049] {
        let bytes = vec![0xff; (count as usize).div_ceil(8)];
        let text = Text::new(&bytes, count).unwrap();
        let mut occurrences = Occurrences::new(text, Pattern::new(&[0x80], 1).unwrap(), Method::Wide).unwrap();
        for place in 0..count {
            let left = (count - place) as usize;
            let (low, high) = occurrences.size_hint();
            assert!(low <= left && left <= high.unwrap());
            assert_eq!(occurrences.next(), Some(place as u32));
        }
        assert_eq!(occurrences.size_hint(), (0, Some(0)));
        assert_eq!((occurrences.next(), occurrences.next()), (None, None));
        assert_eq!(occurrences.next_within(1), Progress::Done);
        assert_eq!(occurrences.mark(), Mark::at(count as u32));
    }
}

/// Bounded calls with any budgets give the same occurrences. At each moment the mark parts those given from those that
/// are not, and another iterator goes on from it.
#[test]
fn within_budgets() {
    let random = Random::of("within_budgets");
    let (mut worked, mut resumed) = (0, 0);
    for _ in 0..300 {
        let pair = drawn(&random, 2_000);
        let (text, pattern) = packed(&pair);
        let (text, pattern) = (text.text().unwrap(), pattern.pattern().unwrap());
        let want = pair.occurrences();
        let fits = |method: &Method| takes(*method as u32, pair.w.len());
        let methods: Vec<Method> = Method::ALL.iter().copied().filter(fits).collect();
        let mut occurrences = Occurrences::new(text, pattern, random.one_of(&methods)).unwrap();
        let mut given = Vec::new();
        loop {
            let before = occurrences.mark();
            let budget = random.one_of(&[0, 1, 2, 5, 30, 200]);
            match occurrences.next_within(budget) {
                Progress::Occurrence(place) => given.push(place),
                Progress::Working(mark) => {
                    worked += 1;
                    assert_eq!(mark, occurrences.mark());
                    assert_eq!(mark == before, budget == 0);
                }
                Progress::Done => break,
            }
            let mark = occurrences.mark();
            assert!(before <= mark);
            assert_eq!(given, want[..want.partition_point(|&place| place < mark.place())]);
            if random.once_in(20) {
                resumed += 1;
                let method = random.one_of(&methods);
                assert!(Occurrences::resume(text, pattern, method, mark)
                    .unwrap()
                    .eq(want[given.len()..].iter().copied()));
                occurrences = Occurrences::resume(text, pattern, method, mark).unwrap();
            }
        }
        assert_eq!(given, want);
        assert_eq!(occurrences.mark(), Mark::at(pair.places() as u32));
    }
    println!("within_budgets: {worked} spent budgets, resumed {resumed} times");
    assert!(worked > 2_000 && resumed > 2_000);
}

/// Words of 16 bits that differ in a field of eight are found by one pattern, with every method, and so are all other
/// places at which it occurs.
#[test]
fn words_with_a_wild_field() {
    let random = Random::of("words_with_a_wild_field");
    let word: WildBits = "011010????????01".parse().unwrap();
    let (mut t, mut begin) = (Vec::new(), Vec::new());
    while begin.len() < 3_000 {
        t.extend((0..random.below(20)).map(|_| random.once_in(2)));
        begin.push(t.len() as u32);
        t.extend(word.to_string().chars().map(|c| if c == '?' { random.once_in(2) } else { c == '1' }));
    }
    let text: Bits = t.iter().copied().collect();
    let w = word.to_string().chars().map(|c| (c != '?').then_some(c == '1')).collect();
    let want = Pair { t, w }.occurrences();
    assert!(begin.iter().all(|place| want.binary_search(place).is_ok()) && want.len() > begin.len());
    for &method in Method::ALL {
        let occurrences = Occurrences::new(text.text().unwrap(), word.pattern().unwrap(), method).unwrap();
        assert!(occurrences.eq(want.iter().copied()), "{method}");
    }
}

/// A pattern of wild bits alone is found at every place.
#[test]
fn every_place() {
    let (text, bytes) = (Text::from_bytes(&[0x5a; 400]).unwrap(), [0xa5; 8]);
    for &method in Method::ALL {
        let pattern = Pattern::with_fixed(&bytes, &[0; 8], 64).unwrap();
        assert!(Occurrences::new(text, pattern, method).unwrap().eq(0..=3_200 - 64), "{method}");
    }
}

/// Marks up to the number of places are accepted, those above it refused.
#[test]
fn resumed_at_the_end() {
    let (text, pattern) = (Text::from_bytes(&[0xff; 5]).unwrap(), Pattern::from_bytes(&[0xff]).unwrap());
    let resume = |place| Occurrences::resume(text, pattern, Method::Hash, Mark::at(place));
    assert!(resume(32).unwrap().eq([32]));
    assert!(resume(33).unwrap().eq([]));
    assert_eq!(resume(33).unwrap().next_within(0), Progress::Done);
    assert_eq!(resume(34).unwrap_err(), Refusal::BeyondEnd);
    assert_eq!(resume(u32::MAX).unwrap_err(), Refusal::BeyondEnd);
}

/// The `Debug` forms show neither the list nor the scratch.
#[test]
fn debug_forms() {
    let text = Text::from_bytes(&[0xf0; 1_000]).unwrap();
    let mut occurrences = Occurrences::new(text, Pattern::new(&[0xff], 4).unwrap(), Method::Wide).unwrap();
    occurrences.next();
    assert_eq!(
        format!("{occurrences:?}"),
        format!("Occurrences {{ text: {text:?}, pattern: Pattern {{ bit_count: 4, bits: 1111 }}, method: Wide, mark: Mark(8), .. }}")
    );
    assert_eq!(format!("{:?}", mitongory::Scratch::new()), "Scratch { .. }");
}
