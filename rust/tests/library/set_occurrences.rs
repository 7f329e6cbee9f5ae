//! The iterator over all occurrences of the patterns of a set.
use crate::pattern_sets::drawn;
use crate::random::Random;
use crate::set_rules::TextAndSet;
use mitongory::{Mark, Pattern, PatternSet, Progress, Refusal, SetOccurrences, Text};

/// The hits before a place, as the iterator has them.
fn hits_before(rules: &TextAndSet, place: usize) -> Vec<(u32, usize)> {
    rules.hits(0, place).into_iter().map(|[place, number]| (place, number as usize)).collect()
}

/// The iterator's occurrences are the rules' hits, also where one call's list is too short for them.
#[test]
fn of_sets_are_those_of_the_rules() {
    let random = Random::of("of_sets_are_those_of_the_rules");
    let mut most = 0;
    for _ in 0..300 {
        let (n, count) = (random.below(1_000), random.one_of(&[1, 2, 5, 20, 63, 64]));
        let x = drawn(&random, n, count);
        let want = hits_before(&x.rules, x.rules.places());
        most = most.max(want.len());
        let set = x.set();
        let occurrences = SetOccurrences::new(x.text(), &set);
        let (low, high) = occurrences.size_hint();
        assert!(low <= want.len() && want.len() <= high.unwrap());
        assert_eq!(occurrences.collect::<Vec<_>>(), want);
    }
    println!("of_sets_are_those_of_the_rules: up to {most} occurrences");
    assert!(most > 4_000);
}

/// Every pattern of a set of 64 occurs at every place: the iterator's list has room for them, and gets past each place.
#[test]
fn all_at_every_place() {
    for count in [1, 2, 63, 64] {
        let text = Text::from_bytes(&[0xff; 50]).unwrap();
        let set = PatternSet::new(vec![Pattern::new(&[0x80], 1).unwrap(); count]).unwrap();
        let mut occurrences = SetOccurrences::new(text, &set);
        for (given, place) in (0..400).enumerate() {
            for number in 0..count {
                let left = 400 * count - (given * count + number);
                let (low, high) = occurrences.size_hint();
                assert!(low <= left && left <= high.unwrap());
                assert!(occurrences.mark() <= Mark::at(place));
                assert_eq!(occurrences.next(), Some((place, number)));
            }
        }
        assert_eq!((occurrences.size_hint(), occurrences.mark()), ((0, Some(0)), Mark::at(400)));
        assert_eq!((occurrences.next(), occurrences.next()), (None, None));
        assert_eq!(occurrences.next_within(1), Progress::Done);
    }
}

/// Bounded calls with any budgets give the same occurrences. At each moment all before the mark are given and none
/// after its place, and another iterator that goes on from it gives all from that place on.
#[test]
fn of_sets_within_budgets() {
    let random = Random::of("of_sets_within_budgets");
    let (mut worked, mut resumed, mut within_a_place) = (0, 0, 0);
    for _ in 0..150 {
        let (n, count) = (random.below(500), random.one_of(&[1, 2, 3, 10, 64]));
        let x = drawn(&random, n, count);
        let (text, set) = (x.text(), x.set());
        let want = hits_before(&x.rules, x.rules.places());
        let before = |place: u32| want.partition_point(|&(at, _)| at < place);
        let (mut occurrences, mut given) = (SetOccurrences::new(text, &set), Vec::new());
        loop {
            let from = occurrences.mark();
            let budget = random.one_of(&[0, 1, 2, 5, 30, 200]);
            match occurrences.next_within(budget) {
                Progress::Occurrence(occurrence) => given.push(occurrence),
                Progress::Working(mark) => {
                    worked += 1;
                    assert_eq!(mark, occurrences.mark());
                    assert_eq!(mark == from, budget == 0);
                }
                Progress::Done => break,
            }
            let mark = occurrences.mark();
            let (low, high) = (before(mark.place()), before(mark.place() + 1));
            assert!(from <= mark && low <= given.len() && given.len() <= high);
            assert_eq!(given.last(), want[..given.len()].last());
            within_a_place += usize::from(low < given.len());
            if random.once_in(50) {
                resumed += 1;
                let again = SetOccurrences::resume(text, &set, mark).unwrap();
                assert!(again.clone().eq(want[low..].iter().copied()));
                occurrences = again;
                given.truncate(low);
            }
        }
        assert_eq!(given, want);
        assert_eq!(occurrences.mark(), Mark::at(x.rules.places() as u32));
    }
    println!(
        "of_sets_within_budgets: {worked} spent budgets, resumed {resumed} times, {within_a_place} marks in a place"
    );
    assert!(worked > 1_000 && resumed > 1_000 && within_a_place > 1_000);
}

/// Marks up to the number of places of the shortest pattern are accepted, those above it refused.
#[test]
fn of_sets_resumed_at_the_end() {
    let text = Text::from_bytes(&[0xff; 5]).unwrap();
    let set = PatternSet::new([12, 8, 60].map(|m| Pattern::new(&[0xff; 8], m).unwrap())).unwrap();
    let resume = |place| SetOccurrences::resume(text, &set, Mark::at(place));
    assert!(resume(28).unwrap().eq([(28, 0), (28, 1), (29, 1), (30, 1), (31, 1), (32, 1)]));
    assert!(resume(33).unwrap().eq([]));
    assert_eq!(resume(33).unwrap().next_within(0), Progress::Done);
    assert_eq!(resume(34).unwrap_err(), Refusal::BeyondEnd);
    assert_eq!(resume(u32::MAX).unwrap_err(), Refusal::BeyondEnd);
    // Of patterns that are all longer than the text none has a place.
    let set = PatternSet::new([Pattern::new(&[0; 6], 41).unwrap()]).unwrap();
    assert!(SetOccurrences::new(text, &set).eq([]));
    assert_eq!(SetOccurrences::resume(text, &set, Mark::at(1)).unwrap_err(), Refusal::BeyondEnd);
}

/// The `Debug` form does not show the list.
#[test]
fn debug_form() {
    let text = Text::from_bytes(&[0xf0; 1_000]).unwrap();
    let set = PatternSet::new([Pattern::new(&[0xff], 4).unwrap()]).unwrap();
    let mut occurrences = SetOccurrences::new(text, &set);
    occurrences.next();
    assert_eq!(
        format!("{occurrences:?}"),
        format!("SetOccurrences {{ text: {text:?}, set: {set:?}, mark: Mark(8), .. }}")
    );
}
