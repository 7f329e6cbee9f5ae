//! Sets of patterns and search calls for them, against the rules: every answer, list and refusal.
use crate::buffers::Lent;
use crate::random::Random;
use crate::rules::{bits, masked, pattern};
use crate::searches::{any_at_wild, drawn_bits, packed};
use crate::second_runs;
use crate::set_rules::{Hit, TextAndSet};
use mitongory::{
    ffi, search, search_set, Bits, Mark, Method, Pattern, PatternSet, Refusal, Scratch, Stop, Text, WildBits,
};
use std::collections::hash_map::DefaultHasher;
use std::collections::BTreeMap;
use std::hash::{Hash, Hasher};

/// Text and patterns as they are handed over.
#[derive(Clone, Copy, Debug)]
struct Input<'a> {
    text: &'a [u8],
    n: u64,
    patterns: &'a [u8],
    fixed: &'a [u8],
    counts: &'a [u64],
}

impl Input<'_> {
    /// The bits of all, of an input that has all of them.
    fn rules(&self) -> TextAndSet {
        let mut from = 0;
        let word = |&m: &u64| {
            let begin = from;
            from += m.div_ceil(8) as usize;
            pattern(&self.patterns[begin..], &self.fixed[begin..], m as usize)
        };
        TextAndSet::new(bits(self.text, self.n as usize), self.counts.iter().map(word).collect())
    }
}

/// What is handed over beside text and patterns, and the lengths of the lent buffers.
#[derive(Clone, Copy, Debug)]
struct Request {
    mark: u32,
    budget: u32,
    cells: usize,
    answer: usize,
}

struct Caller {
    list: Lent<u32>,
    answer: Lent<u64>,
}

impl Caller {
    fn new(random: &Random, cells: usize) -> Caller {
        Caller { list: Lent::new(random, cells), answer: Lent::new(random, 8) }
    }

    /// One raw call.
    fn call(&mut self, x: Input<'_>, r: Request) -> u32 {
        let (list, answer) = (self.list.lend(r.cells), self.answer.lend(r.answer));
        ffi::search_set(x.text, x.n, x.patterns, x.fixed, x.counts, r.mark, r.budget, list, answer)
    }

    /// One call held to the rules; `rules` has the same bits. Gives how it stopped.
    fn check(&mut self, x: Input<'_>, rules: &TextAndSet, r: Request) -> u64 {
        let want = rules.run(r.mark as usize, r.budget as usize, r.cells);
        let said = self.call(x, r);
        let right =
            said == 0 && self.answer.begins_with(&want.cells()) && self.list.begins_with(&want.written.concat());
        assert!(right, "{x:x?}, {r:?}: said {said}, should be {want:?}");
        want.stop
    }

    /// A call that must be refused with a number and change nothing.
    fn check_refused(&mut self, x: Input<'_>, r: Request, want: u32) {
        let said = self.call(x, r);
        let (n, lens) = (x.n, [x.text, x.patterns, x.fixed].map(<[u8]>::len));
        assert_eq!(said, want, "n {n}, counts {:?}, {lens:?} bytes, {r:?}", x.counts);
        assert!(self.list.unchanged() && self.answer.unchanged(), "changed by {want}");
    }
}

/// A drawn text and a drawn set, packed. Bits after the last one of the text and of each pattern have any content, and
/// so have the wild bits of the patterns and what comes after the last pattern.
pub struct Drawn {
    text: Vec<u8>,
    patterns: Vec<u8>,
    fixed: Vec<u8>,
    counts: Vec<u64>,
    pub rules: TextAndSet,
}

impl Drawn {
    fn input(&self) -> Input<'_> {
        let n = self.rules.t.len() as u64;
        Input { text: &self.text, n, patterns: &self.patterns, fixed: &self.fixed, counts: &self.counts }
    }

    pub fn text(&self) -> Text<'_> {
        Text::new(&self.text, self.rules.t.len() as u64).unwrap()
    }

    /// The crate's set, laid out by the crate.
    pub fn set(&self) -> PatternSet {
        PatternSet::new(self.patterns()).unwrap()
    }

    /// The patterns, each from where it lies in the runs on.
    fn patterns(&self) -> Vec<Pattern<'_>> {
        let mut from = 0;
        let pattern = |&m: &u64| {
            let begin = from;
            from += m.div_ceil(8) as usize;
            Pattern::with_fixed(&self.patterns[begin..], &self.fixed[begin..], m).unwrap()
        };
        self.counts.iter().map(pattern).collect()
    }
}

/// A pattern out of the text or near it, or by itself, with any second run.
fn drawn_word(random: &Random, t: &[bool]) -> Vec<Option<bool>> {
    let m = 1 + random.below(random.one_of(&[2, 8, 20, 40, 40, 100, 2_048]));
    let mut w = drawn_bits(random, m);
    if m <= t.len() && !random.once_in(4) {
        let from = random.below(t.len() - m + 1);
        w.copy_from_slice(&t[from..from + m]);
    }
    masked(&w, &second_runs::drawn(random, m))
}

/// A set of patterns. Now and then one is equal to an earlier one, begins it, goes on after it, or differs from it in
/// one bit.
fn drawn_words(random: &Random, t: &[bool], count: usize) -> Vec<Vec<Option<bool>>> {
    let mut words: Vec<Vec<Option<bool>>> = Vec::new();
    while words.len() < count {
        let mut word = drawn_word(random, t);
        if !words.is_empty() && random.once_in(2) {
            let earlier = &words[random.below(words.len())];
            let at = random.below(earlier.len());
            match random.below(4) {
                0 => word = earlier.clone(),
                1 => word = earlier[..=at].to_vec(),
                2 => {
                    word.splice(..0, earlier.iter().copied());
                    word.truncate(2_048);
                }
                _ => {
                    word = earlier.clone();
                    word[at] = word[at].map(|bit| !bit);
                }
            }
        }
        words.push(word);
    }
    words
}

/// Patterns as two runs, each pattern beginning on the byte after the one before.
fn laid_out(random: &Random, words: &[Vec<Option<bool>>]) -> (Vec<u8>, Vec<u8>, Vec<u64>) {
    let (mut patterns, mut fixed) = (Vec::new(), Vec::new());
    for word in words {
        let (len, second): (_, Vec<bool>) = (word.len().div_ceil(8), word.iter().map(Option::is_some).collect());
        patterns.extend(&any_at_wild(random, word)[..len]);
        fixed.extend(&packed(random, &second)[..len]);
    }
    for run in [&mut patterns, &mut fixed] {
        run.extend((0..random.below(3)).map(|_| random.draw() as u8));
    }
    (patterns, fixed, words.iter().map(|word| word.len() as u64).collect())
}

fn drawn_from(random: &Random, t: Vec<bool>, words: Vec<Vec<Option<bool>>>) -> Drawn {
    let (patterns, fixed, counts) = laid_out(random, &words);
    Drawn { text: packed(random, &t), patterns, fixed, counts, rules: TextAndSet::new(t, words) }
}

/// A text of n bits and so many patterns.
pub fn drawn(random: &Random, n: usize, count: usize) -> Drawn {
    let t = drawn_bits(random, n);
    let words = drawn_words(random, &t, count);
    drawn_from(random, t, words)
}

/// An accepted request at any mark, with cells for none to more than all hits.
fn request(random: &Random, rules: &TextAndSet) -> Request {
    let mark = random.below(rules.places() + 1);
    let all = 2 * rules.hits(mark, rules.places()).len();
    Request {
        mark: mark as u32,
        budget: random.one_of(&[0, 1, 2, 3, 7, 50, u32::MAX, u32::MAX]),
        cells: random.one_of(&[random.below(6), random.below(all + 3), all.saturating_sub(1), all, all + 1, all + 9]),
        answer: 4 + random.below(3),
    }
}

/// Some calls on one drawn text and set; counts how they stopped.
fn check_drawn(random: &Random, x: &Drawn, calls: usize, stops: &mut [usize; 3]) {
    let all = 2 * x.rules.hits(0, x.rules.places()).len();
    let mut caller = Caller::new(random, all + 9);
    for _ in 0..calls {
        stops[caller.check(x.input(), &x.rules, request(random, &x.rules)) as usize] += 1;
    }
}

/// Sets of every kind in texts of up to some hundred bits.
#[test]
fn drawn_sets() {
    let random = Random::of("drawn_sets");
    let (mut stops, mut sets) = ([0; 3], BTreeMap::new());
    for _ in 0..6_000 {
        let count = random.one_of(&[1, 2, 3, 8, 1 + random.below(64), 63, 64]);
        let n = random.below(random.one_of(&[20, 80, 300]));
        *sets.entry(count).or_insert(0) += 1;
        check_drawn(&random, &drawn(&random, n, count), 10, &mut stops);
    }
    println!("drawn_sets: {} calls, by stop {stops:?}", stops.iter().sum::<usize>());
    assert!(stops.iter().all(|&count| count > 10_000) && [1, 2, 63, 64].iter().all(|count| sets[count] > 500));
}

/// Longer texts, with patterns up to the longest.
#[test]
fn long_texts_and_patterns_of_sets() {
    let random = Random::of("long_texts_and_patterns_of_sets");
    let mut stops = [0; 3];
    for _ in 0..60 {
        let (n, count) = (random.below(6_000), random.one_of(&[1, 2, 5, 20, 64]));
        let t = drawn_bits(&random, n);
        let mut words = drawn_words(&random, &t, count);
        let longest = n.clamp(1, 2_048);
        let from = random.below(n.saturating_sub(longest) + 1);
        words[random.below(count)] = (0..longest).map(|j| t.get(from + j).copied()).collect();
        check_drawn(&random, &drawn_from(&random, t, words), 12, &mut stops);
    }
    println!("long_texts_and_patterns_of_sets: {} calls, by stop {stops:?}", stops.iter().sum::<usize>());
}

/// All sets of two patterns of up to 2 bits, each 0, 1 or wild, in all texts of up to 4, at every mark.
#[test]
fn every_small_set() {
    let random = Random::of("every_small_set");
    let (mut caller, mut calls) = (Caller::new(&random, 16), 0);
    let bit = [Some(false), Some(true), None];
    let words: Vec<Vec<Option<bool>>> =
        bit.iter().map(|&b| vec![b]).chain(bit.iter().flat_map(|&a| bit.map(|b| vec![a, b]))).collect();
    let texts = (0..=4).flat_map(|n| (0..1 << n).map(move |t| (0..n).map(|p| t >> p & 1 == 1).collect()));
    let texts: Vec<Vec<bool>> = texts.collect();
    for (t, (one, two)) in
        texts.iter().flat_map(|t| words.iter().flat_map(|a| words.iter().map(move |b| (a, b))).map(move |w| (t, w)))
    {
        let x = drawn_from(&random, t.clone(), vec![one.clone(), two.clone()]);
        for mark in 0..=x.rules.places() as u32 {
            for (budget, cells) in [0, 1, 2, u32::MAX].into_iter().flat_map(|b| [0, 1, 2, 3, 4, 5, 16].map(|c| (b, c)))
            {
                caller.check(x.input(), &x.rules, Request { mark, budget, cells, answer: 4 });
                calls += 1;
            }
        }
    }
    println!("every_small_set: {calls} calls");
    assert!(words.len() == 12 && texts.len() == 31 && calls > 400_000);
}

/// A pattern has no hit at or past its own E, whatever the bytes have after the last bit of the text: a pattern of m
/// ones occurs at just the places from which m bits of the text are left.
#[test]
fn each_pattern_to_its_own_end() {
    let random = Random::of("each_pattern_to_its_own_end");
    let (text, mut caller) = ([0xff; 30], Caller::new(&random, 2 * 64 * 150));
    let words: Vec<Vec<Option<bool>>> = (1..=64).map(|m| vec![Some(true); m]).collect();
    for n in 0..150 {
        for (from, step) in [(0, 1), (0, 7), (40, 1), (63, 1)] {
            let words: Vec<_> = words[from..].iter().step_by(step).cloned().collect();
            let (patterns, fixed, counts) = laid_out(&random, &words);
            let x = Input { text: &text, n: n as u64, patterns: &patterns, fixed: &fixed, counts: &counts };
            let hits =
                |s: usize| (0..words.len()).filter(move |i| from + i * step < n - s).map(move |i| [s as u32, i as u32]);
            let want: Vec<Hit> = (0..n).flat_map(hits).collect();
            let end = n.saturating_sub(from) as u64;
            assert_eq!(caller.call(x, Request { mark: 0, budget: u32::MAX, cells: 2 * want.len(), answer: 4 }), 0);
            assert!(
                caller.answer.begins_with(&[end, want.len() as u64, end, 0]) && caller.list.begins_with(&want.concat())
            );
        }
    }
}

/// The refusals 101, 1, 2, 18, then 3, 4 and 17 for each pattern in turn, and 6, first to last.
fn refusal(x: Input<'_>, r: Request) -> u32 {
    let mut rows = vec![
        (101, r.answer < 4),
        (1, x.n > 1 << 30),
        (2, (x.text.len() as u64) < x.n.div_ceil(8)),
        (18, x.counts.is_empty() || x.counts.len() > 64),
    ];
    let mut end = 0;
    for &m in x.counts {
        end += u128::from(m.div_ceil(8));
        rows.push((3, m == 0 || m > 2_048));
        rows.push((4, (x.patterns.len() as u128) < end));
        rows.push((17, (x.fixed.len() as u128) < end));
    }
    let places = |&m: &u64| (u128::from(x.n) + 1).saturating_sub(m.into());
    rows.push((6, u128::from(r.mark) > x.counts.iter().map(places).max().unwrap_or(0)));
    rows.into_iter().find(|&(_, holds)| holds).map_or(0, |(number, _)| number)
}

/// Requests in which any of the conditions may hold, alone and together, and of several patterns.
#[test]
fn refusals_of_sets_in_order() {
    let random = Random::of("refusals_of_sets_in_order");
    let (calls, mut caller, mut seen) = (60_000, Caller::new(&random, 64), BTreeMap::new());
    let bytes: Vec<u8> = (0..1_200).map(|_| random.draw() as u8).collect();
    for _ in 0..calls {
        let size = if random.once_in(8) { random.one_of(&[0, 63, 64, 65, 66, 300]) } else { 1 + random.below(6) };
        let mut counts: Vec<u64> = (0..size).map(|_| 1 + random.below(20) as u64).collect();
        while size > 0 && random.once_in(4) {
            counts[random.below(size)] = random.one_of(&[0, 8, 16, 2_048, 2_049, 1 << random.below(64), u64::MAX]);
        }
        let n = if random.once_in(6) { 1 << random.below(64) } else { random.below(64) as u64 };
        let n = random.one_of(&[n, n, n, n, 0, (1 << 30) + 1, (1 << 32) + 9, u64::MAX]);
        let some = |len: u64, one_in: usize| {
            let len = len.min(1_200) as usize;
            &bytes[..if random.once_in(one_in) { random.below(len + 1) } else { len }]
        };
        let needed = counts.iter().fold(0, |sum: u64, &m| sum.saturating_add(m.div_ceil(8)));
        let x = Input {
            text: some(n.div_ceil(8), 6),
            n,
            patterns: some(needed, 4),
            fixed: some(needed, 4),
            counts: &counts,
        };
        let places = counts.iter().map(|&m| n.saturating_add(1).saturating_sub(m)).max().unwrap_or(0);
        let near = places.wrapping_add(random.below(3) as u64).wrapping_sub(1) as u32;
        let r = Request {
            mark: random.one_of(&[0, 0, near, near, 1 << random.below(32), u32::MAX]),
            budget: random.one_of(&[0, 1, u32::MAX]),
            cells: random.below(64),
            answer: random.one_of(&[0, 1, 2, 3, 4, 4, 4, 4, 4, 4, 4, 4, 4, 4, 5]),
        };
        let want = refusal(x, r);
        *seen.entry(want).or_insert(0) += 1;
        if want == 0 {
            caller.check(x, &x.rules(), r);
        } else {
            caller.check_refused(x, r, want);
        }
    }
    println!("refusals_of_sets_in_order: {calls} calls, by number {seen:?}");
    assert!(seen.keys().copied().eq([0, 1, 2, 3, 4, 6, 17, 18, 101]));
    assert!(seen.values().all(|&count| count > 1_000));
}

/// The pairs that a call wrote.
fn pairs(list: &[u32], occurrences: usize) -> Vec<Hit> {
    list[..2 * occurrences].chunks_exact(2).map(|pair| [pair[0], pair[1]]).collect()
}

/// Calls with any budget and list from mark 0 on, each from the mark left: their pairs, joined, are the hits before the
/// last mark, and they end.
#[test]
fn joined_pairs() {
    let random = Random::of("joined_pairs");
    let (mut list, mut calls) = ([0; 160], 0);
    for _ in 0..1_500 {
        let (n, count) = (random.below(300), random.one_of(&[1, 2, 3, 8, 20, 63, 64]));
        let x = drawn(&random, n, count);
        let (text, set) = (x.text(), x.set());
        let (mut mark, mut joined, mut steps) = (Mark::START, Vec::new(), 0);
        loop {
            let budget = random.one_of(&[0, 1, 5, 40, u32::MAX]);
            let cells = random.one_of(&[random.below(2 * count + 2), 2 * count, random.below(list.len() + 1)]);
            let answer = search_set(text, &set, mark, budget, &mut list[..cells]).unwrap();
            calls += 1;
            joined.extend(pairs(&list, answer.occurrences));
            let from = std::mem::replace(&mut mark, answer.mark);
            steps += answer.steps;
            assert_eq!((answer.steps, steps), (mark.place() - from.place(), mark.place()));
            match answer.stop {
                Stop::Done => assert_eq!(mark.place() as usize, x.rules.places()),
                Stop::Full(place) => assert!(place == mark.place() && answer.steps < budget),
                Stop::Spent => assert_eq!(answer.steps, budget),
            }
            assert!(cells < 2 * count || budget == 0 || answer.stop == Stop::Done || from < mark);
            assert_eq!(joined, x.rules.hits(0, mark.place() as usize));
            if answer.stop == Stop::Done {
                break;
            }
        }
    }
    println!("joined_pairs: {calls} calls");
    assert!(calls > 10_000);
}

/// With one pattern a call finds the places of plain, on half as many cells, with its steps, mark and stop.
#[test]
fn one_pattern_as_plain_has_it() {
    let random = Random::of("one_pattern_as_plain_has_it");
    let (mut list, mut places, mut scratch) = ([0; 640], [0; 320], Scratch::new());
    for _ in 0..3_000 {
        let n = random.below(300);
        let x = drawn(&random, n, 1);
        let (text, set, pattern) = (x.text(), x.set(), x.patterns()[0]);
        for _ in 0..6 {
            let Request { mark, budget, cells, .. } = request(&random, &x.rules);
            let cells = cells.min(640);
            let one = search_set(text, &set, Mark::at(mark), budget, &mut list[..cells]);
            let half = &mut places[..cells / 2];
            let other = search(text, pattern, Method::Plain, Mark::at(mark), budget, half, &mut scratch);
            assert_eq!(one, other);
            let occurrences = one.unwrap().occurrences;
            assert!(pairs(&list, occurrences).into_iter().eq(places[..occurrences].iter().map(|&place| [place, 0])));
        }
        let beyond = Mark::at(x.rules.places() as u32 + 1);
        assert_eq!(search_set(text, &set, beyond, 1, &mut []), Err(Refusal::BeyondEnd));
    }
}

/// The same patterns in another order: the same steps, marks and stops, and the hits with the numbers of that order.
#[test]
fn another_order() {
    let random = Random::of("another_order");
    let mut list = vec![0; 40_000];
    for _ in 0..1_500 {
        let (n, count) = (random.below(200), random.one_of(&[2, 3, 8, 63, 64]));
        let x = drawn(&random, n, count);
        let mut order: Vec<usize> = (0..count).collect();
        (1..count).for_each(|i| order.swap(i, random.below(i + 1)));
        let (text, patterns) = (x.text(), x.patterns());
        let (set, other) = (x.set(), PatternSet::new(order.iter().map(|&i| patterns[i])).unwrap());
        for _ in 0..4 {
            let Request { mark, budget, cells, .. } = request(&random, &x.rules);
            let [(one, hits), (two, others)] = [&set, &other].map(|set| {
                let answer = search_set(text, set, Mark::at(mark), budget, &mut list[..cells]).unwrap();
                (answer, pairs(&list, answer.occurrences))
            });
            assert_eq!(one, two);
            let mut renamed: Vec<Hit> = others.iter().map(|&[place, i]| [place, order[i as usize] as u32]).collect();
            renamed.sort_unstable();
            assert_eq!(renamed, hits);
        }
    }
}

/// A set lays out its runs: the bytes of each pattern after those before, with zeros in place of the wild bits and
/// after the last one; and it gives its patterns back.
#[test]
fn runs_of_a_set() {
    let random = Random::of("runs_of_a_set");
    for _ in 0..1_000 {
        let (n, count) = (random.below(100), 1 + random.below(64));
        let x = drawn(&random, n, count);
        let set = x.set();
        let words: Vec<WildBits> = x.rules.words.iter().map(|word| word.iter().copied().collect()).collect();
        assert_eq!(set.bytes(), words.iter().map(WildBits::bytes).collect::<Vec<_>>().concat());
        assert_eq!(set.fixed(), words.iter().map(WildBits::fixed).collect::<Vec<_>>().concat());
        assert_eq!((set.bit_counts(), set.pattern_count()), (&x.counts[..], count));
        assert!(set.patterns().len() == count && set.patterns().eq(x.patterns()));

        // The crate's runs and those of the draw, with other values where none matters, are searched alike.
        let input = Input { patterns: set.bytes(), fixed: set.fixed(), ..x.input() };
        let all = 2 * x.rules.hits(0, x.rules.places()).len();
        let r = Request { mark: 0, budget: u32::MAX, cells: all, answer: 4 };
        Caller::new(&random, all).check(input, &x.rules, r);
    }
}

fn hash(set: &PatternSet) -> u64 {
    let mut hasher = DefaultHasher::new();
    set.hash(&mut hasher);
    hasher.finish()
}

/// Sets are equal, with one hash, just if they have equal patterns in the same order.
#[test]
fn equality_of_sets() {
    let random = Random::of("equality_of_sets");
    for _ in 0..1_000 {
        let count = 1 + random.below(6);
        let x = drawn(&random, 60, count);
        let y = drawn_from(&random, x.rules.t.clone(), x.rules.words.clone());
        let (one, same) = (x.set(), y.set());
        assert_eq!((&one, hash(&one)), (&same, hash(&same)));
        let mut patterns = x.patterns();
        patterns.rotate_left(1);
        assert_eq!(PatternSet::new(patterns.clone()).unwrap() == one, patterns == x.patterns());
        patterns.rotate_right(1);
        assert_ne!(PatternSet::new(patterns.iter().copied().chain([patterns[0]])).unwrap(), one);
        let other = drawn(&random, 60, count);
        assert_eq!(other.set() == one, other.patterns() == patterns);
    }
    // The same runs with the bits divided otherwise.
    let [a, b] =
        [[9, 7], [7, 9]].map(|counts| PatternSet::new(counts.map(|m| Pattern::new(&[0; 2], m).unwrap())).unwrap());
    assert!(a.bytes() == b.bytes() && a != b);
}

/// No pattern, one, the most and one more; and patterns without end, of which no more are asked for than it takes to
/// refuse.
#[test]
fn numbers_of_patterns() {
    let ones: Bits = "111".parse().unwrap();
    let pattern = ones.pattern().unwrap();
    for count in [0, 1, 2, 63, 64, 65, 66, 1_000] {
        let set = PatternSet::new(vec![pattern; count]);
        let want = if (1..=PatternSet::MOST).contains(&count) { Ok(count) } else { Err(18) };
        assert_eq!(set.map(|set| set.pattern_count()).map_err(Refusal::number), want);
    }
    assert_eq!(PatternSet::new(std::iter::repeat(pattern)), Err(Refusal::SetSize));
}

/// The `Debug` form shows the patterns as each has it by itself.
#[test]
fn debug_form_of_a_set() {
    let patterns = [Pattern::new(&[0xa5; 9], 70).unwrap(), Pattern::with_fixed(&[0xff], &[0xa0], 3).unwrap()];
    let set = PatternSet::new(patterns).unwrap();
    assert_eq!(format!("{set:?}"), format!("PatternSet {{ patterns: {patterns:?} }}"));
}
