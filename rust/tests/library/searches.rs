//! Search calls against the rules: every answer, list, scratch and refusal.
use crate::buffers::Lent;
use crate::random::{Draw, Random};
use crate::rules::{self, bits, masked, scratch_cells, takes, Pair, METHODS, PLAIN, TAIL, WIDE};
use crate::second_runs::{self, KINDS};
use mitongory::{ffi, search, Bits, Mark, Method, Pattern, Refusal, Scratch, Stop, Text, SCRATCH_CELLS};
use std::collections::BTreeMap;

/// The buffers of many calls, and how many calls there were.
struct Caller {
    list: Lent<u32>,
    scratch: Lent<u64>,
    answer: Lent<u64>,
    calls: usize,
}

/// Text and pattern as they are handed over.
#[derive(Clone, Copy, Debug)]
struct Input<'a> {
    text: &'a [u8],
    n: u64,
    pattern: &'a [u8],
    fixed: &'a [u8],
    m: u64,
}

impl Input<'_> {
    /// The bits of both, of an input that has all of them.
    fn pair(&self) -> Pair {
        Pair { t: bits(self.text, self.n as usize), w: rules::pattern(self.pattern, self.fixed, self.m as usize) }
    }
}

/// What is handed over beside text and pattern, and the lengths of the lent buffers.
#[derive(Clone, Copy, Debug)]
struct Request {
    method: u32,
    mark: u32,
    budget: u32,
    cells: usize,
    scratch: usize,
    answer: usize,
}

impl Caller {
    fn new(random: &Random, cells: usize) -> Caller {
        Caller {
            list: Lent::new(random, cells),
            scratch: Lent::new(random, SCRATCH_CELLS + 80),
            answer: Lent::new(random, 8),
            calls: 0,
        }
    }

    /// Other content than the last calls left.
    fn redraw(&mut self, random: &Random) {
        self.list.redraw(random);
        self.scratch.redraw(random);
        self.answer.redraw(random);
    }

    /// One raw call.
    fn call(&mut self, x: Input<'_>, r: Request) -> u32 {
        self.calls += 1;
        ffi::search(
            x.text,
            x.n,
            x.pattern,
            x.fixed,
            x.m,
            r.method,
            r.mark,
            r.budget,
            self.list.lend(r.cells),
            self.scratch.lend(r.scratch),
            self.answer.lend(r.answer),
        )
    }

    /// One call on text and pattern as they are, held to the rules; `pair` has the same bits.
    fn check(&mut self, x: Input<'_>, pair: &Pair, r: Request) {
        let want = pair.run(r.method, r.mark as usize, r.budget as usize, r.cells);
        let said = self.call(x, r);
        let right = said == 0
            && self.answer.begins_with(&want.cells())
            && self.list.begins_with(&want.written)
            && self.scratch.unchanged_but(scratch_cells(r.method, pair.w.len()));
        assert!(right, "{x:x?}, {r:?}: said {said}, should be {want:?}");
    }

    /// A call that must be refused with a number and change nothing.
    fn check_refused(&mut self, x: Input<'_>, r: Request, want: u32) {
        let said = self.call(x, r);
        let (n, m, lens) = (x.n, x.m, [x.text, x.pattern, x.fixed].map(<[u8]>::len));
        assert_eq!(said, want, "n {n}, m {m}, {lens:?} bytes, {r:?}");
        assert!(self.list.unchanged() && self.scratch.unchanged() && self.answer.unchanged(), "changed by {want}");
    }
}

/// All patterns of up to 4 bits, each 0, 1 or wild, in all texts of up to 6, at every mark.
#[test]
fn every_short_text() {
    let random = Random::of("every_short_text");
    let mut caller = Caller::new(&random, 8);
    let first = |bits: u8, count: usize| [((u16::from(bits) << 8) >> count) as u8];
    for (n, m) in (0..=6).flat_map(|n| (1..=4).map(move |m| (n, m))) {
        let runs = (0..1u8 << m).flat_map(|f| (0..1u8 << m).filter(move |w| w & !f == 0).map(move |w| (w, f)));
        for (t, (w, f)) in (0..1u8 << n).flat_map(|t| runs.clone().map(move |run| (t, run))) {
            // Wild bits have any value.
            let any = random.draw() as u8 & !f & ((1 << m) - 1);
            let (text, pattern, fixed) = (first(t, n), first(w | any, m), first(f, m));
            let x = Input { text: &text, n: n as u64, pattern: &pattern, fixed: &fixed, m: m as u64 };
            let pair = x.pair();
            for mark in 0..=pair.places() as u32 {
                for (budget, cells) in [0, 1, 2, u32::MAX].into_iter().flat_map(|b| [0, 1, 2, 8].map(|c| (b, c))) {
                    for method in [PLAIN, WIDE, TAIL] {
                        let scratch = scratch_cells(method, m);
                        let r = Request { method, mark, budget, cells, scratch, answer: 4 };
                        caller.check(x, &pair, r);
                    }
                }
            }
        }
    }
    println!("every_short_text: {} calls", caller.calls);
    assert!(caller.calls > 2_500_000);
}

/// A text and a pattern of it or near it. Bytes after the last bit and bits after the count have any content, and so have
/// the wild bits of the pattern.
struct Drawn {
    text: Vec<u8>,
    pattern: Vec<u8>,
    fixed: Vec<u8>,
    pair: Pair,
}

impl Drawn {
    fn input(&self) -> Input<'_> {
        let (n, m) = (self.pair.t.len() as u64, self.pair.w.len() as u64);
        Input { text: &self.text, n, pattern: &self.pattern, fixed: &self.fixed, m }
    }

    fn text(&self) -> Text<'_> {
        Text::new(&self.text, self.pair.t.len() as u64).unwrap()
    }

    fn pattern(&self) -> Pattern<'_> {
        Pattern::with_fixed(&self.pattern, &self.fixed, self.pair.w.len() as u64).unwrap()
    }
}

pub fn drawn_bits(random: &Random, count: usize) -> Vec<bool> {
    match random.below(4) {
        0 => {
            let period: Vec<bool> = (0..1 + random.below(9)).map(|_| random.once_in(2)).collect();
            (0..count).map(|p| period[p % period.len()] ^ random.once_in(40)).collect()
        }
        _ => {
            let ones = random.one_of(&[1, 2, 6, 10]);
            (0..count).map(|_| random.below(20) < ones).collect()
        }
    }
}

/// The bits packed, with up to two bytes more, and with other bits after the last one.
pub fn packed(random: &Random, bits: &[bool]) -> Vec<u8> {
    let mut bytes = bits.iter().copied().collect::<Bits>().bytes().to_vec();
    if let (Some(last), spare @ 1..) = (bytes.last_mut(), (8 - bits.len() % 8) % 8) {
        *last |= u8::draw(random) & ((1 << spare) - 1);
    }
    bytes.extend((0..random.below(3)).map(|_| random.draw() as u8));
    bytes
}

/// With a pattern of which these bits are fixed.
fn drawn_with(random: &Random, n: usize, fixed: &[bool]) -> Drawn {
    let m = fixed.len();
    let mut t = drawn_bits(random, n);
    let mut w = drawn_bits(random, m);
    if m <= n && !random.once_in(4) {
        let (p, q) = (random.below(n - m + 1), random.below(n - m + 1));
        w.copy_from_slice(&t[p..p + m]);
        if random.once_in(2) {
            t[q..q + m].copy_from_slice(&w);
        }
        if random.once_in(3) {
            w[random.below(m)] ^= true;
        }
    }
    let pair = Pair { t, w: masked(&w, fixed) };
    Drawn { text: packed(random, &pair.t), pattern: any_at_wild(random, &pair.w), fixed: packed(random, fixed), pair }
}

/// A pattern's bits packed, with any value at the wild ones.
pub fn any_at_wild(random: &Random, w: &[Option<bool>]) -> Vec<u8> {
    let bits: Vec<bool> = w.iter().map(|bit| bit.unwrap_or_else(|| random.once_in(2))).collect();
    packed(random, &bits)
}

fn drawn(random: &Random, n: usize, m: usize) -> Drawn {
    drawn_with(random, n, &second_runs::drawn(random, m))
}

/// An accepted request at any mark.
fn request(random: &Random, pair: &Pair, method: u32, most: usize) -> Request {
    Request {
        method,
        mark: random.below(pair.places() + 1) as u32,
        budget: random.one_of(&[0, 1, 2, 3, 7, 50, u32::MAX, u32::MAX]),
        cells: random.one_of(&[0, 1, 2, 5, most, most]),
        scratch: scratch_cells(method, pair.w.len()) + random.one_of(&[0, 0, 1, 77]),
        answer: 4 + random.below(3),
    }
}

impl Caller {
    /// Some calls with each method that takes the pattern, on one drawn text.
    fn check_drawn(&mut self, random: &Random, x: &Drawn, most: usize) {
        self.redraw(random);
        for method in (0..METHODS).filter(|&method| takes(method, x.pair.w.len())) {
            for _ in 0..6 {
                self.check(x.input(), &x.pair, request(random, &x.pair, method, most));
            }
        }
    }
}

/// A million calls on drawn texts of up to some hundred bits, with every method that takes the pattern.
#[test]
fn a_million_drawn_calls() {
    let random = Random::of("a_million_drawn_calls");
    let mut caller = Caller::new(&random, 400);
    while caller.calls < 1_000_000 {
        let (n, m) = (random.one_of(&[20, 80, 160, 400]), random.one_of(&[7, 20, 40, 80, 200]));
        let (n, m) = (random.below(n), 1 + random.below(m));
        caller.check_drawn(&random, &drawn(&random, n, m), 400);
    }
    println!("a_million_drawn_calls: {} calls", caller.calls);
}

/// Longer texts and patterns, up to the longest pattern.
#[test]
fn long_texts_and_patterns() {
    let random = Random::of("long_texts_and_patterns");
    let mut caller = Caller::new(&random, 20_000);
    for _ in 0..400 {
        let (n, m) = (random.one_of(&[2_000, 6_000, 20_000]), random.one_of(&[64, 300, 2_048]));
        let (n, m) = (random.below(n), m - random.below(m).min(random.below(m)));
        caller.check_drawn(&random, &drawn(&random, n, m), 20_000);
    }
    println!("long_texts_and_patterns: {} calls", caller.calls);
    assert!(caller.calls > 5_000);
}

/// Second runs of every kind, at lengths around those at which a method begins, ends or changes its tables' form.
#[test]
fn every_kind_of_second_run() {
    let random = Random::of("every_kind_of_second_run");
    let mut caller = Caller::new(&random, 700);
    let mut calls = BTreeMap::new();
    for round in 0..18_000 {
        let kind = KINDS[round % KINDS.len()];
        let m = random.one_of(&[1, 2, 7, 8, 9, 14, 15, 16, 20, 32, 57, 58, 63, 64, 65, 66, 72, 100, 129]);
        let m = if random.once_in(3) { 1 + random.below(130) } else { m };
        let n = m + random.below(random.one_of(&[2, 70, 200, 500]));
        let before = caller.calls;
        caller.check_drawn(&random, &drawn_with(&random, n, &second_runs::of_kind(&random, kind, m)), 700);
        *calls.entry(kind).or_insert(0) += caller.calls - before;
    }
    println!("every_kind_of_second_run: {} calls, by kind {calls:?}", caller.calls);
    assert!(calls.len() == KINDS.len() && calls.values().all(|&count| count > 40_000));
}

/// Neither a value at a wild bit nor a bit of either run after the last one changes an answer, a list or a mark.
#[test]
fn values_at_wild_bits() {
    let random = Random::of("values_at_wild_bits");
    let (mut caller, mut calls) = (Caller::new(&random, 300), 0);
    for round in 0..20_000 {
        let (n, m) = (random.below(300), 1 + random.below(random.one_of(&[8, 20, 70, 200])));
        let x = drawn_with(&random, n, &second_runs::of_kind(&random, KINDS[round % KINDS.len()], m));
        let fixed: Vec<bool> = x.pair.w.iter().map(Option::is_some).collect();
        let (other, second) = (any_at_wild(&random, &x.pair.w), packed(&random, &fixed));
        let y = Input { pattern: &other, fixed: &second, ..x.input() };
        for method in (0..METHODS).filter(|&method| takes(method, m)) {
            let r = request(&random, &x.pair, method, 300);
            let [one, two] = [x.input(), y].map(|input| {
                let said = caller.call(input, r);
                let answer = caller.answer.front(4).to_vec();
                let list = caller.list.front(answer[1] as usize).to_vec();
                (said, answer, list)
            });
            assert_eq!(one, two, "{y:x?}, {r:?}");
            calls += 2;
        }
        let pattern = Pattern::with_fixed(&other, &second, m as u64).unwrap();
        assert_eq!(x.pattern(), pattern);
        let value = random.draw() as u8;
        assert_eq!(x.pattern().hash_value(value), pattern.hash_value(value));
    }
    println!("values_at_wild_bits: {calls} calls");
    assert!(calls > 100_000);
}

/// A pattern of wild bits alone occurs at every place.
#[test]
fn all_wild() {
    let random = Random::of("all_wild");
    let (mut list, mut scratch) = ([0; 100], Scratch::new());
    for m in 1..=2_048 {
        let n = m + random.below(90);
        let x = drawn_with(&random, n, &vec![false; m]);
        for &method in Method::ALL.iter().filter(|&&method| takes(method as u32, m)) {
            let answer = search(x.text(), x.pattern(), method, Mark::START, u32::MAX, &mut list, &mut scratch).unwrap();
            assert_eq!((answer.mark, answer.stop), (Mark::at((n - m + 1) as u32), Stop::Done));
            assert!(list[..answer.occurrences].iter().copied().eq(0..=(n - m) as u32), "{method}, n {n}, m {m}");
        }
    }
}

/// Calls of any method, budget and list from mark 0 on, each from the mark left: their places, joined, are the
/// occurrences before the last mark, and they end.
#[test]
fn joined_lists() {
    let random = Random::of("joined_lists");
    let (mut scratch, mut list, mut calls) = (Scratch::new(), [0; 16], 0);
    for _ in 0..3_000 {
        let m = random.one_of(&[1, 3, 8, 15, 33, 64, 70]);
        let n = random.below(700);
        let x = drawn(&random, n, m);
        let (text, pattern) = (x.text(), x.pattern());
        let (mut mark, mut joined, mut steps) = (Mark::START, Vec::<u32>::new(), 0);
        loop {
            let method = random.one_of(Method::ALL);
            let budget = random.one_of(&[0, 1, 5, 40, u32::MAX]);
            let cells = random.below(list.len() + 1);
            calls += 1;
            let Ok(answer) = search(text, pattern, method, mark, budget, &mut list[..cells], &mut scratch) else {
                assert!(!takes(method as u32, m));
                continue;
            };
            joined.extend(&list[..answer.occurrences]);
            let from = std::mem::replace(&mut mark, answer.mark);
            steps += answer.steps;
            match answer.stop {
                Stop::Done => {}
                Stop::Full(place) => assert!(place == mark.place() && answer.steps < budget),
                Stop::Spent => assert_eq!(answer.steps, budget),
            }
            assert!(steps <= mark.place());
            assert!(cells == 0 || budget == 0 || answer.stop == Stop::Done || from < mark);
            let before: Vec<u32> = x.pair.occurrences().into_iter().filter(|&s| s < mark.place()).collect();
            assert_eq!(joined, before);
            assert_eq!(answer.stop == Stop::Done, mark.place() as usize + m > n);
            if answer.stop == Stop::Done {
                break;
            }
        }
    }
    println!("joined_lists: {calls} calls");
    assert!(calls > 30_000);
}

/// Every method with every length of the pattern: a scratch of just the cells that it takes is enough, one less is refused,
/// and the crate's own scratch has just so many.
#[test]
fn every_length_with_its_scratch() {
    let random = Random::of("every_length_with_its_scratch");
    let mut caller = Caller::new(&random, 100);
    let mut largest = 0;
    for m in 1..=2_048 {
        let n = m + random.below(60);
        let x = drawn(&random, n, m);
        let (text, pattern) = (x.text(), x.pattern());
        caller.redraw(&random);
        for &method in Method::ALL {
            let (number, figure) = (method as u32, scratch_cells(method as u32, m));
            let told = method.scratch_cells(m as u64);
            let mut r = Request { method: number, mark: 0, budget: u32::MAX, cells: 100, scratch: figure, answer: 4 };
            if !takes(number, m) {
                assert_eq!(told, Err(Refusal::PatternUnfit));
                assert_eq!(Scratch::for_search(method, pattern).unwrap_err(), Refusal::PatternUnfit);
                caller.check_refused(x.input(), r, 5);
                continue;
            }
            assert_eq!(told, Ok(figure));
            largest = largest.max(figure);
            caller.check(x.input(), &x.pair, r);
            r.scratch -= 1;
            caller.check_refused(x.input(), r, 7);

            let (mut list, mut scratch) = ([0; 100], Scratch::for_search(method, pattern).unwrap());
            assert_eq!(scratch.cell_count(), figure);
            let answer = search(text, pattern, method, Mark::START, u32::MAX, &mut list, &mut scratch).unwrap();
            assert_eq!(list[..answer.occurrences], x.pair.occurrences());
        }
    }
    println!("every_length_with_its_scratch: {} calls", caller.calls);
    assert_eq!(largest, SCRATCH_CELLS);
}

/// The refusals 100, 101, 1 to 4, 17 and 5 to 7, first to last.
fn refusal(x: Input<'_>, r: Request) -> u32 {
    let Input { text, n, pattern, fixed, m } = x;
    let places = if m <= n { n.wrapping_sub(m).wrapping_add(1) } else { 0 };
    let rows = [
        (100, r.method > 4),
        (101, r.answer < 4),
        (1, n > 1 << 30),
        (2, (text.len() as u64) < n.div_ceil(8)),
        (3, m == 0 || m > 2_048),
        (4, (pattern.len() as u64) < m.div_ceil(8)),
        (17, (fixed.len() as u64) < m.div_ceil(8)),
        (5, !takes(r.method, m as usize)),
        (6, u64::from(r.mark) > places),
        (7, r.scratch < scratch_cells(r.method, m.min(2_048) as usize)),
    ];
    rows.into_iter().find(|&(_, holds)| holds).map_or(0, |(number, _)| number)
}

/// Requests in which any of the conditions may hold, alone and together.
#[test]
fn refusals_in_order() {
    let random = Random::of("refusals_in_order");
    let mut caller = Caller::new(&random, 64);
    let mut seen = BTreeMap::new();
    let bytes: Vec<u8> = (0..300).map(|_| random.draw() as u8).collect();
    while caller.calls < 200_000 {
        // Each value is good most of the time, so that the late rows are reached too.
        let good = |random: &Random| !random.once_in(6);
        let m = if good(&random) { 1 + random.below(40) as u64 } else { 1 << random.below(64) };
        let m = random.one_of(&[m, m, m, m, 0, 7, 8, 14, 15, 64, 65, 2_048, 2_049, u64::MAX]);
        let n = if good(&random) { random.below(64) as u64 } else { 1 << random.below(64) };
        let n = random.one_of(&[n, n, n, n, 0, (1 << 30) + 1, (1 << 32) + 9, u64::MAX]);
        let enough = |random: &Random, count: u64| {
            let len = (count.div_ceil(8) as usize).min(300);
            if random.once_in(6) {
                random.below(len + 1)
            } else {
                len
            }
        };
        let text = &bytes[..enough(&random, n)];
        let pattern = &bytes[300 - enough(&random, m)..];
        let fixed = &bytes[..enough(&random, m)];
        let x = Input { text, n, pattern, fixed, m };
        let places = if m <= n { n.wrapping_sub(m).wrapping_add(1) } else { 0 };
        let near = places.wrapping_add(random.below(3) as u64).wrapping_sub(1) as u32;
        let method = random.one_of(&[0, 1, 2, 3, 4, 0, 1, 2, 3, 4, 0, 1, 2, 3, 4, 5, 256, 1 << 16, 1 << 31, u32::MAX]);
        let figure = scratch_cells(method, m.min(2_048) as usize);
        let r = Request {
            method,
            mark: random.one_of(&[0, 0, near, near, 1 << random.below(32), u32::MAX]),
            budget: random.one_of(&[0, 1, u32::MAX]),
            cells: random.below(64),
            scratch: random.one_of(&[0, 1, figure - 1, figure, figure, figure, figure, figure + 1]),
            answer: random.one_of(&[0, 1, 2, 3, 4, 4, 4, 4, 4, 4, 4, 4, 4, 4, 5]),
        };
        let want = refusal(x, r);
        *seen.entry(want).or_insert(0) += 1;
        if want == 0 {
            caller.check(x, &x.pair(), r);
        } else {
            caller.check_refused(x, r, want);
        }
    }
    println!("refusals_in_order: {} calls, by number {seen:?}", caller.calls);
    assert!(seen.keys().copied().eq([0, 1, 2, 3, 4, 5, 6, 7, 17, 100, 101]));
    assert!(seen.values().all(|&count| count > 1_000));
}
