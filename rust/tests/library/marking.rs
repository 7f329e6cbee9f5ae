//! Sittings against marking by sets: drawn ones, all small ones, and the edges.
use crate::buffers::Lent;
use crate::random::Random;
use crate::rules::{self, bits, Pair};
use crate::sets;
use mitongory::marking::{mark_sitting, Marks, Sitting, Totals, SHEETS};
use mitongory::{ffi, Method, Occurrences, Pattern, Refusal, Text};

struct Caller {
    report: Lent<u32>,
    answer: Lent<u64>,
    calls: usize,
}

impl Caller {
    fn new(random: &Random, cells: usize) -> Caller {
        Caller { report: Lent::new(random, cells), answer: Lent::new(random, 8), calls: 0 }
    }

    /// The raw call on so many report and answer cells. Gives its number.
    fn check(&mut self, key: &[u32], cells: &[u32], counts: &[u64], room: usize, answer: usize) -> u32 {
        self.calls += 1;
        let want = sets::mark(key, cells, counts, room, answer);
        let said = ffi::mark_sitting(key, cells, counts, self.report.lend(room), self.answer.lend(answer));
        let right = match &want {
            Ok((report, totals)) => said == 0 && self.report.begins_with(report) && self.answer.begins_with(totals),
            Err(number) => said == *number && self.report.unchanged() && self.answer.unchanged(),
        };
        assert!(right, "{key:?}, {cells:?} by {counts:?} to {room} and {answer} cells: {said}, not {want:?}");
        said
    }

    /// The crate's call. Gives its result.
    fn check_sheets(&mut self, key: &[u32], sheets: &[Vec<u32>]) -> Result<Sitting, Refusal> {
        self.calls += 1;
        let (cells, counts) = sets::joined(sheets);
        let want = sets::mark(key, &cells, &counts, 3 * counts.len(), 3);
        let said = mark_sitting(key, sheets);
        let as_cells = |sitting: &Sitting| {
            let rows = sitting.marks.iter().flat_map(|m| [m.right, m.missed, m.false_positives]).collect();
            (rows, [sitting.totals.right, sitting.totals.missed, sitting.totals.false_positives])
        };
        assert_eq!(said.as_ref().map(as_cells).map_err(|refusal| refusal.number()), want, "{key:?}, {sheets:?}");
        said
    }
}

/// Some positions, rising, from which key and sheets of a sitting are drawn. The last may be the largest there is.
fn drawn_positions(random: &Random) -> Vec<u32> {
    let (count, distance) = (random.below(60), 1 + random.one_of(&[0, 0, 1, 1_000, 10_000_000]));
    let first = if random.once_in(2) { 0 } else { (1 << 30) - 1 - count.saturating_sub(1) * distance };
    (0..count).map(|i| (first + i * distance) as u32).collect()
}

/// Some of the positions, few or many.
fn drawn_list(random: &Random, positions: &[u32]) -> Vec<u32> {
    let chance = random.below(9);
    positions.iter().copied().filter(|_| random.below(8) < chance).collect()
}

/// A sheet with a few mistakes: of the positions it has those of the key, but for one in some.
fn copied_list(random: &Random, positions: &[u32], key: &[u32]) -> Vec<u32> {
    let one_in = random.one_of(&[3, 10, 40, 1_000]);
    positions.iter().copied().filter(|p| key.binary_search(p).is_ok() != random.once_in(one_in)).collect()
}

/// A key and sheets. Now and then a list has a position twice or one too large, or there are many sheets.
fn drawn_sitting(random: &Random) -> (Vec<u32>, Vec<Vec<u32>>) {
    let mut positions = drawn_positions(random);
    let count = if random.once_in(30) { random.one_of(&[255, 256, 257, 300]) } else { random.below(8) };
    if count > 8 {
        positions.truncate(6);
    }
    let mut key = drawn_list(random, &positions);
    let sheet =
        |_| if random.once_in(2) { drawn_list(random, &positions) } else { copied_list(random, &positions, &key) };
    let mut sheets: Vec<Vec<u32>> = (0..count).map(sheet).collect();
    if random.once_in(8) {
        spoil(random, &mut key);
    }
    if random.once_in(8) && count > 0 {
        spoil(random, &mut sheets[random.below(count)]);
    }
    (key, sheets)
}

fn spoil(random: &Random, list: &mut Vec<u32>) {
    if list.is_empty() || random.once_in(3) {
        list.push(random.one_of(&[1 << 30, u32::MAX, 0]));
    } else {
        let at = random.below(list.len());
        list.insert(at, list[at]);
    }
}

/// Sittings of which some are refused, through the raw call and through the crate's.
#[test]
fn drawn_sittings() {
    let random = Random::of("drawn_sittings");
    let mut caller = Caller::new(&random, 1_000);
    let mut seen = std::collections::BTreeMap::new();
    for _ in 0..60_000 {
        let (key, sheets) = drawn_sitting(&random);
        if let Ok(sitting) = caller.check_sheets(&key, &sheets) {
            for (marks, sheet) in sitting.marks.iter().zip(&sheets) {
                assert_eq!((marks.right + marks.missed) as usize, key.len());
                assert_eq!((marks.right + marks.false_positives) as usize, sheet.len());
            }
        }

        let (cells, mut counts) = sets::joined(&sheets);
        if random.once_in(10) && !counts.is_empty() {
            let at = random.below(counts.len());
            counts[at] = counts[at].wrapping_add(random.one_of(&[1, u64::MAX, 1 << 32, 1 << 63]));
            // Half of these sums wrap to the right one.
            if random.once_in(2) {
                let sum = counts.iter().fold(0, |sum: u64, &count| sum.wrapping_add(count));
                counts.push((cells.len() as u64).wrapping_sub(sum));
            }
        }
        let enough = 3 * counts.len();
        let room = random.one_of(&[enough, enough, enough + random.below(9), enough.saturating_sub(1)]);
        if random.once_in(50) {
            caller.report.redraw(&random);
            caller.answer.redraw(&random);
        }
        let said = caller.check(&key, &cells, &counts, room, random.one_of(&[3, 3, 3, 3, 3, 3, 2, 0, 4, 8]));
        *seen.entry(said).or_insert(0) += 1;
    }
    println!("drawn_sittings: {} calls, by number {seen:?}", caller.calls);
    assert!(seen.keys().copied().eq([0, 8, 9, 15, 16, 101]));
    assert!(seen.values().all(|&count| count > 500));
}

/// Every key and every sheet over eight positions.
#[test]
fn every_short_list() {
    let random = Random::of("every_short_list");
    let mut caller = Caller::new(&random, 3 * SHEETS);
    let positions = [0, 1, 2, 8, 63, 64, (1 << 30) - 2, (1 << 30) - 1];
    let of = |set: usize| positions.iter().enumerate().filter(|(i, _)| set >> i & 1 == 1).map(|(_, &p)| p).collect();
    let lists: Vec<Vec<u32>> = (0..1 << positions.len()).map(of).collect();
    assert_eq!(lists.len(), SHEETS);
    let (cells, counts) = sets::joined(&lists);
    for key in &lists {
        assert_eq!(caller.check(key, &cells, &counts, 3 * SHEETS, 3), 0);
    }
    println!("every_short_list: {} calls of {SHEETS} sheets", caller.calls);
}

/// No sheet, one, the most and one more; and so many that their counts alone would fill the memory.
#[test]
fn numbers_of_sheets() {
    let random = Random::of("numbers_of_sheets");
    let mut caller = Caller::new(&random, 0);
    for count in [0, 1, 2, 255, 256, 257, 258, 1_000] {
        let sheets: Vec<Vec<u32>> = (0..count).map(|i| (0..i % 5).collect()).collect();
        let said = caller.check_sheets(&[0, 2, 4], &sheets);
        assert_eq!(said.map(|sitting| sitting.marks.len()).ok(), (count <= 256).then_some(count as usize));
    }
    let empty = [[0; 0]; 1 << 60];
    assert_eq!(mark_sitting(&[0], &empty), Err(Refusal::TooManySheets));
    assert_eq!(mark_sitting(&[0], &empty[..SHEETS]).unwrap().totals.missed, 256);
}

/// Lists with more positions than any other test has: all of the key, every second position of it, and none.
#[test]
fn long_lists() {
    const MANY: u32 = 1_000_000;
    for distance in [2, 1_000] {
        let every = |n: usize, from: u32| (0..MANY).map(move |i| i * distance + from).step_by(n);
        let key: Vec<u32> = every(1, 0).collect();
        let sitting = mark_sitting(&key, &[key.clone(), every(2, 0).collect(), every(1, 1).collect()]).unwrap();
        let rows = [(MANY, 0, 0), (MANY / 2, MANY / 2, 0), (0, MANY, MANY)];
        assert!(sitting.marks.iter().map(|m| (m.right, m.missed, m.false_positives)).eq(rows));
        assert_eq!(sitting.totals, Totals { right: 1_500_000, missed: 1_500_000, false_positives: 1_000_000 });
    }
}

/// A sheet may be anything that has a slice of positions.
#[test]
fn kinds_of_sheets() {
    let want = Ok(Sitting {
        marks: vec![Marks { right: 2, missed: 1, false_positives: 1 }; 2],
        totals: Totals { right: 4, missed: 2, false_positives: 2 },
    });
    let (key, sheet) = (&[0, 6, 12], [0, 7, 12]);
    assert_eq!(mark_sitting(key, &[sheet; 2]), want);
    assert_eq!(mark_sitting(key, &[&sheet; 2]), want);
    assert_eq!(mark_sitting(key, &[&sheet[..]; 2]), want);
    assert_eq!(mark_sitting(key, &vec![sheet.to_vec(); 2]), want);
    assert_eq!(mark_sitting(key, &[Box::from(&sheet[..]), Box::<[u32]>::from(&sheet[..])]), want);
    assert_eq!(mark_sitting::<Vec<u32>>(key, &[]), Ok(Sitting::default()));
}

/// With all occurrences as the key, right counts the places of the sheet at which the pattern stands.
#[test]
fn keys_of_searches() {
    let random = Random::of("keys_of_searches");
    for _ in 0..2_000 {
        let bytes: Vec<u8> = (0..20).map(|_| random.draw() as u8).collect();
        let (n, m) = (random.below(161), 1 + random.below(5));
        let pair = Pair { t: bits(&bytes, n), w: rules::pattern(&bytes[10..], &bytes[5..], m) };
        let text = Text::new(&bytes, n as u64).unwrap();
        let pattern = Pattern::with_fixed(&bytes[10..], &bytes[5..], m as u64).unwrap();
        let key: Vec<u32> = Occurrences::new(text, pattern, Method::Wide).unwrap().collect();
        let sheet: Vec<u32> = (0..200).filter(|_| random.once_in(3)).collect();
        let right = sheet.iter().filter(|&&place| pair.occurs(place as usize)).count();
        let sitting = mark_sitting(&key, &[&sheet, &key]).unwrap();
        assert_eq!(sitting.marks[0].right as usize, right);
        assert_eq!(sitting.marks[1], Marks { right: key.len() as u32, missed: 0, false_positives: 0 });
    }
}
