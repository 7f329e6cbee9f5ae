//! The position list file against a codec written from its rules: good files and damaged ones.
use crate::buffers::Lent;
use crate::codec;
use crate::random::Random;
use mitongory::{ffi, positions};

struct Caller {
    target: Lent<u8>,
    cells: Lent<u32>,
    answer: Lent<u64>,
    calls: usize,
}

impl Caller {
    fn new(random: &Random, bytes: usize, cells: usize) -> Caller {
        Caller {
            target: Lent::new(random, bytes),
            cells: Lent::new(random, cells),
            answer: Lent::new(random, 4),
            calls: 0,
        }
    }

    /// The calls for a list's size and for its file, into a target of `len` bytes.
    fn check_write(&mut self, list: &[u32], len: usize, answer: usize) {
        self.calls += 2;
        let file = if answer == 0 { Err(101) } else { codec::encode(list) };
        let said = ffi::list_size(list, self.answer.lend(answer));
        let right = match &file {
            Ok(file) => said == 0 && self.answer.begins_with(&[file.len() as u64]),
            Err(number) => said == *number && self.answer.unchanged(),
        };
        assert!(right, "size of {list:?}: {said}, not {file:?}");

        let file = file.and_then(|file| if file.len() <= len { Ok(file) } else { Err(9) });
        let said = ffi::list_write(list, self.target.lend(len), self.answer.lend(answer));
        let right = match &file {
            Ok(file) => said == 0 && self.answer.begins_with(&[file.len() as u64]) && self.target.begins_with(file),
            Err(number) => said == *number && self.answer.unchanged() && self.target.unchanged(),
        };
        assert!(right, "{list:?} into {len} bytes: {said}, not {file:?}");
    }

    /// The call that reads a file, into `len` cells. Gives its number.
    fn check_read(&mut self, file: &[u8], len: usize, answer: usize) -> u32 {
        self.calls += 1;
        let list = if answer == 0 { Err(101) } else { codec::decode(file, len) };
        let said = ffi::list_read(file, self.cells.lend(len), self.answer.lend(answer));
        let right = match &list {
            Ok(list) => said == 0 && self.answer.begins_with(&[list.len() as u64]) && self.cells.begins_with(list),
            Err(number) => said == *number && self.answer.unchanged() && self.cells.unchanged(),
        };
        assert!(right, "{file:x?} into {len} cells: {said}, not {list:?}");
        said
    }
}

/// A list that rises, or nearly: now and then two positions change places or one is too large.
fn drawn_list(random: &Random) -> Vec<u32> {
    let spread = random.one_of(&[3, 200, 20_000, 3_000_000, 300_000_000]);
    let mut position = random.below(spread) as u64;
    let mut list = Vec::new();
    for _ in 0..random.below(30) {
        list.push(position.min(u64::from(u32::MAX)) as u32);
        position += 1 + random.below(spread) as u64;
    }
    if random.once_in(2) {
        list.retain(|&p| p < 1 << 30);
    }
    if random.once_in(8) {
        list.push(random.one_of(&[(1 << 30) - 1, 1 << 30, u32::MAX, 0, 128]));
    }
    if random.once_in(8) && list.len() > 1 {
        let i = random.below(list.len() - 1);
        let swapped = if random.once_in(2) { list[i] } else { list[i].saturating_sub(1) };
        list[i + 1] = swapped;
    }
    list
}

#[test]
fn written_lists() {
    let random = Random::of("written_lists");
    let mut caller = Caller::new(&random, 200, 1);
    for _ in 0..150_000 {
        let list = drawn_list(&random);
        let size = codec::encode(&list).map_or(list.len(), |file| file.len());
        let len = random.one_of(&[size, size, size + random.below(9), size.saturating_sub(1), random.below(size + 1)]);
        if random.once_in(50) {
            caller.target.redraw(&random);
        }
        caller.check_write(&list, len, random.one_of(&[0, 1, 1, 1, 1, 1, 2, 4]));
    }
    println!("written_lists: {} calls", caller.calls);
    assert_eq!(caller.calls, 300_000);
}

/// Good files, and such with a bit flipped, cut, extended, with bytes put in, taken out or replaced.
#[test]
fn damaged_files() {
    let random = Random::of("damaged_files");
    let mut caller = Caller::new(&random, 1, 64);
    let mut seen = std::collections::BTreeMap::new();
    let mut few = std::collections::BTreeMap::new();
    for _ in 0..400_000 {
        let Ok(mut file) = codec::encode(&drawn_list(&random)) else {
            continue;
        };
        for _ in 0..random.below(4) {
            let at = random.below(file.len() + 1);
            let byte = random.one_of(&[0, 1, 4, 0x7f, 0x80, 0x81, 0x84, 0xff, random.below(256) as u8]);
            match random.below(6) {
                0 if at < file.len() => file[at] ^= 1 << random.below(8),
                1 => file.truncate(at),
                2 => file.extend((0..random.below(3)).map(|_| byte)),
                3 => file.insert(at, byte),
                4 if at < file.len() => drop(file.remove(at)),
                _ if at < file.len() => file[at] = byte,
                _ => {}
            }
        }
        let count = usize::from(file.first().copied().unwrap_or(0) % 64);
        let len = random.one_of(&[64, 64, 64, count, count.saturating_sub(1), 0, random.below(64)]);
        if random.once_in(50) {
            caller.cells.redraw(&random);
        }
        let said = caller.check_read(&file, len, random.one_of(&[0, 1, 1, 1, 1, 1, 1, 1, 2, 4]));
        *seen.entry(said).or_insert(0) += 1;
        if codec::claimed(&file).is_ok_and(|count| count > len as u64) {
            *few.entry(said).or_insert(0) += 1;
        }
        assert_eq!(positions::decode(&file).map_err(|r| r.number()), codec::contents(&file));
    }
    println!("damaged_files: {} calls, by number {seen:?}, of these with too few cells {few:?}", 2 * caller.calls);
    assert!(caller.calls > 200_000);
    assert!(seen.keys().copied().eq([0, 10, 11, 12, 13, 14, 101]));
    assert!(few.keys().copied().eq([10, 11, 12, 13, 14, 101]));
    assert!(seen.values().chain(few.values()).all(|&count| count > 1_000));
}

/// All files of up to 2 bytes, and all of up to 7 over the bytes that decide most.
#[test]
fn every_short_file() {
    let random = Random::of("every_short_file");
    let mut caller = Caller::new(&random, 1, 4);
    let all: Vec<u8> = (0..=255).collect();
    for (most, alphabet) in [(2, &all[..]), (7, &[0, 1, 2, 4, 0x80, 0xff])] {
        let mut files = vec![Vec::new()];
        for _ in 0..=most {
            let mut longer = Vec::new();
            for file in files {
                for cells in [0, 1, 4] {
                    caller.check_read(&file, cells, 1);
                }
                if file.len() < most {
                    longer.extend(alphabet.iter().map(|&byte| [&file[..], &[byte]].concat()));
                }
            }
            files = longer;
        }
    }
    println!("every_short_file: {} calls", caller.calls);
    assert!(caller.calls > 1_000_000);
}

/// Lists with more positions than any other test has: a million, and the widest distances.
#[test]
fn long_lists() {
    for step in [1, 100, 129, 1_000] {
        let list: Vec<u32> = (0..1_000_000).map(|i| i * step + 7).collect();
        let file = positions::encode(&list).unwrap();
        assert_eq!(Ok(&file), codec::encode(&list).as_ref());
        assert_eq!(positions::encoded_size(&list), Ok(file.len()));
        assert_eq!(positions::decode(&file), Ok(list));
    }
    let widest = [0, (1 << 30) - 1];
    assert_eq!(positions::decode(&positions::encode(&widest).unwrap()).unwrap(), widest);
}

/// A count of 2^30 in front of a short file asks for no memory.
#[test]
fn claimed_counts() {
    assert_eq!(positions::decode(&[0x80, 0x80, 0x80, 0x80, 0x04]).unwrap_err().number(), 10);
    assert_eq!(positions::decode(&[0x81, 0x80, 0x80, 0x80, 0x04]).unwrap_err().number(), 12);
    assert_eq!(positions::decode(&[]).unwrap_err().number(), 10);
    assert_eq!(positions::decode(&[0]), Ok(vec![]));
    assert_eq!(positions::decode(&[1]).unwrap_err().number(), 10);
}

/// Each fault that a file can have after its count, with no cells and with one too few.
#[test]
fn bad_files_with_few_cells() {
    let (early, long, large, left, good) = (
        [2, 5].as_slice(),
        [2, 5, 0x80, 0].as_slice(),
        [2, 5, 0x81, 0x80, 0x80, 0x80, 0x04].as_slice(),
        [2, 5, 5, 0].as_slice(),
        [2, 5, 5].as_slice(),
    );
    let position = [2, 0xff, 0xff, 0xff, 0xff, 0x03, 0].as_slice();
    for (file, number) in [(early, 10), (long, 11), (large, 12), (position, 12), (left, 13), (good, 14)] {
        let mut cells = [7; 1];
        assert_eq!(positions::decode_into(file, &mut []).unwrap_err().number(), number);
        assert_eq!(positions::decode_into(file, &mut cells).unwrap_err().number(), number);
        assert_eq!(cells, [7]);
    }
    let mut cells = [7; 2];
    assert_eq!(positions::decode_into(good, &mut cells), Ok(2));
    assert_eq!(cells, [5, 11]);
}

/// A reading takes time by the file's bytes and not by its count: a million readings of six bytes that claim 2^30
/// positions, which a loop over the count would not finish in days.
#[test]
fn claims_take_no_time() {
    let start = std::time::Instant::now();
    for _ in 0..1_000_000 {
        let file = std::hint::black_box([0x80, 0x80, 0x80, 0x80, 0x04, 0]);
        assert_eq!(positions::decode_into(&file, &mut []).unwrap_err().number(), 10);
    }
    assert!(start.elapsed().as_secs() < 20);
}
