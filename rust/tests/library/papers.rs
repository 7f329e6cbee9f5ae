//! The course's papers.
use mitongory::{positions, search, Bits, Mark, Method, Pattern, Refusal, Scratch, Stop, WildBits};

const R1: &str = "011001001000100110100101000101001001";
const V1: &str = "0100110100";
const R2: &str = "110010110010110010110010110010110";
const V2: &str = "110010110010110010110";

fn bits(characters: &str) -> Bits {
    characters.parse().unwrap()
}

fn wild_bits(characters: &str) -> WildBits {
    characters.parse().unwrap()
}

/// Steps, places, the last mark and how it stopped, of one call from 0 with all the budget.
fn found(text: &str, pattern: &str, method: Method, cells: usize) -> Result<(u32, Vec<u32>, u32, Stop), Refusal> {
    let (text, pattern, mut list) = (bits(text), wild_bits(pattern), vec![0; cells]);
    let (text, pattern) = (text.text()?, pattern.pattern()?);
    let answer = search(text, pattern, method, Mark::START, u32::MAX, &mut list, &mut Scratch::new())?;
    list.truncate(answer.occurrences);
    Ok((answer.steps, list, answer.mark.place(), answer.stop))
}

/// The marks of calls with a budget of one step.
fn marks(text: &str, pattern: &str, method: Method) -> Vec<u32> {
    let (text, pattern) = (bits(text), wild_bits(pattern));
    let (text, pattern) = (text.text().unwrap(), pattern.pattern().unwrap());
    let (mut marks, mut scratch) = (vec![0], Scratch::new());
    loop {
        let mark = Mark::at(*marks.last().unwrap());
        let answer = search(text, pattern, method, mark, 1, &mut [0; 64], &mut scratch).unwrap();
        if answer.steps > 0 {
            marks.push(answer.mark.place());
        }
        if answer.stop == Stop::Done {
            return marks;
        }
    }
}

#[test]
fn first_paper() {
    assert_eq!(found(R1, V1, Method::Plain, 64), Ok((27, vec![11], 27, Stop::Done)));
    assert_eq!(found(R1, V1, Method::Hash, 64), Ok((5, vec![11], 27, Stop::Done)));
    assert_eq!(found(R1, V1, Method::Skip, 64), Err(Refusal::PatternUnfit));
    assert_eq!(found(R1, V1, Method::Wide, 64), Ok((1, vec![11], 27, Stop::Done)));
    assert_eq!(found(R1, V1, Method::Tail, 64), Ok((5, vec![11], 27, Stop::Done)));
    assert_eq!(marks(R1, V1, Method::Hash), [0, 7, 11, 17, 26, 27]);
    assert_eq!(marks(R1, V1, Method::Tail), [0, 7, 11, 17, 26, 27]);
}

#[test]
fn second_paper() {
    for &method in Method::ALL {
        assert_eq!(found(R2, V2, method, 64).unwrap().1, [0, 6, 12]);
    }
    assert_eq!(marks(R2, V2, Method::Skip), [0, 9, 13]);
    assert_eq!(marks(R2, V2, Method::Tail), [0, 6, 12, 13]);
    for (&method, steps) in Method::ALL.iter().zip([6, 1, 0, 0, 1]) {
        assert_eq!(found(R2, V2, method, 1), Ok((steps, vec![0], 6, Stop::Full(6))));
        assert_eq!(found(R2, V2, method, 0), Ok((0, vec![], 0, Stop::Full(0))));
    }
}

#[test]
fn hash_values() {
    let v2 = bits(V2);
    let pattern = v2.pattern().unwrap();
    let rows = [(0b0110_0101, 2), (0b1100_1011, 1), (0b1001_0110, 0), (0b1111_1111, 19), (0b0000_0000, 21)];
    for (value, want) in rows {
        assert_eq!(pattern.hash_value(value), Ok(want));
    }
}

#[test]
fn short_papers() {
    assert_eq!(found("", "1", Method::Plain, 4), Ok((0, vec![], 0, Stop::Done)));
    assert_eq!(found("11111", "111", Method::Plain, 4).unwrap().1, [0, 1, 2]);
    assert_eq!(found("11111", "111", Method::Wide, 3), Ok((1, vec![0, 1, 2], 3, Stop::Done)));
    assert_eq!(marks(&"0".repeat(200), "1", Method::Wide), [0, 65, 130, 195, 200]);
    assert_eq!(found("11111", "111", Method::Tail, 3), Ok((3, vec![0, 1, 2], 3, Stop::Done)));
    assert_eq!(marks("11111", "111", Method::Tail), [0, 1, 2, 3]);
}

/// The window 1001 ends in 001, which begins the pattern but does not end it: tail moves by one place only.
#[test]
fn a_beginning_of_the_pattern() {
    assert_eq!(found("10010011", "0011", Method::Tail, 1), Ok((3, vec![4], 5, Stop::Done)));
    assert_eq!(marks("10010011", "0011", Method::Tail), [0, 1, 4, 5]);
}

/// Tail with its longest pattern, one bit more, and its shortest.
#[test]
fn longest_pattern_of_tail() {
    let ones = |count| "1".repeat(count);
    assert_eq!(found(&ones(66), &ones(64), Method::Tail, 3), Ok((3, vec![0, 1, 2], 3, Stop::Done)));
    assert_eq!(found(&ones(66), &ones(65), Method::Tail, 3), Err(Refusal::PatternUnfit));
    assert_eq!(found("101", "1", Method::Tail, 3), Ok((3, vec![0, 2], 3, Stop::Done)));
}

/// The first paper with a field of two bits wild.
#[test]
fn a_wild_field() {
    const FIELD: &str = "0100??0100";
    assert_eq!(found(R1, FIELD, Method::Plain, 64), Ok((27, vec![11, 22], 27, Stop::Done)));
    assert_eq!(found(R1, FIELD, Method::Hash, 64), Ok((7, vec![11, 22], 27, Stop::Done)));
    assert_eq!(found(R1, FIELD, Method::Skip, 64), Err(Refusal::PatternUnfit));
    assert_eq!(found(R1, FIELD, Method::Wide, 64), Ok((1, vec![11, 22], 27, Stop::Done)));
    assert_eq!(found(R1, FIELD, Method::Tail, 64), Ok((6, vec![11, 22], 27, Stop::Done)));
    assert_eq!(marks(R1, FIELD, Method::Hash), [0, 1, 4, 7, 11, 17, 22, 27]);
    assert_eq!(marks(R1, FIELD, Method::Tail), [0, 4, 7, 11, 17, 22, 27]);
    for (&method, steps) in Method::ALL.iter().zip([13, 5, 2, 1, 3]) {
        assert_eq!(found(R2, "110010110010????10110", method, 64), Ok((steps, vec![0, 6, 12], 13, Stop::Done)));
    }
}

/// After H(B) = 0, hash moves by what it read and not by the pattern's own last bits: after 00000001 by 8, and after
/// 00000000 by 1, whatever the pattern's bytes have at the wild bit.
#[test]
fn move_after_the_value_read() {
    const TEXTS: [(&str, [u32; 4]); 2] = [("000000010000000100000000", [0, 8, 16, 17]), ("0000000000", [0, 1, 2, 3])];
    for bytes in [[0b0000_0000], [0b0000_0001]] {
        let pattern = Pattern::with_fixed(&bytes, &[0b1111_1110], 8).unwrap();
        assert_eq!((pattern.hash_value(0), pattern.hash_value(1), pattern.hash_value(2)), (Ok(0), Ok(0), Ok(7)));
        for (text, marks) in TEXTS {
            let (text, mut list) = (bits(text), [9; 3]);
            let text = text.text().unwrap();
            let answer = search(text, pattern, Method::Hash, Mark::START, 9, &mut list, &mut Scratch::new()).unwrap();
            assert_eq!((answer.steps, &list[..], answer.stop), (3, &marks[..3], Stop::Done));
        }
    }
    for (text, want) in TEXTS {
        assert_eq!(marks(text, "0000000?", Method::Hash), want);
    }
}

/// In wide's move a wild bit counts for both values: the 0 after the window lies on it.
#[test]
fn wide_move_by_a_wild_bit() {
    let text = "0".repeat(64) + "1" + &"0".repeat(35);
    assert_eq!(marks(&text, "1?", Method::Wide), [0, 64, 99]);
    assert_eq!(found(&text, "1?", Method::Wide, 2), Ok((2, vec![64], 99, Stop::Done)));
    assert_eq!(marks(&text, "11", Method::Wide), [0, 66, 99]);
}

/// The byte 00000001 is shown from the indices 0 and 7 on, both through the one wild bit, so that one step of skip finds
/// two places, the lower one first.
#[test]
fn byte_shown_twice() {
    let text = "1".to_owned() + "0000000" + "00000001" + "0000001";
    assert_eq!(marks(&text, "0000000?0000001", Method::Skip), [0, 1, 9]);
    assert_eq!(found(&text, "0000000?0000001", Method::Skip, 2), Ok((2, vec![1, 8], 9, Stop::Done)));
    assert_eq!(found(&text, "0000000?0000001", Method::Skip, 1), Ok((1, vec![1], 8, Stop::Full(8))));
}

#[test]
fn list_files() {
    for (list, file) in [(vec![0, 6, 12], vec![3, 0, 5, 5]), (vec![300], vec![1, 0xac, 2]), (vec![], vec![0])] {
        assert_eq!(positions::encode(&list), Ok(file.clone()));
        assert_eq!(positions::decode(&file), Ok(list));
    }
}
