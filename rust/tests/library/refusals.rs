//! The table of refusals: each row's example gives its number, and the values beside it are accepted.
use mitongory::marking::mark_sitting;
use mitongory::{ffi, positions, search, search_set, Mark, Method, Pattern, PatternSet, Refusal, Scratch, Stop, Text};

/// A search from a mark with one budget step and no cell.
fn call(n: u64, m: u64, method: Method, mark: u32) -> Result<Stop, Refusal> {
    let (text, pattern) = (vec![0; n.div_ceil(8) as usize], [0; 256]);
    let (text, pattern) = (Text::new(&text, n)?, Pattern::new(&pattern, m)?);
    search(text, pattern, method, Mark::at(mark), 1, &mut [], &mut Scratch::new()).map(|answer| answer.stop)
}

#[test]
fn texts() {
    assert_eq!(Text::new(&[], 1_073_741_825).unwrap_err().number(), 1);
    assert_eq!(Text::new(&[], u64::MAX).unwrap_err().number(), 1);
    assert_eq!(Text::new(&[0], 9).unwrap_err().number(), 2);
    assert_eq!(Text::new(&[], 1).unwrap_err().number(), 2);
    assert_eq!(Text::new(&[], 1 << 30).unwrap_err().number(), 2);
    assert!(Text::new(&[], 0).is_ok());
    assert!(Text::new(&[0], 8).is_ok());
    assert!(Text::new(&[0; 3], 9).is_ok());
}

#[test]
fn patterns() {
    assert_eq!(Pattern::new(&[], 0).unwrap_err().number(), 3);
    assert_eq!(Pattern::new(&[0], 0).unwrap_err().number(), 3);
    assert_eq!(Pattern::new(&[0; 300], 2_049).unwrap_err().number(), 3);
    assert_eq!(Pattern::new(&[], u64::MAX).unwrap_err().number(), 3);
    assert_eq!(Pattern::new(&[0], 9).unwrap_err().number(), 4);
    assert_eq!(Pattern::new(&[], 1).unwrap_err().number(), 4);
    assert_eq!(Pattern::new(&[0; 255], 2_048).unwrap_err().number(), 4);
    assert!(Pattern::new(&[0; 256], 2_048).is_ok());
    assert!(Pattern::new(&[0], 1).is_ok());
    assert!(Pattern::new(&[0; 9], 1).is_ok());
    let number = |bytes: usize, fixed: usize, m| {
        let zeros = [0; 300];
        Pattern::with_fixed(&zeros[..bytes], &zeros[..fixed], m).map_err(Refusal::number).map(|_| ())
    };
    assert_eq!(number(2, 1, 9), Err(17));
    assert_eq!(number(1, 0, 1), Err(17));
    assert_eq!(number(256, 255, 2_048), Err(17));
    // The second run is judged after the length and the first one.
    assert_eq!((number(0, 0, 0), number(0, 0, 1), number(300, 0, 2_049)), (Err(3), Err(4), Err(3)));
    assert_eq!((number(1, 1, 9), number(255, 255, 2_048), number(1, 2, 9)), (Err(4), Err(4), Err(4)));
    assert_eq!(
        (number(2, 2, 9), number(256, 256, 2_048), number(2, 9, 9), number(9, 1, 8)),
        (Ok(()), Ok(()), Ok(()), Ok(()))
    );
}

#[test]
fn search_calls() {
    let number = |n, m, method, mark| call(n, m, method, mark).map_err(Refusal::number);
    assert_eq!(number(36, 7, Method::Hash, 0), Err(5));
    assert_eq!(number(36, 14, Method::Skip, 0), Err(5));
    assert_eq!(number(36, 14, Method::Skip, 99), Err(5));
    assert_eq!(number(72, 65, Method::Tail, 0), Err(5));
    assert_eq!(number(72, 65, Method::Tail, 99), Err(5));
    assert_eq!(number(72, 2_048, Method::Tail, 0), Err(5));
    for method in [Method::Plain, Method::Hash, Method::Wide, Method::Tail] {
        assert_eq!(number(36, 10, method, 28), Err(6));
        assert_eq!(number(36, 10, method, u32::MAX), Err(6));
        assert_eq!(number(36, 10, method, 27), Ok(Stop::Done));
        assert_eq!(number(9, 10, method, 0), Ok(Stop::Done));
        assert_eq!(number(9, 10, method, 1), Err(6));
    }
    assert!(number(36, 8, Method::Hash, 0).is_ok());
    assert!(number(36, 15, Method::Skip, 0).is_ok());
    assert!(number(36, 1, Method::Tail, 0).is_ok());
    for &method in Method::ALL {
        let longest = if method == Method::Tail { 64 } else { 2_048 };
        assert_eq!(number(longest - 1, longest, method, 0), Ok(Stop::Done));
        assert_eq!(number(longest, longest, method, 0), Ok(Stop::Full(0)));
        assert_eq!(number(longest, longest, method, 2), Err(6));
    }
    // A scratch of any length needs the raw call. Ten bits: plain 48, hash 512, wide 146, tail 2.
    let raw = |method, scratch: usize| {
        let mut cells = vec![0; scratch];
        ffi::search(&[0; 5], 36, &[0; 2], &[0xff; 2], 10, method, 0, 1, &mut [], &mut cells, &mut [0; 4])
    };
    for (method, figure) in [(0, 48), (1, 512), (3, 146), (4, 2)] {
        let said = (raw(method, figure - 1), raw(method, 0), raw(method, figure), raw(method, 5_000));
        assert_eq!(said, (7, 7, 0, 0));
    }
    // The crate's own, made for one search and used for another.
    let (text, pattern) = (Text::new(&[0; 5], 36).unwrap(), Pattern::new(&[0; 2], 10).unwrap());
    let mut scratch = Scratch::for_search(Method::Plain, pattern).unwrap();
    let mut with = |method| search(text, pattern, method, Mark::START, 1, &mut [], &mut scratch).map(|a| a.stop);
    assert_eq!((with(Method::Plain), with(Method::Tail)), (Ok(Stop::Full(0)), Ok(Stop::Full(0))));
    assert_eq!(with(Method::Wide).unwrap_err(), Refusal::ScratchTooShort);
    // A pattern of 65 bits by tail: after its bytes and those of its second run, before the mark and the scratch.
    let raw = |m, bytes: usize, fixed: usize, mark| {
        let (bytes, fixed) = (&[0; 9][..bytes], &[0; 9][..fixed]);
        ffi::search(&[0; 9], 72, bytes, fixed, m, 4, mark, 1, &mut [], &mut [0; 1], &mut [0; 4])
    };
    assert_eq!((raw(65, 8, 8, 99), raw(65, 8, 9, 99), raw(65, 9, 8, 99), raw(64, 9, 7, 99)), (4, 4, 17, 17));
    assert_eq!((raw(65, 9, 9, 99), raw(65, 9, 9, 0), raw(64, 9, 8, 99), raw(64, 8, 9, 0)), (5, 5, 6, 7));
}

#[test]
fn sets_of_patterns() {
    let zeros = [0; 300];
    let set = |counts: &[u64]| PatternSet::new(counts.iter().map(|&m| Pattern::new(&zeros, m).unwrap()));
    let number = |counts: &[u64]| set(counts).map(|set| set.pattern_count()).map_err(Refusal::number);
    assert_eq!((number(&[]), number(&[1; 65]), number(&[1; 200])), (Err(18), Err(18), Err(18)));
    assert_eq!((number(&[1]), number(&[1; 64]), number(&[2_048; 64])), (Ok(1), Ok(64), Ok(64)));
    let at = |n: u64, counts: &[u64], mark| {
        let answer = search_set(Text::new(&zeros, n).unwrap(), &set(counts).unwrap(), Mark::at(mark), 1, &mut []);
        answer.map(|answer| answer.stop).map_err(Refusal::number)
    };
    // The mark goes by the shortest pattern, in any order.
    for counts in [&[10, 36, 37][..], &[37, 10, 36], &[36, 2_048, 10]] {
        assert_eq!(
            (at(36, counts, 27), at(36, counts, 28), at(36, counts, u32::MAX)),
            (Ok(Stop::Done), Err(6), Err(6))
        );
        assert_eq!(
            (at(36, counts, 26), at(9, counts, 0), at(9, counts, 1)),
            (Ok(Stop::Full(26)), Ok(Stop::Done), Err(6))
        );
    }
    // Texts and patterns that are not good by themselves need the raw call, as do runs that end early.
    let raw = |n: u64, text: usize, runs: [usize; 2], counts: &[u64], mark: u32| {
        let (text, [patterns, fixed]) = (&zeros[..text], runs.map(|len| &zeros[..len]));
        ffi::search_set(text, n, patterns, fixed, counts, mark, 1, &mut [], &mut [0; 4])
    };
    assert_eq!((raw((1 << 30) + 1, 0, [0, 0], &[], 99), raw(9, 1, [0, 0], &[], 99)), (1, 2));
    assert_eq!(
        (raw(9, 2, [0, 0], &[], 99), raw(9, 2, [0, 0], &[0; 65], 99), raw(9, 2, [0, 0], &[0; 64], 99)),
        (18, 18, 3)
    );
    assert_eq!(
        (raw(9, 2, [0, 0], &[2_049], 99), raw(9, 2, [0, 0], &[1, 0], 99), raw(9, 2, [1, 0], &[1, 0], 99)),
        (3, 4, 17)
    );
    assert_eq!(
        (raw(9, 2, [1, 1], &[1, 0], 99), raw(9, 2, [1, 1], &[1, 1], 99), raw(9, 2, [2, 1], &[1, 1], 99)),
        (3, 4, 17)
    );
    assert_eq!(
        (raw(9, 2, [2, 2], &[9, 1], 99), raw(9, 2, [1, 9], &[9, 0], 99), raw(9, 2, [9, 1], &[9, 0], 99)),
        (4, 4, 17)
    );
    // All of one pattern come before those of the next: a short second run of the first before a bad length.
    assert_eq!((raw(9, 2, [9, 1], &[9, 2_049], 99), raw(9, 2, [9, 2], &[9, 2_049], 99)), (17, 3));
    assert_eq!(
        (raw(9, 2, [64, 63], &[8; 64], 99), raw(9, 2, [63, 63], &[8; 64], 99), raw(9, 2, [64; 2], &[8; 64], 99)),
        (17, 4, 6)
    );
    assert_eq!(
        (raw(9, 2, [64; 2], &[8; 64], 3), raw(9, 2, [64; 2], &[8; 64], 2), raw(9, 2, [9; 2], &[9, 8, 7], 3)),
        (6, 0, 0)
    );
}

#[test]
fn eight_bits_and_hash_values() {
    // A text that the library takes gives eight bits from any place on.
    for (bytes, n, number) in [(5, 36, 0), (4, 36, 2), (4, (1 << 30) + 1, 1), (0, 0, 0)] {
        let said = [0, 29, 36, u32::MAX].map(|place| ffi::eight_bits(&vec![0xff; bytes], n, place, &mut [0; 2]));
        assert_eq!(said, [number; 4]);
    }
    assert_eq!(Pattern::new(&[0xff], 7).unwrap().hash_value(0).unwrap_err().number(), 5);
    assert_eq!(Pattern::new(&[0xff], 8).unwrap().hash_value(0), Ok(8));
    assert_eq!(Pattern::with_fixed(&[0xff], &[0x00], 7).unwrap().hash_value(0).unwrap_err().number(), 5);
    assert_eq!(Pattern::with_fixed(&[0xff], &[0x00], 8).unwrap().hash_value(0), Ok(0));
    // Without the second run's bytes a length below 8 is not judged.
    assert_eq!((ffi::hash_value(&[0], &[], 7, 0, &mut [0]), ffi::hash_value(&[], &[], 7, 0, &mut [0])), (17, 4));
}

#[test]
fn lists() {
    let number = |r: Result<usize, Refusal>| r.map_err(Refusal::number);
    assert_eq!(number(positions::encoded_size(&[6, 6])), Err(8));
    assert_eq!(number(positions::encoded_size(&[1 << 30])), Err(8));
    assert_eq!(number(positions::encode_into(&[6, 6], &mut [])), Err(8));
    assert_eq!(number(positions::encode_into(&[300], &mut [0; 2])), Err(9));
    assert_eq!(positions::encode(&[3, 2]).unwrap_err(), Refusal::ListNotRising);
    let read = |file: &[u8], cells: usize| number(positions::decode_into(file, &mut vec![0; cells]));
    assert_eq!(read(&[0x01], 1), Err(10));
    assert_eq!(read(&[0x01, 0x80, 0x00], 1), Err(11));
    assert_eq!(read(&[0x01, 0x80, 0x80, 0x80, 0x80, 0x04], 1), Err(12));
    assert_eq!(read(&[0x00, 0x00], 1), Err(13));
    assert_eq!(read(&[0x01, 0x05], 0), Err(14));
    assert_eq!(read(&[0x01, 0x05], 1), Ok(1));
}

#[test]
fn sittings() {
    let number =
        |key: &[u32], sheets: &[&[u32]]| mark_sitting(key, sheets).map_err(Refusal::number).map(|s| s.marks.len());
    let (last, large) = ((1 << 30) - 1, 1 << 30);
    assert_eq!(number(&[0, 6, 12], &[&[][..]; 257]), Err(15));
    assert_eq!(number(&[6, 6], &[&[5, 4][..]; 257]), Err(15));
    assert_eq!(number(&[0, 6, 12], &[&[0, 6][..]; 256]), Ok(256));
    for bad in [&[6, 6][..], &[5, 4], &[large], &[0, large], &[u32::MAX], &[u32::MAX, 0]] {
        assert_eq!(number(bad, &[]), Err(8));
        assert_eq!(number(bad, &[&[0, 6]]), Err(8));
        assert_eq!(number(&[], &[bad]), Err(8));
        assert_eq!(number(&[0, 6, 12], &[&[0, 6], &[], bad]), Err(8));
        assert_eq!(number(&[0, 6, 12], &[bad, &[0, 6]]), Err(8));
    }
    assert_eq!(number(&[0, last], &[&[last], &[0, last]]), Ok(2));
    assert_eq!(number(&[], &[&[12], &[6], &[6]]), Ok(3));
    assert_eq!(number(&[], &[]), Ok(0));
    // Counts and a report that do not fit the sheets need the raw call.
    let raw = |key: &[u32], counts: &[u64], cells: usize| {
        ffi::mark_sitting(key, &[0, 6, 12], counts, &mut vec![0; cells], &mut [0; 3])
    };
    assert_eq!((raw(&[], &[3], 3), raw(&[], &[3], 2), raw(&[], &[1, 2], 5), raw(&[6, 6], &[3], 2)), (0, 9, 9, 8));
    assert_eq!((raw(&[], &[2], 3), raw(&[], &[4], 3), raw(&[], &[], 3), raw(&[], &[u64::MAX, 4], 6)), (16, 16, 16, 16));
    assert_eq!((raw(&[6, 6], &[2], 0), raw(&[6, 6], &[1; 257], 0), raw(&[6, 6], &[3], 0)), (16, 15, 8));
}

#[test]
fn numbers_and_messages() {
    for (i, refusal) in Refusal::ALL.iter().copied().enumerate() {
        assert_eq!(refusal.number(), i as u32 + 1);
        assert_eq!(Refusal::from_number(refusal.number()), Some(refusal));
        assert!(refusal.to_string().starts_with(&format!("refusal {}: ", i + 1)));
    }
    for number in [0, 19, 100, 101, u32::MAX] {
        assert_eq!(Refusal::from_number(number), None);
    }
    let error: Box<dyn std::error::Error> = Refusal::FileEndsEarly.into();
    assert_eq!(error.to_string(), "refusal 10: the file ends early");
    for &method in Method::ALL {
        assert_eq!(method.to_string().parse(), Ok(method));
    }
    assert!(["", "Plain", "plain ", "twin"].iter().all(|name| name.parse::<Method>().is_err()));
}
