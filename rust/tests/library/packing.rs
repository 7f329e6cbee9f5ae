//! Packed bits as values: how they are made, compared and shown.
use crate::random::{Draw, Random};
use crate::rules;
use mitongory::{Bits, Pattern, Refusal, Text, WildBits};
use std::collections::hash_map::DefaultHasher;
use std::hash::{Hash, Hasher};

fn hash(value: impl Hash) -> u64 {
    let mut hasher = DefaultHasher::new();
    value.hash(&mut hasher);
    hasher.finish()
}

/// Characters, truth values and bytes are the same bits, read back by the rules.
#[test]
fn drawn_bits() {
    let random = Random::of("drawn_bits");
    for count in 0..400usize {
        let truths: Vec<bool> = (0..count).map(|_| random.once_in(2)).collect();
        let characters: String = truths.iter().map(|&bit| if bit { '1' } else { '0' }).collect();
        let bits: Bits = truths.iter().copied().collect();
        assert_eq!((bits.bit_count(), bits.bytes().len()), (count as u64, count.div_ceil(8)));
        assert_eq!(rules::bits(bits.bytes(), count), truths);
        assert_eq!(
            bits.bytes().iter().map(|byte| byte.count_ones() as usize).sum::<usize>(),
            truths.iter().filter(|&&bit| bit).count()
        );
        assert_eq!(characters.parse(), Ok(bits.clone()));
        assert_eq!(bits.to_string(), characters);
        assert_eq!((bits.text().unwrap().bytes(), bits.text().unwrap().bit_count()), (bits.bytes(), count as u64));
        assert_eq!(bits.pattern().is_ok(), count > 0);

        let mut longer = bits.clone();
        longer.extend([true, false]);
        assert_eq!(longer.to_string(), characters + "10");
        assert_ne!(longer, bits);
    }
}

/// Characters, optional truth values and two runs of bytes are the same bits, read back by the rules.
#[test]
fn drawn_wild_bits() {
    let random = Random::of("drawn_wild_bits");
    for count in 0..400usize {
        let truths: Vec<Option<bool>> = (0..count).map(|_| random.one_of(&[None, Some(false), Some(true)])).collect();
        let character = |bit: &Option<bool>| bit.map_or('?', |bit| if bit { '1' } else { '0' });
        let characters: String = truths.iter().map(character).collect();
        let bits: WildBits = truths.iter().copied().collect();
        assert_eq!(
            (bits.bit_count(), bits.bytes().len(), bits.fixed().len()),
            (count as u64, count.div_ceil(8), count.div_ceil(8))
        );
        assert_eq!(rules::pattern(bits.bytes(), bits.fixed(), count), truths);
        let ones = |bytes: &[u8]| bytes.iter().map(|byte| byte.count_ones() as usize).sum::<usize>();
        assert_eq!(ones(bits.bytes()), truths.iter().filter(|&&bit| bit == Some(true)).count());
        assert_eq!(ones(bits.fixed()), truths.iter().flatten().count());
        assert_eq!(characters.parse(), Ok(bits.clone()));
        assert_eq!(bits.to_string(), characters);
        assert_eq!(characters.parse::<Bits>().is_ok(), truths.iter().all(Option::is_some));

        let mut longer = bits.clone();
        longer.extend([None, Some(true)]);
        assert_eq!(longer.to_string(), characters + "?1");
        assert_ne!(longer, bits);

        match bits.pattern() {
            Err(refusal) => assert_eq!((refusal, count), (Refusal::PatternLength, 0)),
            Ok(pattern) => {
                assert_eq!(
                    (pattern.bytes(), pattern.fixed(), pattern.bit_count()),
                    (bits.bytes(), bits.fixed(), count as u64)
                );
                assert!((0..count).all(|j| pattern.is_fixed(j as u64) == truths[j].is_some()));
                assert!(![count as u64, count as u64 + 1, 4_000, u64::MAX].iter().any(|&j| pattern.is_fixed(j)));
            }
        }
    }
    let too_long = |count| "?".repeat(count).parse::<WildBits>().unwrap().pattern().err();
    assert_eq!((too_long(2_048), too_long(2_049)), (None, Some(Refusal::PatternLength)));
}

/// The first character that is no bit is named with its index.
#[test]
fn characters_that_are_no_bits() {
    for (characters, at, character) in [("2", 0, '2'), ("01 1", 2, ' '), ("0101\n", 4, '\n'), ("11é0x", 2, 'é')] {
        let error = characters.parse::<Bits>().unwrap_err();
        assert_eq!((error.at(), error.character()), (at, character));
    }
    let error: Box<dyn std::error::Error> = "1\n".parse::<Bits>().unwrap_err().into();
    assert_eq!(error.to_string(), r"the character '\n' at index 1 is neither 0 nor 1");
    assert_eq!("0?1".parse::<Bits>().unwrap_err().to_string(), "the character '?' at index 1 is neither 0 nor 1");

    for (characters, at, character) in
        [("2", 0, '2'), ("0?*", 2, '*'), ("?1 ", 2, ' '), ("1?é0x", 2, 'é'), ("？", 0, '？')]
    {
        let error = characters.parse::<WildBits>().unwrap_err();
        assert_eq!((error.at(), error.character()), (at, character));
        assert_eq!(error.to_string(), format!("the character {character:?} at index {at} is none of 0, 1 and ?"));
    }
}

/// Equality and hash look at the bits below the count: padding, more bytes and other addresses change neither, and one
/// bit does.
#[test]
fn equality_by_bits() {
    let random = Random::of("equality_by_bits");
    for _ in 0..20_000 {
        let count = 1 + random.below(80);
        let mut one: Vec<u8> = (0..10).map(|_| u8::draw(&random)).collect();
        let mut other: Vec<u8> = (0..count.div_ceil(8) + random.below(3)).map(|_| u8::draw(&random)).collect();
        for p in 0..count {
            let weight = 0x80 >> (p % 8);
            other[p / 8] = other[p / 8] & !weight | one[p / 8] & weight;
        }
        let count = count as u64;
        let text = Text::new(&one, count).unwrap();
        let pattern = Pattern::new(&one, count).unwrap();
        assert_eq!((text, hash(text)), (Text::new(&other, count).unwrap(), hash(Text::new(&other, count).unwrap())));
        assert_eq!(pattern, Pattern::new(&other, count).unwrap());
        assert_eq!(hash(pattern), hash(Pattern::new(&other, count).unwrap()));
        assert_ne!(text, Text::new(&one, count - 1).unwrap());

        let p = random.below(count as usize);
        other[p / 8] ^= 0x80 >> (p % 8);
        assert_ne!(text, Text::new(&other, count).unwrap());
        assert_ne!(pattern, Pattern::new(&other, count).unwrap());
        one[p / 8] ^= 0x80 >> (p % 8);
        assert_eq!(Text::new(&one, count), Text::new(&other, count));
    }
    assert_eq!(Text::new(&[0xff], 0), Text::new(&[], 0));
}

/// Patterns are equal, with one hash, just if the same bits are fixed and have the same values: neither the value of a
/// wild bit nor what comes after the last bit of either run changes it.
#[test]
fn equality_by_fixed_bits() {
    let random = Random::of("equality_by_fixed_bits");
    for _ in 0..20_000 {
        let count = 1 + random.below(80);
        let [bytes, fixed] = [0, 1].map(|_| (0..10).map(|_| u8::draw(&random)).collect::<Vec<u8>>());
        let any = |_| (0..count.div_ceil(8) + random.below(3)).map(|_| u8::draw(&random)).collect::<Vec<u8>>();
        let [mut other, mut second] = [0, 1].map(any);
        for p in 0..count {
            let weight = 0x80 >> (p % 8);
            second[p / 8] = second[p / 8] & !weight | fixed[p / 8] & weight;
            let weight = weight & fixed[p / 8];
            other[p / 8] = other[p / 8] & !weight | bytes[p / 8] & weight;
        }
        let pattern = Pattern::with_fixed(&bytes, &fixed, count as u64).unwrap();
        let same = Pattern::with_fixed(&other, &second, count as u64).unwrap();
        assert_eq!((pattern, hash(pattern)), (same, hash(same)));
        assert_eq!(format!("{pattern:?}"), format!("{same:?}"));
        assert_eq!(
            pattern == Pattern::new(&bytes, count as u64).unwrap(),
            (0..count as u64).all(|j| pattern.is_fixed(j))
        );

        let p = random.below(count);
        let (fixed_there, weight) = (pattern.is_fixed(p as u64), 0x80 >> (p % 8));
        other[p / 8] ^= weight;
        assert_eq!(pattern == Pattern::with_fixed(&other, &second, count as u64).unwrap(), !fixed_there);
        other[p / 8] ^= weight;
        second[p / 8] ^= weight;
        assert_ne!(pattern, Pattern::with_fixed(&other, &second, count as u64).unwrap());
    }
    let ones = Pattern::with_fixed(&[0xa5; 256], &[0xff; 256], 2_048).unwrap();
    let new = Pattern::from_bytes(&[0xa5; 256]).unwrap();
    assert_eq!((ones, hash(ones)), (new, hash(new)));
}

/// Whole bytes.
#[test]
fn from_bytes() {
    assert_eq!(Text::from_bytes(&[]), Text::new(&[], 0));
    assert_eq!(Text::from_bytes(b"ab"), Text::new(b"abc", 16));
    assert_eq!(Text::from_bytes(&vec![0; 1 << 27]).unwrap().bit_count(), 1 << 30);
    assert_eq!(Text::from_bytes(&vec![0; (1 << 27) + 1]), Err(Refusal::TextTooLong));
    assert_eq!(Pattern::from_bytes(&[]), Err(Refusal::PatternLength));
    assert_eq!(Pattern::from_bytes(&[0; 256]).unwrap().bit_count(), 2_048);
    assert_eq!(Pattern::from_bytes(&[0; 257]), Err(Refusal::PatternLength));
}

/// The `Debug` form of a long text is short, and that of a short one whole.
#[test]
fn debug_forms() {
    let bytes = vec![0xa5; 1 << 27];
    let long = format!("{:?}", Text::from_bytes(&bytes).unwrap());
    assert_eq!(long, format!("Text {{ bit_count: 1073741824, bits: {}... }}", "10100101".repeat(8)));
    let bits = |count| "10".repeat(32)[..count].parse::<Bits>().unwrap();
    assert_eq!(format!("{:?}", bits(64)), format!("Bits {{ bit_count: 64, bits: {} }}", "10".repeat(32)));
    assert_eq!(format!("{:?}", bits(1).pattern().unwrap()), "Pattern { bit_count: 1, bits: 1 }");
    assert_eq!(format!("{:?}", bits(0).text().unwrap()), "Text { bit_count: 0, bits:  }");
    assert_eq!(format!("{:>5}|{:<5}|{:.2}", bits(3), bits(3), bits(3)), "  101|101  |10");
    let wild = |count| "1?".repeat(40)[..count].parse::<WildBits>().unwrap();
    assert_eq!(format!("{:?}", wild(64)), format!("WildBits {{ bit_count: 64, bits: {} }}", "1?".repeat(32)));
    assert_eq!(format!("{:?}", wild(65)), format!("WildBits {{ bit_count: 65, bits: {}... }}", "1?".repeat(32)));
    let pattern = format!("{:?}", wild(66).pattern().unwrap());
    assert_eq!(pattern, format!("Pattern {{ bit_count: 66, bits: {}... }}", "1?".repeat(32)));
    assert_eq!(format!("{:>5}|{:<5}|{:.2}", wild(3), wild(3), wild(3)), "  1?1|1?1  |1?");
}
