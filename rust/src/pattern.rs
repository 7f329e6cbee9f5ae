//! The pattern: packed bits to search for, some of which may be wild.
use crate::packed::{self, shows_its_bits, Packed};
use crate::refusal::Refusal;
use crate::{call, ffi};
use std::hash::{Hash, Hasher};

/// Enough ones for the longest pattern: one with every bit fixed takes no second run from its caller.
static ALL_FIXED: [u8; 256] = [0xff; 256];

/// The bits to search for: borrowed bytes and a bit count of 1 to 2,048, packed as in a [`Text`](crate::Text).
///
/// A second run of as many bits says which of them are *fixed*, with a 1, and which are *wild*, with a 0. The pattern
/// occurs where the text has its fixed bits; what the text has at a wild bit does not matter. With
/// [`new`](Pattern::new) and [`from_bytes`](Pattern::from_bytes) every bit is fixed, [`with_fixed`](Pattern::with_fixed)
/// takes a second run, and [`WildBits`](crate::WildBits) makes both from characters.
///
/// What the bytes have at a wild bit and after the last bit never matters either: two patterns are equal just if they
/// have the same bit count, the same bits fixed, and the same values there, that is, just if they occur at the same
/// places of every text. The `Debug` form shows no more than the first 64 bits, and a wild one as `?`.
///
/// ```
/// use mitongory::Pattern;
///
/// # fn main() -> Result<(), mitongory::Refusal> {
/// let pattern = Pattern::new(&[0b1010_0000], 3)?;
/// assert_eq!(pattern, Pattern::new(&[0b1011_1111, 0xff], 3)?);
/// assert_eq!(format!("{pattern:?}"), "Pattern { bit_count: 3, bits: 101 }");
///
/// let wild = Pattern::with_fixed(&[0b1010_0000], &[0b1010_0000], 3)?;
/// assert_eq!(wild, Pattern::with_fixed(&[0b1110_0000], &[0b1011_1111], 3)?);
/// assert_ne!(wild, pattern);
/// assert_eq!(format!("{wild:?}"), "Pattern { bit_count: 3, bits: 1?1 }");
/// # Ok(())
/// # }
/// ```
#[derive(Clone, Copy)]
pub struct Pattern<'a> {
    bits: Packed<'a>,
    /// As many bits, 1 for fixed and 0 for wild.
    fixed: Packed<'a>,
}

impl<'a> Pattern<'a> {
    /// The first `bit_count` bits of `bytes`, every one fixed.
    ///
    /// ```
    /// use mitongory::{Pattern, Refusal};
    ///
    /// assert_eq!(Pattern::new(&[0xe0], 3).unwrap().bit_count(), 3);
    /// assert_eq!(Pattern::new(&[0xe0], 9), Err(Refusal::PatternBytesMissing));
    /// ```
    ///
    /// # Errors
    ///
    /// [`Refusal::PatternLength`] for no bit or more than 2,048, [`Refusal::PatternBytesMissing`] for fewer bytes than
    /// the bits take.
    pub fn new(bytes: &'a [u8], bit_count: u64) -> Result<Pattern<'a>, Refusal> {
        Pattern::with_fixed(bytes, &ALL_FIXED, bit_count)
    }

    /// The first `bit_count` bits of `bytes`, of which those are fixed that are 1 in `fixed`. The others are wild.
    ///
    /// ```
    /// use mitongory::{Method, Occurrences, Pattern, Refusal, Text};
    ///
    /// # fn main() -> Result<(), Refusal> {
    /// // A byte whose upper half is 1010, at any bit of the text.
    /// let pattern = Pattern::with_fixed(&[0b1010_0000], &[0b1111_0000], 8)?;
    /// let text = Text::from_bytes(&[0b0101_0011, 0b1110_1010])?;
    /// assert!(Occurrences::new(text, pattern, Method::Hash)?.eq([1]));
    ///
    /// assert_eq!(Pattern::with_fixed(&[0; 2], &[0xff; 1], 9), Err(Refusal::FixedBytesMissing));
    /// # Ok(())
    /// # }
    /// ```
    ///
    /// # Errors
    ///
    /// [`Refusal::PatternLength`] for no bit or more than 2,048; then [`Refusal::PatternBytesMissing`] where `bytes` has
    /// fewer bytes than the bits take, and [`Refusal::FixedBytesMissing`] where `fixed` has.
    pub fn with_fixed(bytes: &'a [u8], fixed: &'a [u8], bit_count: u64) -> Result<Pattern<'a>, Refusal> {
        // Of the call for H, refusals 3, 4 and 17 speak of every pattern, and 5 of one too short for H.
        let said = call::check(ffi::hash_value(bytes, fixed, bit_count, 0, &mut [0]));
        let bits = Packed::judged(bytes, bit_count, said, Refusal::PatternUnfit)?;
        Ok(Pattern { bits, fixed: Packed { bytes: fixed, bit_count } })
    }

    /// All bits of `bytes`, eight for each, every one fixed.
    ///
    /// ```
    /// use mitongory::{Pattern, Refusal};
    ///
    /// assert_eq!(Pattern::from_bytes(b"bit").unwrap().bit_count(), 24);
    /// assert_eq!(Pattern::from_bytes(b""), Err(Refusal::PatternLength));
    /// ```
    ///
    /// # Errors
    ///
    /// [`Refusal::PatternLength`] for no byte or more than 256.
    pub fn from_bytes(bytes: &'a [u8]) -> Result<Pattern<'a>, Refusal> {
        Pattern::new(bytes, packed::bits_in(bytes))
    }

    /// The bytes that say which bits are fixed, all that were lent: also those after the last bit. For a pattern that was
    /// made without them they are 256 bytes of ones.
    ///
    /// ```
    /// use mitongory::Pattern;
    ///
    /// assert_eq!(Pattern::with_fixed(&[0xff], &[0b1010_0000, 7], 3).unwrap().fixed(), [0b1010_0000, 7]);
    /// assert_eq!(Pattern::new(&[0xff], 3).unwrap().fixed(), [0xff; 256]);
    /// ```
    #[must_use]
    pub const fn fixed(&self) -> &'a [u8] {
        self.fixed.bytes
    }

    /// Whether a bit is fixed. A wild one is not, nor is one from the bit count on.
    ///
    /// ```
    /// let pattern = mitongory::Pattern::with_fixed(&[0xff], &[0b1011_0000], 3).unwrap();
    /// assert_eq!([0, 1, 2, 3].map(|index| pattern.is_fixed(index)), [true, false, true, false]);
    /// ```
    #[must_use]
    pub const fn is_fixed(&self, index: u64) -> bool {
        index < self.bit_count() && self.fixed.is_one(index)
    }

    /// H of an eight-bit value, on which [`Method::Hash`](crate::Method::Hash) rests: how far a window that ends in the
    /// value may move on. It is the least move, from 0 to the pattern's bit count, after which the pattern's fixed bits
    /// agree with those bits of the value that they then lie on.
    ///
    /// ```
    /// use mitongory::Pattern;
    ///
    /// let pattern = Pattern::new(&[0xcb, 0x2c, 0xb0], 21).unwrap();
    /// assert_eq!(pattern.hash_value(0b1001_0110), Ok(0));
    /// assert_eq!(pattern.hash_value(0b0000_0000), Ok(21));
    ///
    /// // With its last two bits wild, four values are at the pattern's end.
    /// let pattern = Pattern::with_fixed(&[0xcb, 0x2c, 0xb0], &[0xff, 0xff, 0b1110_0000], 21).unwrap();
    /// assert_eq!(pattern.hash_value(0b1001_0110), Ok(0));
    /// assert_eq!(pattern.hash_value(0b1001_0101), Ok(0));
    /// ```
    ///
    /// # Errors
    ///
    /// [`Refusal::PatternUnfit`] for a pattern below 8 bits.
    pub fn hash_value(&self, value: u8) -> Result<u32, Refusal> {
        call::answer(|cell| ffi::hash_value(self.bytes(), self.fixed(), self.bit_count(), value, cell))
    }

    fn characters(self) -> impl Iterator<Item = char> + 'a {
        packed::wild_characters(self.bits, self.fixed)
    }

    /// All that a search looks at: of each byte the fixed bits, with zeros at all others, and which ones they are. After
    /// bits that fill their bytes comes one byte of zeros.
    pub(crate) fn compared(self) -> impl Iterator<Item = (u8, u8)> + 'a {
        let bytes = |packed: Packed<'a>| {
            let (whole, last) = packed.parts();
            whole.iter().copied().chain([last])
        };
        bytes(self.bits).zip(bytes(self.fixed)).map(|(bits, fixed)| (bits & fixed, fixed))
    }
}

impl PartialEq for Pattern<'_> {
    fn eq(&self, other: &Pattern<'_>) -> bool {
        self.bit_count() == other.bit_count() && self.compared().eq(other.compared())
    }
}

impl Eq for Pattern<'_> {}

impl Hash for Pattern<'_> {
    fn hash<H: Hasher>(&self, state: &mut H) {
        self.bit_count().hash(state);
        self.compared().for_each(|byte| byte.hash(state));
    }
}

shows_its_bits!(Pattern);
