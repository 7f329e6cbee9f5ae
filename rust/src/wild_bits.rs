//! Owned bits for a pattern, some of which may be wild, made from characters 0, 1 and ? or from optional truth values.
use crate::bits::{Bits, NotABit};
use crate::packed;
use crate::pattern::Pattern;
use crate::refusal::Refusal;
use std::fmt;
use std::str::FromStr;

/// Packed bits that own their bytes, as [`Bits`] do, and of which some may be wild: a pattern of them occurs whatever the
/// text has there. A [`Pattern`] borrows them.
///
/// In characters a wild bit is a `?`: one for each bit, as a `?` is any one character in a shell's file names, and not to
/// be taken for a 0 or a 1.
///
/// ```
/// use mitongory::{Bits, Method, Occurrences, WildBits};
///
/// # fn main() -> Result<(), Box<dyn std::error::Error>> {
/// let long: Bits = "011001001000100110100101000101001001".parse()?;
/// let short: WildBits = "0100??0100".parse()?;
/// assert_eq!((short.bytes(), short.fixed()), (&[0b0100_0001, 0][..], &[0b1111_0011, 0b1100_0000][..]));
/// assert_eq!(short.to_string(), "0100??0100");
///
/// let occurrences = Occurrences::new(long.text()?, short.pattern()?, Method::Tail)?;
/// assert!(occurrences.eq([11, 22]));
/// # Ok(())
/// # }
/// ```
///
/// They can be collected and pushed too: `None` is a wild bit.
///
/// ```
/// use mitongory::WildBits;
///
/// let address = [None; 4];
/// let mut bits: WildBits = [Some(true), Some(false)].into_iter().chain(address).collect();
/// bits.push(Some(true));
/// assert_eq!(format!("{bits:?}"), "WildBits { bit_count: 7, bits: 10????1 }");
/// ```
///
/// Two are equal just if they have the same bits, wild ones at the same indices.
#[derive(Clone, Default, PartialEq, Eq, Hash)]
pub struct WildBits {
    /// The bits, with zeros in place of the wild ones, so that the derived `Eq` and `Hash` see the fixed bits alone.
    bits: Bits,
    /// As many bits, 1 for fixed and 0 for wild.
    fixed: Bits,
}

impl WildBits {
    /// The character for a wild bit.
    pub const WILD: char = packed::WILD;

    /// No bits.
    ///
    /// ```
    /// assert_eq!(mitongory::WildBits::new().bit_count(), 0);
    /// ```
    #[must_use]
    pub const fn new() -> WildBits {
        WildBits { bits: Bits::new(), fixed: Bits::new() }
    }

    /// Puts a bit after the last one; `Some(true)` is a 1, and `None` a wild bit.
    ///
    /// ```
    /// let mut bits = mitongory::WildBits::new();
    /// bits.push(None);
    /// bits.push(Some(true));
    /// assert_eq!((bits.bytes(), bits.fixed()), (&[0b0100_0000][..], &[0b0100_0000][..]));
    /// ```
    pub fn push(&mut self, bit: Option<bool>) {
        self.bits.push(bit.unwrap_or(false));
        self.fixed.push(bit.is_some());
    }

    /// The bytes, with zeros in place of the wild bits and after the last bit.
    ///
    /// ```
    /// assert_eq!("1?1".parse::<mitongory::WildBits>().unwrap().bytes(), [0b1010_0000]);
    /// ```
    #[must_use]
    pub fn bytes(&self) -> &[u8] {
        self.bits.bytes()
    }

    /// The bytes that say which bits are fixed, with zeros after the last bit.
    ///
    /// ```
    /// assert_eq!("0?1".parse::<mitongory::WildBits>().unwrap().fixed(), [0b1010_0000]);
    /// ```
    #[must_use]
    pub fn fixed(&self) -> &[u8] {
        self.fixed.bytes()
    }

    /// How many bits there are, wild ones included.
    ///
    /// ```
    /// assert_eq!("1?1".parse::<mitongory::WildBits>().unwrap().bit_count(), 3);
    /// ```
    #[must_use]
    pub const fn bit_count(&self) -> u64 {
        self.bits.bit_count()
    }

    /// The bits as a pattern.
    ///
    /// ```
    /// use mitongory::{Bits, Refusal, WildBits};
    ///
    /// # fn main() -> Result<(), Box<dyn std::error::Error>> {
    /// let (fixed, same): (Bits, WildBits) = ("101".parse()?, "101".parse()?);
    /// assert_eq!(fixed.pattern()?, same.pattern()?);
    /// assert_eq!(WildBits::new().pattern(), Err(Refusal::PatternLength));
    /// # Ok(())
    /// # }
    /// ```
    ///
    /// # Errors
    ///
    /// [`Refusal::PatternLength`] for no bit or more than 2,048.
    pub fn pattern(&self) -> Result<Pattern<'_>, Refusal> {
        Pattern::with_fixed(self.bytes(), self.fixed(), self.bit_count())
    }

    fn characters(&self) -> impl Iterator<Item = char> + '_ {
        packed::wild_characters(self.bits.packed(), self.fixed.packed())
    }
}

impl Extend<Option<bool>> for WildBits {
    fn extend<I: IntoIterator<Item = Option<bool>>>(&mut self, bits: I) {
        bits.into_iter().for_each(|bit| self.push(bit));
    }
}

impl FromIterator<Option<bool>> for WildBits {
    fn from_iter<I: IntoIterator<Item = Option<bool>>>(bits: I) -> WildBits {
        let mut all = WildBits::new();
        all.extend(bits);
        all
    }
}

/// Characters 0, 1 and ?, the first one leftmost in the first byte. Any other character, a space too, is an error.
///
/// ```
/// use mitongory::WildBits;
///
/// let error = "01?x".parse::<WildBits>().unwrap_err();
/// assert_eq!((error.at(), error.character()), (3, 'x'));
/// assert_eq!(error.to_string(), "the character 'x' at index 3 is none of 0, 1 and ?");
/// ```
impl FromStr for WildBits {
    type Err = NotABit;

    fn from_str(characters: &str) -> Result<WildBits, NotABit> {
        let bit = |(at, character)| match character {
            '0' => Ok(Some(false)),
            '1' => Ok(Some(true)),
            WildBits::WILD => Ok(None),
            _ => Err(NotABit { at, character, or_wild: true }),
        };
        characters.char_indices().map(bit).collect()
    }
}

/// All bits as characters 0, 1 and ?.
impl fmt::Display for WildBits {
    fn fmt(&self, f: &mut fmt::Formatter<'_>) -> fmt::Result {
        f.pad(&self.characters().collect::<String>())
    }
}

/// The bit count and the first 64 bits.
impl fmt::Debug for WildBits {
    fn fmt(&self, f: &mut fmt::Formatter<'_>) -> fmt::Result {
        packed::debug("WildBits", self.bit_count(), self.characters(), f)
    }
}
