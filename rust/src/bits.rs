//! Owned packed bits, made from characters 0 and 1 or from truth values.
use crate::packed::{self, Packed};
use crate::pattern::Pattern;
use crate::refusal::Refusal;
use crate::text::Text;
use std::error::Error;
use std::fmt;
use std::str::FromStr;

/// Packed bits that own their bytes; [`Text`] and [`Pattern`] borrow them. For a pattern with wild bits there are
/// [`WildBits`](crate::WildBits).
///
/// ```
/// use mitongory::Bits;
///
/// # fn main() -> Result<(), Box<dyn std::error::Error>> {
/// let bits: Bits = "0100110100".parse()?;
/// assert_eq!((bits.bytes(), bits.bit_count()), (&[0b0100_1101, 0b0000_0000][..], 10));
/// assert_eq!(bits.pattern()?.bit_count(), 10);
/// assert_eq!(bits.to_string(), "0100110100");
/// # Ok(())
/// # }
/// ```
///
/// Bits can be collected and pushed too.
///
/// ```
/// let mut bits: mitongory::Bits = [true, false].into_iter().collect();
/// bits.push(true);
/// assert_eq!(format!("{bits:?}"), "Bits { bit_count: 3, bits: 101 }");
/// ```
#[derive(Clone, Default, PartialEq, Eq, Hash)]
pub struct Bits {
    /// As many bytes as the bits take, with zeros after the last bit, so that the derived `Eq` and `Hash` see the bits
    /// alone.
    bytes: Vec<u8>,
    bit_count: u64,
}

impl Bits {
    /// No bits.
    ///
    /// ```
    /// assert_eq!(mitongory::Bits::new().bit_count(), 0);
    /// ```
    #[must_use]
    pub const fn new() -> Bits {
        Bits { bytes: Vec::new(), bit_count: 0 }
    }

    /// Puts a bit after the last one; `true` is a 1.
    ///
    /// ```
    /// let mut bits = mitongory::Bits::new();
    /// bits.push(true);
    /// assert_eq!(bits.bytes(), [0b1000_0000]);
    /// ```
    pub fn push(&mut self, bit: bool) {
        let offset = self.bit_count % 8;
        if offset == 0 {
            self.bytes.push(0);
        }
        if let Some(last) = self.bytes.last_mut() {
            *last |= u8::from(bit) << (7 - offset);
        }
        self.bit_count += 1;
    }

    /// The bytes, with zeros after the last bit.
    ///
    /// ```
    /// assert_eq!("111".parse::<mitongory::Bits>().unwrap().bytes(), [0b1110_0000]);
    /// ```
    #[must_use]
    pub fn bytes(&self) -> &[u8] {
        &self.bytes
    }

    /// How many bits there are.
    ///
    /// ```
    /// assert_eq!("111".parse::<mitongory::Bits>().unwrap().bit_count(), 3);
    /// ```
    #[must_use]
    pub const fn bit_count(&self) -> u64 {
        self.bit_count
    }

    /// The bits as a text.
    ///
    /// ```
    /// assert_eq!(mitongory::Bits::new().text().unwrap().bit_count(), 0);
    /// ```
    ///
    /// # Errors
    ///
    /// [`Refusal::TextTooLong`] above 2^30 bits.
    pub fn text(&self) -> Result<Text<'_>, Refusal> {
        Text::new(&self.bytes, self.bit_count)
    }

    /// The bits as a pattern, every one fixed.
    ///
    /// ```
    /// use mitongory::{Bits, Refusal};
    ///
    /// assert_eq!(Bits::new().pattern(), Err(Refusal::PatternLength));
    /// ```
    ///
    /// # Errors
    ///
    /// [`Refusal::PatternLength`] for no bit or more than 2,048.
    pub fn pattern(&self) -> Result<Pattern<'_>, Refusal> {
        Pattern::new(&self.bytes, self.bit_count)
    }

    pub(crate) fn packed(&self) -> Packed<'_> {
        Packed { bytes: &self.bytes, bit_count: self.bit_count }
    }
}

impl Extend<bool> for Bits {
    fn extend<I: IntoIterator<Item = bool>>(&mut self, bits: I) {
        bits.into_iter().for_each(|bit| self.push(bit));
    }
}

impl FromIterator<bool> for Bits {
    fn from_iter<I: IntoIterator<Item = bool>>(bits: I) -> Bits {
        let mut all = Bits::new();
        all.extend(bits);
        all
    }
}

/// Characters 0 and 1, the first one leftmost in the first byte. Any other character, a space too, is an error.
///
/// ```
/// use mitongory::Bits;
///
/// let error = "0102".parse::<Bits>().unwrap_err();
/// assert_eq!((error.at(), error.character()), (3, '2'));
/// assert_eq!(error.to_string(), "the character '2' at index 3 is neither 0 nor 1");
/// ```
impl FromStr for Bits {
    type Err = NotABit;

    fn from_str(characters: &str) -> Result<Bits, NotABit> {
        let bit = |(at, character)| match character {
            '0' => Ok(false),
            '1' => Ok(true),
            _ => Err(NotABit { at, character, or_wild: false }),
        };
        characters.char_indices().map(bit).collect()
    }
}

/// All bits as characters 0 and 1.
impl fmt::Display for Bits {
    fn fmt(&self, f: &mut fmt::Formatter<'_>) -> fmt::Result {
        f.pad(&self.packed().characters().collect::<String>())
    }
}

/// The bit count and the first 64 bits.
impl fmt::Debug for Bits {
    fn fmt(&self, f: &mut fmt::Formatter<'_>) -> fmt::Result {
        packed::debug("Bits", self.bit_count, self.packed().characters(), f)
    }
}

/// A character of a string is no bit: neither 0 nor 1, and for [`WildBits`](crate::WildBits) not ? either.
#[derive(Clone, Copy, Debug, PartialEq, Eq)]
pub struct NotABit {
    pub(crate) at: usize,
    pub(crate) character: char,
    /// A ? would have been one too.
    pub(crate) or_wild: bool,
}

impl NotABit {
    /// The character's index in the string, from 0. Those before it are bits, so it counts characters and bytes alike.
    #[must_use]
    pub const fn at(&self) -> usize {
        self.at
    }

    /// The character.
    #[must_use]
    pub const fn character(&self) -> char {
        self.character
    }
}

impl fmt::Display for NotABit {
    fn fmt(&self, f: &mut fmt::Formatter<'_>) -> fmt::Result {
        let why = if self.or_wild { "none of 0, 1 and ?" } else { "neither 0 nor 1" };
        write!(f, "the character {:?} at index {} is {why}", self.character, self.at)
    }
}

impl Error for NotABit {}
