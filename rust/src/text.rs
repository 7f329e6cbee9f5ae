//! The text: packed bits to search in.
use crate::eight_bits::{self, EightBits};
use crate::packed::{self, shows_its_bits, Packed};
use crate::refusal::Refusal;
use crate::{call, ffi};

/// The bits to search in: borrowed bytes and a bit count of at most 2^30.
///
/// Bit `p` is the bit of weight `2^(7 - p % 8)` in byte `p / 8`. There may be more bytes than the bits take. Bits from
/// the count on never matter: two texts are equal just if they have the same bits, whatever comes after these.
///
/// ```
/// use mitongory::Text;
///
/// # fn main() -> Result<(), mitongory::Refusal> {
/// let text = Text::new(&[0b1010_0000], 3)?;
/// assert_eq!(text, Text::new(&[0b1011_1111, 0xff], 3)?);
/// assert_ne!(text, Text::new(&[0b1010_0000], 4)?);
/// # Ok(())
/// # }
/// ```
///
/// The `Debug` form shows the bit count and no more than the first 64 bits.
///
/// ```
/// let text = mitongory::Text::new(&[0b1010_0000], 3).unwrap();
/// assert_eq!(format!("{text:?}"), "Text { bit_count: 3, bits: 101 }");
/// ```
#[derive(Clone, Copy, PartialEq, Eq, Hash)]
pub struct Text<'a> {
    bits: Packed<'a>,
}

impl<'a> Text<'a> {
    /// The first `bit_count` bits of `bytes`.
    ///
    /// ```
    /// use mitongory::{Refusal, Text};
    ///
    /// assert_eq!(Text::new(&[0xff, 0x80], 9).unwrap().bit_count(), 9);
    /// assert_eq!(Text::new(&[0xff], 9), Err(Refusal::TextBytesMissing));
    /// ```
    ///
    /// # Errors
    ///
    /// [`Refusal::TextTooLong`] above 2^30 bits, [`Refusal::TextBytesMissing`] for fewer bytes than the bits take.
    pub fn new(bytes: &'a [u8], bit_count: u64) -> Result<Text<'a>, Refusal> {
        // The call for eight bits takes any place, so that it is refused for the text alone.
        call::check(ffi::eight_bits(bytes, bit_count, 0, &mut [0; ffi::EIGHT_CELLS]))?;
        Ok(Text { bits: Packed { bytes, bit_count } })
    }

    /// All bits of `bytes`, eight for each.
    ///
    /// ```
    /// assert_eq!(mitongory::Text::from_bytes(b"bits").unwrap().bit_count(), 32);
    /// ```
    ///
    /// # Errors
    ///
    /// [`Refusal::TextTooLong`] above 2^27 bytes.
    pub fn from_bytes(bytes: &'a [u8]) -> Result<Text<'a>, Refusal> {
        Text::new(bytes, packed::bits_in(bytes))
    }

    /// The eight bits from bit `place` on, as a byte with that bit leftmost, and how many of them are bits of the text.
    /// Any place will do: where the text ends, the byte has zeros, whatever the lent bytes hold there.
    ///
    /// ```
    /// use mitongory::{EightBits, Text};
    ///
    /// let text = Text::new(&[0xab, 0xcf], 13).unwrap();
    /// assert_eq!(text.eight_bits(4), EightBits { byte: 0xbc, count: 8 });
    /// assert_eq!(text.eight_bits(9), EightBits { byte: 0b1001_0000, count: 4 });
    /// assert_eq!(text.eight_bits(13), EightBits { byte: 0, count: 0 });
    /// ```
    #[must_use]
    pub fn eight_bits(&self, place: u32) -> EightBits {
        let mut cells = [0; ffi::EIGHT_CELLS];
        // Only a text can be refused, and this one was not.
        call::check(ffi::eight_bits(self.bytes(), self.bit_count(), place, &mut cells)).expect("the text was judged");
        EightBits::of_cells(cells)
    }

    /// The bits around a place, for people to read: eight before it, a bar, and eight from it on. A dot stands where the
    /// text has no bit, before its first or after its last one.
    ///
    /// ```
    /// use mitongory::Text;
    ///
    /// let text = Text::new(&[0x64, 0x89, 0xa5, 0x14, 0x9f], 36).unwrap();
    /// assert_eq!(text.around(11), "0010 0100 | 0100 1101");
    /// assert_eq!(text.around(32), "0001 0100 | 1001 ····");
    /// assert_eq!(text.around(3), "···· ·011 | 0010 0100");
    /// ```
    #[must_use]
    pub fn around(&self, place: u32) -> String {
        let first = place.saturating_sub(8);
        eight_bits::around(self.eight_bits(first), (place - first) as usize, self.eight_bits(place))
    }

    fn characters(self) -> impl Iterator<Item = char> + 'a {
        self.bits.characters()
    }
}

shows_its_bits!(Text);
