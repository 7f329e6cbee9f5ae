//! What a text and a pattern have in common: they are the first bits of some bytes.
use crate::refusal::Refusal;
use std::fmt;
use std::hash::{Hash, Hasher};

/// How many bits a `Debug` form shows; a text may have 2^30.
const SHOWN: usize = 64;

/// The first `bit_count` bits of `bytes`, which has enough bytes for them.
#[derive(Clone, Copy)]
pub(crate) struct Packed<'a> {
    pub(crate) bytes: &'a [u8],
    pub(crate) bit_count: u64,
}

/// What a text and a pattern show of their bits.
macro_rules! shows_its_bits {
    ($name:ident) => {
        impl<'a> $name<'a> {
            /// The bytes that were lent, all of them: also those after the last bit.
            #[must_use]
            pub const fn bytes(&self) -> &'a [u8] {
                self.bits.bytes
            }

            /// How many bits there are.
            #[must_use]
            pub const fn bit_count(&self) -> u64 {
                self.bits.bit_count
            }
        }

        impl std::fmt::Debug for $name<'_> {
            fn fmt(&self, f: &mut std::fmt::Formatter<'_>) -> std::fmt::Result {
                crate::packed::debug(stringify!($name), self.bit_count(), self.characters(), f)
            }
        }
    };
}
pub(crate) use shows_its_bits;

/// The character for a wild bit of a pattern.
pub(crate) const WILD: char = '?';

/// The bits of a pattern as characters 0 and 1, with a mark for those that are not fixed.
pub(crate) fn wild_characters<'a>(bits: Packed<'a>, fixed: Packed<'a>) -> impl Iterator<Item = char> + 'a {
    bits.characters().zip(fixed.characters()).map(|(bit, fixed)| if fixed == '1' { bit } else { WILD })
}

/// How many bits there are in whole bytes.
pub(crate) const fn bits_in(bytes: &[u8]) -> u64 {
    (bytes.len() as u64).saturating_mul(8)
}

/// How many bytes so many bits take.
pub(crate) const fn bytes_for(bit_count: u64) -> usize {
    bit_count.div_ceil(8) as usize
}

/// The `Debug` form of a type with these bits: the bit count and the first bits.
pub(crate) fn debug(
    name: &str,
    bit_count: u64,
    characters: impl Iterator<Item = char>,
    f: &mut fmt::Formatter<'_>,
) -> fmt::Result {
    let mut bits: String = characters.take(SHOWN).collect();
    if bit_count > SHOWN as u64 {
        bits.push_str("...");
    }
    f.debug_struct(name).field("bit_count", &bit_count).field("bits", &format_args!("{bits}")).finish()
}

impl<'a> Packed<'a> {
    /// The bits, unless the library refused a call on them. The limits are the library's alone: `said` is what it says
    /// of the bits in a call that may also be refused with `beside`, for a reason that is none here.
    pub(crate) fn judged(
        bytes: &'a [u8],
        bit_count: u64,
        said: Result<(), Refusal>,
        beside: Refusal,
    ) -> Result<Packed<'a>, Refusal> {
        match said {
            Err(refusal) if refusal != beside => Err(refusal),
            _ => Ok(Packed { bytes, bit_count }),
        }
    }

    /// The bytes that the bits fill whole, and the bits after these, with zeros in place of the padding.
    pub(crate) fn parts(self) -> (&'a [u8], u8) {
        let (whole, rest) = self.bytes.split_at((self.bit_count / 8) as usize);
        let last = match self.bit_count % 8 {
            0 => 0,
            count => rest[0] & !(0xff >> count),
        };
        (whole, last)
    }

    /// Whether a bit is a 1; one from the count on is not asked for.
    pub(crate) const fn is_one(self, index: u64) -> bool {
        self.bytes[(index / 8) as usize] & 0x80 >> (index % 8) != 0
    }

    /// The bits as characters 0 and 1.
    pub(crate) fn characters(self) -> impl Iterator<Item = char> + 'a {
        (0..self.bit_count).map(move |index| if self.is_one(index) { '1' } else { '0' })
    }
}

impl PartialEq for Packed<'_> {
    fn eq(&self, other: &Packed<'_>) -> bool {
        self.bit_count == other.bit_count && self.parts() == other.parts()
    }
}

impl Eq for Packed<'_> {}

impl Hash for Packed<'_> {
    fn hash<H: Hasher>(&self, state: &mut H) {
        self.bit_count.hash(state);
        self.parts().hash(state);
    }
}
