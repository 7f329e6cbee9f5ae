//! Eight bits of a text, and how many of them there are.
use crate::ffi::EIGHT_CELLS;
use crate::{call, ffi};

/// The character where there is no bit.
const NO_BIT: char = '·';

/// Up to eight bits of a text, from some place on: [`Text::eight_bits`](crate::Text::eight_bits).
#[derive(Clone, Copy, Debug, PartialEq, Eq, Hash)]
pub struct EightBits {
    /// The bits, the first one leftmost. Those after the text's last bit are 0.
    pub byte: u8,
    /// How many of them are bits of the text, from the left: 8 but near its end, and 0 from its end on.
    pub count: u32,
}

impl EightBits {
    /// What an accepted call's answer cells hold.
    pub(crate) fn of_cells(cells: [u64; EIGHT_CELLS]) -> EightBits {
        EightBits { byte: call::of_cell(cells[ffi::BYTE]), count: call::of_cell(cells[ffi::COUNT]) }
    }

    /// The bits as characters 0 and 1, and a dot for each that is none of the text: eight characters.
    fn characters(self) -> impl Iterator<Item = char> {
        (0..8).map(move |index| match self.byte & 0x80 >> index {
            _ if index >= self.count => NO_BIT,
            0 => '0',
            _ => '1',
        })
    }
}

/// The bits on both sides of a place in groups of four, with a bar at the place. Those before it are the first `count` bits
/// of `before`, which are fewer than eight where the text begins less than eight bits before the place.
pub(crate) fn around(before: EightBits, count: usize, from: EightBits) -> String {
    let none = std::iter::repeat(NO_BIT).take(8 - count);
    let all = none.chain(before.characters().take(count)).chain(from.characters());
    let mut shown = String::new();
    for (index, character) in all.enumerate() {
        shown.push_str(match index {
            4 | 12 => " ",
            8 => " | ",
            _ => "",
        });
        shown.push(character);
    }
    shown
}
