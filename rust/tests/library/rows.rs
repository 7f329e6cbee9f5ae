//! The rows that a plain search makes, as they lie in the scratch. A search with no budget makes its tables and no step.
//! What the scratch holds after a call is promised to no caller: this looks into the library.
use crate::random::Random;
use crate::second_runs::{of_kind, KINDS};
use mitongory::{ffi, Method};

/// Bit j of byte h of row i, or of its mask: a cell holds eight bytes, the first one highest.
fn lying(cells: &[u64], mask: bool, [i, h, j]: [usize; 3]) -> bool {
    let cell = cells[16 * (h / 8) + usize::from(mask) * 8 + i];
    cell.to_be_bytes()[h % 8] >> (7 - j) & 1 == 1
}

/// The first bits of a run, packed, and ones from there on.
fn packed(bits: &[bool]) -> Vec<u8> {
    let byte = |eight: &[bool]| (0..8).fold(0, |x, j| x << 1 | u8::from(*eight.get(j).unwrap_or(&true)));
    bits.chunks(8).map(byte).collect()
}

/// Every length, with wild bits of every kind in turn: in each row byte a mask bit is 1 exactly at a fixed bit of the
/// pattern, and there the row shows that bit; all others are 0.
#[test]
fn row_bytes() {
    let random = Random::of("row_bytes");
    for m in 1..=2_048 {
        let kind = KINDS[m % KINDS.len()];
        let fixed = of_kind(&random, kind, m);
        let pattern: Vec<bool> = (0..m).map(|_| random.once_in(2)).collect();
        let text = vec![0; m.div_ceil(8)];
        let (n, method) = (m as u64, Method::Plain as u32);
        let mut scratch: Vec<u64> = (0..Method::Plain.scratch_cells(n).unwrap()).map(|_| random.draw()).collect();
        let mut answer = [9; 4];
        let runs = [packed(&pattern), packed(&fixed)];
        let said = ffi::search(&text, n, &runs[0], &runs[1], n, method, 0, 0, &mut [], &mut scratch, &mut answer);
        assert_eq!((said, answer), (0, [0, 0, 0, 2]));
        for i in 0..8 {
            for p in 0..8 * (m + i).div_ceil(8) {
                let at = [i, p / 8, p % 8];
                let index = p.checked_sub(i).filter(|&q| q < m && fixed[q]);
                assert_eq!(lying(&scratch, true, at), index.is_some(), "mask of {m} bits at {at:?}, {kind:?}");
                assert_eq!(lying(&scratch, false, at), index.is_some_and(|q| pattern[q]), "row of {m} bits at {at:?}");
            }
        }
    }
}
