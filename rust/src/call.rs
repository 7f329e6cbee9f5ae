//! What a call of the library says by its number and its answer cells.
use crate::refusal::Refusal;

/// What a call's number says: 0 is an accepted call.
pub(crate) fn check(number: u32) -> Result<(), Refusal> {
    match number {
        0 => Ok(()),
        // The crate hands over the five methods and enough answer cells only.
        _ => Err(Refusal::from_number(number).expect("the library refuses with a number of the rules")),
    }
}

/// The answer of a call that fills one cell.
pub(crate) fn answer<T: TryFrom<u64>>(call: impl FnOnce(&mut [u64]) -> u32) -> Result<T, Refusal> {
    let mut cell = [0];
    check(call(&mut cell))?;
    Ok(of_cell(cell[0]))
}

/// What an answer's cell holds.
pub(crate) fn of_cell<T: TryFrom<u64>>(cell: u64) -> T {
    T::try_from(cell).ok().expect("the library answers in its type's range")
}
