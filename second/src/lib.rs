//! A second slot scheduler, written from the definition's text alone, so that its answers can be
//! compared with those of the real one.
//!
//! It goes slot by slot where the definition has formulas. `table` steps through multiples to the
//! window, marks the places and adds up what is due offset by offset. `latest` lays all work as
//! late as it may lie and counts the slots that stay free: that is D and Y. `admit` looks for a
//! plan that ends in time, by earliest deadline first, and halves the ends that are left; that is
//! the promise. `chip` runs the slots.
//!
//! Arithmetic stands in for slots at three spots, all in `admit`: the idle slots of a window, those
//! from now to the window's end, and the whole windows that a long need skips. The tests of `agree`
//! hold these, and the halving, to the plain search that tries one end after the other, the search
//! to every possible choice, and the vectors and the promise to the definition's own formulas.
//! Those are in `literal`, which only the tests have.

pub mod admit;
#[cfg(test)]
mod agree;
pub mod chip;
pub mod faults;
pub mod fields;
pub mod latest;
pub mod listing;
#[cfg(test)]
mod literal;
pub mod rng;
pub mod table;

/// A refusal by number and place; the place is 0 where the definition names none.
#[derive(Clone, Copy, Debug, PartialEq, Eq)]
pub struct Refusal {
    pub number: u32,
    pub place: u64,
}

pub fn refuse<T>(number: u32, place: u64) -> Result<T, Refusal> {
    Err(Refusal { number, place })
}
