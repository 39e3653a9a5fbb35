//! Refusals: the numbers of document 01's table, and 26 to 29 of document 02. R-3 of document 02
//! has retired 12.

/// A refusal's number.
#[derive(Clone, Copy, Debug, PartialEq, Eq)]
pub struct Refusal(pub u8);

/// What a call answers, or the refusal it gives.
pub type Answer<T> = Result<T, Refusal>;

/// The highest number.
pub const LAST: u8 = 29;

/// The number that is given no more.
pub const RETIRED: u8 = 12;

/// Puts an answer through a pointer as the C interface does: a refusal leaves the place alone.
pub fn settle<T>(answer: Answer<T>, place: &mut T) -> u8 {
    match answer {
        Ok(value) => {
            *place = value;
            0
        }
        Err(Refusal(number)) => number,
    }
}
