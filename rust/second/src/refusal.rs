//! A refusal: its number and a byte place (document 01, "Refusal numbers").
//! The numbers are document 01's; the place of a record is its first byte.

/// Why a call was refused, and where.
#[derive(Clone, Copy, Debug, PartialEq, Eq)]
pub struct Refusal {
    /// The number in document 01's list.
    pub number: u32,
    /// The byte place that document 01 gives beside the number.
    pub place: usize,
}

impl Refusal {
    /// The refusal of this number at this place.
    pub fn new(number: u32, place: usize) -> Refusal {
        Refusal { number, place }
    }
}
