//! The question by the library.

use hainscope::calls;

/// What a call gives: refusal number, place, and 1 where the selection stands.
pub type Outcome = (u32, usize, u32);

/// The question by the library, which must set both stands and place.
pub fn ask_library(table: &[u8], selection: u64) -> Outcome {
    let (mut stands, mut place) = (0xDEAD, 0xBEEF);
    let number = calls::can_stand(table, selection, &mut stands, &mut place);
    (number, place, stands)
}
