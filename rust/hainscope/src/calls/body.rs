//! `hainscope_body`: its declaration, and the safe function over it.
//! The body itself is not copied: the caller has the table, and gets place and length.

extern "C" {
    fn hainscope_body(
        table: *const u8,
        table_length: usize,
        number: usize,
        length: *mut usize,
        place: *mut usize,
    ) -> u32;
}

/// The body of the record of a number, the first being 0. Accepted: 0, the place of the body's
/// first byte, and its length. Refused: number and place, and length 0.
pub fn body(table: &[u8], number: usize, length: &mut usize, place: &mut usize) -> u32 {
    // SAFETY: the table's pointer and length are a slice's own, `length` and `place` are two numbers
    // lent to this call alone, and the function writes nothing but these two.
    unsafe { hainscope_body(table.as_ptr(), table.len(), number, length, place) }
}
