//! `hainscope_read`: its declaration, and the safe function over it.
//! A slice passes as a pointer and then a length.

extern "C" {
    fn hainscope_read(table: *const u8, table_length: usize, place: *mut usize) -> u32;
}

/// Reads a table. Accepted: 0, and place 0. Refused: number and place.
pub fn read(table: &[u8], place: &mut usize) -> u32 {
    // SAFETY: the table's pointer and length are a slice's own, `place` is lent to this call alone,
    // and the function reads nothing but the table and writes nothing but `place`.
    unsafe { hainscope_read(table.as_ptr(), table.len(), place) }
}
