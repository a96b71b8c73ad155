//! `hainscope_can_stand`: its declaration, and the safe function over it.
//! A selection is lent as a u64, request r at bit r-1.

extern "C" {
    fn hainscope_can_stand(
        table: *const u8,
        table_length: usize,
        selection: u64,
        stands: *mut u32,
        place: *mut usize,
    ) -> u32;
}

/// Whether a selection can stand. Accepted: 0, stands 1 or 0, and place 0. Refused: number and
/// place, and stands 0.
pub fn can_stand(table: &[u8], selection: u64, stands: &mut u32, place: &mut usize) -> u32 {
    // SAFETY: the table's pointer and length are a slice's own, `stands` and `place` are two numbers
    // lent to this call alone, and the function writes nothing but these two.
    unsafe { hainscope_can_stand(table.as_ptr(), table.len(), selection, stands, place) }
}
