//! The four report calls: their declarations, and a safe function over each.
//! All write one record into the lent buffer from a start on, and no other byte.

macro_rules! report_calls {
    ($($name:ident, $declared:ident: $words:literal;)*) => {
        extern "C" {
            $(fn $declared(
                table: *const u8,
                table_length: usize,
                report: *mut u8,
                report_length: usize,
                start: usize,
                place: *mut usize,
            ) -> u32;)*
        }

        $(
            #[doc = $words]
            ///
            /// Accepted: 0, and the place after the record. Refused: number and place, and the
            /// buffer as it was.
            pub fn $name(table: &[u8], report: &mut [u8], start: usize, place: &mut usize) -> u32 {
                // SAFETY: pointers and lengths are the slices' own, the buffer and `place` are lent
                // to this call alone, and the function writes nothing but within these two.
                unsafe {
                    $declared(
                        table.as_ptr(),
                        table.len(),
                        report.as_mut_ptr(),
                        report.len(),
                        start,
                        place,
                    )
                }
            }
        )*
    };
}

report_calls! {
    conflict, hainscope_conflict:
        "The preferred conflict by the halving method.";
    conflict_one_by_one, hainscope_conflict_one_by_one:
        "The preferred conflict by the one-by-one method.";
    relaxation, hainscope_relaxation:
        "The preferred relaxation by the halving method.";
    relaxation_one_by_one, hainscope_relaxation_one_by_one:
        "The preferred relaxation by the one-by-one method.";
}
