//! Words: the u16 numbers that tables and reports are made of, little-endian.

/// The word at a place of some bytes.
pub(crate) fn word(bytes: &[u8], place: usize) -> u16 {
    u16::from_le_bytes([bytes[place], bytes[place + 1]])
}

/// All words of some bytes, a last odd byte left out.
pub(crate) fn words(bytes: &[u8]) -> impl Iterator<Item = u16> + '_ {
    bytes.chunks_exact(2).map(|two| word(two, 0))
}
