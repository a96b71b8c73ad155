//! Records: "u16 L, the body length; u16 kind; L bytes of body" (document 01, "Table bytes").
//! All numbers are little-endian.

/// Kind 1: the numbers of variables and requests.
pub const HEAD: u16 = 1;
/// Kind 2: a row of literals.
pub const CLAUSE: u16 = 2;
/// Kind 3: a row of weights and a bound.
pub const LINEAR: u16 = 3;
/// Kind 4: the requests, most important first.
pub const ORDER: u16 = 4;
/// Kind 5: the word that makes all words add to zero.
pub const CHECK: u16 = 5;
/// Kind 16, in a report only: a conflict.
pub const CONFLICT: u16 = 16;
/// Kind 17, in a report only: a relaxation.
pub const RELAXATION: u16 = 17;

/// The bytes of L and kind, before a body.
pub const HEADING: usize = 4;

/// One record of a table.
#[derive(Clone, Copy, Debug)]
pub struct Record<'a> {
    /// Where its first byte stands in the table.
    pub place: usize,
    /// Its kind, known or not.
    pub kind: u16,
    /// Its L bytes of body.
    pub body: &'a [u8],
}

impl<'a> Record<'a> {
    /// The record that starts at `place`, if its heading and its body are within the table.
    pub fn at(table: &'a [u8], place: usize) -> Option<Record<'a>> {
        let heading = table.get(place..place + HEADING)?;
        let length = usize::from(word(heading, 0));
        let body = table.get(place + HEADING..place + HEADING + length)?;
        Some(Record {
            place,
            kind: word(heading, 2),
            body,
        })
    }

    /// Where the body's first byte stands in the table.
    pub fn body_place(&self) -> usize {
        self.place + HEADING
    }

    /// The place just after the record.
    pub fn end(&self) -> usize {
        self.body_place() + self.body.len()
    }

    /// Whether it is a row: a clause or a linear row.
    pub fn is_row(&self) -> bool {
        self.kind == CLAUSE || self.kind == LINEAR
    }
}

/// The u16 at a place of some bytes.
pub fn word(bytes: &[u8], place: usize) -> u16 {
    u16::from_le_bytes([bytes[place], bytes[place + 1]])
}

/// The i32 at a place of some bytes.
pub fn signed(bytes: &[u8], place: usize) -> i32 {
    let four = &bytes[place..place + 4];
    i32::from_le_bytes([four[0], four[1], four[2], four[3]])
}

/// All u16 words of some bytes, a last odd byte left out.
pub fn words(bytes: &[u8]) -> impl Iterator<Item = u16> + '_ {
    bytes.chunks_exact(2).map(|two| word(two, 0))
}
