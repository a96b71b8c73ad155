//! A table as a list of records that may be wrong in any way, and the CHECK word's mending.
//! A draft made by `plan` is right; `damage` and `edges` change it from there.

/// Kinds of records, as document 01 numbers them.
pub const HEAD: u16 = 1;
/// A clause row.
pub const CLAUSE: u16 = 2;
/// A linear row.
pub const LINEAR: u16 = 3;
/// The order.
pub const ORDER: u16 = 4;
/// The last record.
pub const CHECK: u16 = 5;

/// One record, whose length word need not be its body's length.
#[derive(Clone, Debug, PartialEq, Eq)]
pub struct Record {
    /// L, as it will be written.
    pub length: u16,
    /// The kind, known or not.
    pub kind: u16,
    /// The body as it will be written.
    pub body: Vec<u8>,
}

/// A table to be.
#[derive(Clone, Debug, PartialEq, Eq)]
pub struct Draft {
    /// The records in sequence.
    pub records: Vec<Record>,
}

impl Record {
    /// A record whose L is its body's length.
    pub fn new(kind: u16, body: Vec<u8>) -> Record {
        let length = body.len() as u16;
        Record { length, kind, body }
    }

    /// A record whose body is words.
    pub fn of_words(kind: u16, words: &[u16]) -> Record {
        let body = words.iter().flat_map(|word| word.to_le_bytes()).collect();
        Record::new(kind, body)
    }

    /// HEAD of V variables and N requests.
    pub fn head(variables: u16, requests: u16) -> Record {
        Record::of_words(HEAD, &[variables, requests])
    }

    /// A clause.
    pub fn clause(role: u16, literals: &[u16]) -> Record {
        Record::of_words(CLAUSE, &[&[role], literals].concat())
    }

    /// A linear row.
    pub fn linear(role: u16, bound: i32, terms: &[(u16, i32)]) -> Record {
        let mut body = role.to_le_bytes().to_vec();
        body.extend(bound.to_le_bytes());
        for (variable, weight) in terms {
            body.extend(variable.to_le_bytes());
            body.extend(weight.to_le_bytes());
        }
        Record::new(LINEAR, body)
    }

    /// The order.
    pub fn order(requests: &[u16]) -> Record {
        Record::of_words(ORDER, requests)
    }

    /// CHECK with a word that is still to be mended.
    pub fn check() -> Record {
        Record::of_words(CHECK, &[0])
    }

    /// Sets the word at a place of the body.
    pub fn set_word(&mut self, place: usize, word: u16) {
        self.body[place..place + 2].copy_from_slice(&word.to_le_bytes());
    }

    /// Sets the i32 at a place of the body.
    pub fn set_signed(&mut self, place: usize, number: i32) {
        self.body[place..place + 4].copy_from_slice(&number.to_le_bytes());
    }

    /// Gives the body another length, and L with it.
    pub fn resize(&mut self, length: usize) {
        self.body.resize(length, 0);
        self.length = length as u16;
    }
}

impl Draft {
    /// The bytes as they are.
    pub fn bytes(&self) -> Vec<u8> {
        let mut bytes = Vec::new();
        for record in &self.records {
            bytes.extend(record.length.to_le_bytes());
            bytes.extend(record.kind.to_le_bytes());
            bytes.extend(&record.body);
        }
        bytes
    }

    /// Where a record's first byte stands; the table's length for the number after the last.
    pub fn place_of(&self, record: usize) -> usize {
        let before = &self.records[..record];
        before.iter().map(|record| 4 + record.body.len()).sum()
    }

    /// The bytes with the word of the first CHECK mended, so that the words up to it add to zero.
    /// A draft without a CHECK of one word stays as it is.
    pub fn mended(&self) -> Vec<u8> {
        let is_check = |record: &Record| record.kind == CHECK && record.body.len() == 2;
        let mut bytes = self.bytes();
        if let Some(check) = self.records.iter().position(is_check) {
            mend(&mut bytes[..self.place_of(check + 1)]);
        }
        bytes
    }
}

/// Sets the last word so that all words add to zero; odd lengths stay as they are.
pub fn mend(bytes: &mut [u8]) {
    if bytes.len() >= 2 && bytes.len() % 2 == 0 {
        let word = bytes.len() - 2;
        let sum = bytes[..word].chunks_exact(2).fold(0u16, |sum, two| {
            sum.wrapping_add(u16::from_le_bytes([two[0], two[1]]))
        });
        bytes[word..].copy_from_slice(&sum.wrapping_neg().to_le_bytes());
    }
}

/// Bytes with their last word mended.
pub fn mended(mut bytes: Vec<u8>) -> Vec<u8> {
    mend(&mut bytes);
    bytes
}
