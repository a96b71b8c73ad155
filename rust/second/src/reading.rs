//! Reading a table: accepted with its frame, or refused with number and place
//! (document 01, "Table bytes" and "Refusal numbers").

use crate::limits::{
    MOST_BYTES, MOST_LITERALS, MOST_REQUESTS, MOST_ROWS, MOST_TERMS, MOST_VARIABLES, MOST_WEIGHT,
};
use crate::records::{signed, word, words, Record, CHECK, CLAUSE, HEAD, LINEAR, ORDER};
use crate::refusal::Refusal;

/// What an accepted table's records say of its sizes.
#[derive(Clone, Copy, Debug, PartialEq, Eq)]
pub struct Frame {
    /// V, the number of variables.
    pub variables: u16,
    /// N, the number of requests.
    pub requests: u16,
    /// The number of rows.
    pub rows: usize,
    /// Where the ORDER record stands.
    pub order: usize,
}

/// What may come next: "HEAD comes first, then rows, one ORDER, one CHECK, and the end".
#[derive(Clone, Copy, Debug, PartialEq, Eq)]
enum Next {
    Head,
    RowOrOrder,
    Check,
    End,
}

/// What the records so far have told.
struct Progress<'a> {
    table: &'a [u8],
    frame: Frame,
    next: Next,
}

/// A test that refuses a record, with the number it gives.
type Test = (u32, fn(&Progress, &Record) -> bool);

/// "on each record in turn 2, 4, 3, 7, 10, 5, 6, 8, 9, stopping at the first"; 2 is tested
/// where the record is found.
const TESTS: [Test; 8] = [
    (4, unknown_kind),
    (3, head_out_of_place),
    (7, wrong_sequence),
    (10, one_row_too_many),
    (5, wrong_length),
    (6, out_of_range),
    (8, request_named_twice),
    (9, words_do_not_add_to_zero),
];

/// Reads a table: "1 once, then on each record in turn", then how it ends.
pub fn read(table: &[u8]) -> Result<Frame, Refusal> {
    if table.len() > MOST_BYTES {
        return Err(Refusal::new(1, 0));
    }
    let mut progress = Progress::start(table);
    let mut place = 0;
    while place < table.len() {
        let record = Record::at(table, place).ok_or(Refusal::new(2, place))?;
        progress.test(&record)?;
        progress.take(&record);
        place = record.end();
    }
    progress.end()
}

impl<'a> Progress<'a> {
    /// Before the first record.
    fn start(table: &'a [u8]) -> Progress<'a> {
        let frame = Frame {
            variables: 0,
            requests: 0,
            rows: 0,
            order: 0,
        };
        Progress {
            table,
            frame,
            next: Next::Head,
        }
    }

    /// The first test that refuses the record.
    fn test(&self, record: &Record) -> Result<(), Refusal> {
        match TESTS.iter().find(|(_, refuses)| refuses(self, record)) {
            Some((number, _)) => Err(Refusal::new(*number, record.place)),
            None => Ok(()),
        }
    }

    /// Takes in a record that no test refused.
    fn take(&mut self, record: &Record) {
        match record.kind {
            HEAD => {
                self.frame.variables = word(record.body, 0);
                self.frame.requests = word(record.body, 2);
                self.next = Next::RowOrOrder;
            }
            ORDER => {
                self.frame.order = record.place;
                self.next = Next::Check;
            }
            CHECK => self.next = Next::End,
            _ => self.frame.rows += 1,
        }
    }

    /// The end of the table: 3 at 0 for an empty one, 7 at the table's length before CHECK.
    fn end(self) -> Result<Frame, Refusal> {
        match self.next {
            Next::End => Ok(self.frame),
            Next::Head => Err(Refusal::new(3, 0)),
            _ => Err(Refusal::new(7, self.table.len())),
        }
    }
}

/// 4: "Kinds 0 and 6 to 65,535 are unknown in a table."
fn unknown_kind(_: &Progress, record: &Record) -> bool {
    !(HEAD..=CHECK).contains(&record.kind)
}

/// 3: "the first record is no HEAD, a later one is".
fn head_out_of_place(progress: &Progress, record: &Record) -> bool {
    (record.kind == HEAD) != (progress.next == Next::Head)
}

/// 7: "wrong sequence". HEAD's own place is settled by 3.
fn wrong_sequence(progress: &Progress, record: &Record) -> bool {
    match progress.next {
        Next::Head => false,
        Next::RowOrOrder => !(record.is_row() || record.kind == ORDER),
        Next::Check => record.kind != CHECK,
        Next::End => true,
    }
}

/// 10: "a 513th row".
fn one_row_too_many(progress: &Progress, record: &Record) -> bool {
    record.is_row() && progress.frame.rows == MOST_ROWS
}

/// 5: "L wrong for its kind".
fn wrong_length(progress: &Progress, record: &Record) -> bool {
    let length = record.body.len();
    match record.kind {
        HEAD => length != 4,
        CLAUSE => length % 2 != 0 || !(2..=2 + 2 * MOST_LITERALS).contains(&length),
        LINEAR => length % 6 != 0 || !(6..=6 + 6 * MOST_TERMS).contains(&length),
        ORDER => length != 2 * usize::from(progress.frame.requests),
        _ => length != 2,
    }
}

/// 6: "V, N, role, variable, weight or order number out of range".
fn out_of_range(progress: &Progress, record: &Record) -> bool {
    let Frame {
        variables,
        requests,
        ..
    } = progress.frame;
    let body = record.body;
    match record.kind {
        HEAD => word(body, 0) > MOST_VARIABLES || word(body, 2) > MOST_REQUESTS,
        CLAUSE => {
            word(body, 0) > requests || words(&body[2..]).any(|literal| literal / 2 >= variables)
        }
        LINEAR => {
            let wrong_term = |term: &[u8]| {
                let weight = signed(term, 2);
                word(term, 0) >= variables || !(-MOST_WEIGHT..=MOST_WEIGHT).contains(&weight)
            };
            word(body, 0) > requests || body[6..].chunks_exact(6).any(wrong_term)
        }
        ORDER => words(body).any(|request| request == 0 || request > requests),
        _ => false,
    }
}

/// 8: "ORDER names a request twice".
fn request_named_twice(_: &Progress, record: &Record) -> bool {
    let named: Vec<u16> = words(record.body).collect();
    let twice = |(place, request)| named[..place].contains(request);
    record.kind == ORDER && named.iter().enumerate().any(twice)
}

/// 9: "The CHECK word makes the u16 words from the table's start to CHECK's end add to zero
/// with carries past 16 bits thrown away."
fn words_do_not_add_to_zero(progress: &Progress, record: &Record) -> bool {
    let upto_check = &progress.table[..record.end()];
    record.kind == CHECK && words(upto_check).fold(0, u16::wrapping_add) != 0
}
