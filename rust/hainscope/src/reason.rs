//! The reasons for a refusal: the list of refusal numbers (docs/FORMAT.md), with a name and words for each.

use std::fmt;

/// Why a call was refused: 1 to 10 are about the table, 11 to 13 about what was asked of it. Later
/// versions of the library may have more.
///
/// ```
/// use hainscope::{Reason, Table};
///
/// let refusal = Table::read(&[]).unwrap_err();
/// match refusal.reason() {
///     Reason::HeadMissingOrRepeated => assert_eq!(refusal.number, 3),
///     other => panic!("{other}"),
/// }
/// ```
#[derive(Clone, Copy, Debug, PartialEq, Eq, Hash)]
#[non_exhaustive]
pub enum Reason {
    /// 1: the table has more than 32,768 bytes.
    TableTooLong,
    /// 2: a record's length and kind, or its body, do not end within the table.
    RecordCutShort,
    /// 3: HEAD is not the first record, or not the only HEAD, or the table is empty.
    HeadMissingOrRepeated,
    /// 4: a record has a kind that no table has.
    UnknownKind,
    /// 5: a record's body has a length that its kind does not allow.
    WrongLength,
    /// 6: V, N, a role, a variable, a weight or an order number is out of range.
    NumberOutOfRange,
    /// 7: the records are not HEAD, rows, ORDER, CHECK in this sequence.
    WrongSequence,
    /// 8: ORDER names a request twice.
    RequestTwiceInOrder,
    /// 9: the table's words do not add to zero.
    WordsDoNotAddToZero,
    /// 10: the table has more than 512 rows.
    TooManyRows,
    /// 11: a selection names a request that the table does not have.
    SelectedRequestNotInTable,
    /// 12: a buffer has too little room.
    NoRoom,
    /// 13: the table has no record of the number that was asked for.
    NoSuchRecord,
    /// Any other number, which this version of the crate does not know.
    Unlisted,
}

impl Reason {
    /// The reason that a number stands for.
    pub(crate) fn of(number: u32) -> Reason {
        match number {
            1 => Reason::TableTooLong,
            2 => Reason::RecordCutShort,
            3 => Reason::HeadMissingOrRepeated,
            4 => Reason::UnknownKind,
            5 => Reason::WrongLength,
            6 => Reason::NumberOutOfRange,
            7 => Reason::WrongSequence,
            8 => Reason::RequestTwiceInOrder,
            9 => Reason::WordsDoNotAddToZero,
            10 => Reason::TooManyRows,
            11 => Reason::SelectedRequestNotInTable,
            12 => Reason::NoRoom,
            13 => Reason::NoSuchRecord,
            _ => Reason::Unlisted,
        }
    }

    /// What is refused for this reason: the table, or a call on a table that may be right.
    pub(crate) fn refused(self) -> &'static str {
        match self {
            Reason::TableTooLong
            | Reason::RecordCutShort
            | Reason::HeadMissingOrRepeated
            | Reason::UnknownKind
            | Reason::WrongLength
            | Reason::NumberOutOfRange
            | Reason::WrongSequence
            | Reason::RequestTwiceInOrder
            | Reason::WordsDoNotAddToZero
            | Reason::TooManyRows => "table",
            Reason::SelectedRequestNotInTable
            | Reason::NoRoom
            | Reason::NoSuchRecord
            | Reason::Unlisted => "call",
        }
    }

    /// The reason in words.
    fn words(self) -> &'static str {
        match self {
            Reason::TableTooLong => "the table has more than 32,768 bytes",
            Reason::RecordCutShort => {
                "only 1 to 3 bytes are left for the record, or its body passes the end of the table"
            }
            Reason::HeadMissingOrRepeated => {
                "the table is empty, its first record is no HEAD, or a later record is a HEAD"
            }
            Reason::UnknownKind => "the record is of an unknown kind: a table has the kinds 1 to 5",
            Reason::WrongLength => "the length of the record's body is wrong for its kind",
            Reason::NumberOutOfRange => {
                "a number in the record is out of range: how many variables or requests there are, \
                 a role, a variable, a weight, or a request of the order"
            }
            Reason::WrongSequence => {
                "the record is out of sequence, or the table ends before CHECK: \
                 the sequence is HEAD, rows, one ORDER, one CHECK"
            }
            Reason::RequestTwiceInOrder => "ORDER names a request twice",
            Reason::WordsDoNotAddToZero => {
                "the words from the start of the table to the end of CHECK do not add to zero"
            }
            Reason::TooManyRows => "the record is row 513: a table has at most 512 rows",
            Reason::SelectedRequestNotInTable => {
                "the selection names a request above the table's number of requests"
            }
            Reason::NoRoom => {
                "the start is past the end of the buffer, or fewer than 12 + 2N bytes are left \
                 from it, N being the table's number of requests"
            }
            Reason::NoSuchRecord => "the table has no record of that number",
            Reason::Unlisted => "a reason that this version of the crate does not know",
        }
    }
}

impl fmt::Display for Reason {
    fn fmt(&self, out: &mut fmt::Formatter) -> fmt::Result {
        out.pad(self.words())
    }
}
