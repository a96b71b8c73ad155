//! Refusals: the reason of every number, and what a reader sees of it.

use hainscope::{Method, Reason, Refusal, Selection, Sought, Table, TableBuilder};

/// The list: the reason of each number, and whether the table or the call is refused.
const LIST: [(u32, Reason, &str); 17] = [
    (1, Reason::TableTooLong, "table"),
    (2, Reason::RecordCutShort, "table"),
    (3, Reason::HeadMissingOrRepeated, "table"),
    (4, Reason::UnknownKind, "table"),
    (5, Reason::WrongLength, "table"),
    (6, Reason::NumberOutOfRange, "table"),
    (7, Reason::WrongSequence, "table"),
    (8, Reason::RequestTwiceInOrder, "table"),
    (9, Reason::WordsDoNotAddToZero, "table"),
    (10, Reason::TooManyRows, "table"),
    (11, Reason::SelectedRequestNotInTable, "call"),
    (12, Reason::NoRoom, "call"),
    (13, Reason::NoSuchRecord, "call"),
    (0, Reason::Unlisted, "call"),
    (14, Reason::Unlisted, "call"),
    (256, Reason::Unlisted, "call"),
    (u32::MAX, Reason::Unlisted, "call"),
];

#[test]
fn every_number_has_its_reason_and_its_words() {
    for (number, reason, refused) in LIST {
        let refusal = Refusal { number, place: 86 };
        assert_eq!(refusal.reason(), reason, "number {number}");
        let words = format!("{refused} refused (number {number}) at byte 86: {reason}");
        assert_eq!(refusal.to_string(), words);
        assert_eq!(format!("{refusal:?}"), words);
    }
}

#[test]
fn no_two_reasons_have_the_same_words() {
    for (number, reason, _) in LIST {
        for (other_number, other, _) in LIST {
            let alike = reason.to_string() == other.to_string();
            assert_eq!(alike, reason == other, "numbers {number}, {other_number}");
        }
    }
}

#[test]
fn a_main_that_returns_a_refused_table_prints_the_words() {
    let mut bytes = TableBuilder::new(0, 0).table();
    let last = bytes.len() - 1;
    bytes[last] ^= 1;
    let main = || -> Result<(), Refusal> { Table::read(&bytes).map(|_| ()) };
    assert_eq!(
        format!("Error: {:?}", main().expect_err("a changed CHECK word")),
        "Error: table refused (number 9) at byte 12: \
         the words from the start of the table to the end of CHECK do not add to zero"
    );
}

#[test]
fn calls_on_an_accepted_table_are_refused_as_calls() {
    let bytes = TableBuilder::new(0, 2).table();
    let table = Table::read(&bytes).expect("an accepted table");
    let selection = Selection::from_bits(0b100);
    let refused = [
        table.can_stand(selection).map(|_| ()),
        table
            .write_report(Sought::Conflict, Method::Halving, &mut [0; 15], 0)
            .map(|_| ()),
        table.body(3).map(|_| ()),
    ];
    let words = refused.map(|result| result.expect_err("a refused call").to_string());
    assert_eq!(
        words,
        [
            "call refused (number 11) at byte 0: \
             the selection names a request above the table's number of requests",
            "call refused (number 12) at byte 0: \
             the start is past the end of the buffer, or fewer than 12 + 2N bytes are left \
             from it, N being the table's number of requests",
            "call refused (number 13) at byte 22: \
             the table has no record of that number",
        ]
    );
}
