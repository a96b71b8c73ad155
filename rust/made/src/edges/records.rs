//! Both sides of the limits of records: kinds, sequence, lengths, their number, the table's length
//! (refusals 1, 2, 3, 4, 5, 7 and 10).

use super::{passes, refused, Edge};
use crate::draft::{Draft, Record, CLAUSE, LINEAR};
use crate::full;
use crate::plan::Plan;
use crate::random::Random;

/// Kinds that are unknown in a table.
const UNKNOWN: [u16; 6] = [0, 6, 7, 16, 17, 65_535];

/// All edges of records.
pub fn all() -> Vec<Edge> {
    [
        table_lengths(),
        left_over(),
        numbers_of_rows(),
        lengths(),
        off_lengths(),
        kinds(),
        sequences(),
    ]
    .concat()
}

/// A right draft: HEAD, a clause, a linear row, ORDER, CHECK.
fn right() -> Draft {
    let plan = Plan::empty(3, 2).clause(1, &[0]);
    plan.linear(2, 5, &[(2, 7)]).draft()
}

/// The right draft after a change of its records.
fn changed(change: impl Fn(&mut Vec<Record>)) -> Draft {
    let mut draft = right();
    change(&mut draft.records);
    draft
}

fn table_lengths() -> Vec<Edge> {
    let bytes = |bytes| full::of_bytes(&mut Random::new(1), bytes).draft();
    let mut odd = refused("32,769 bytes", &bytes(32_768), 1, 0);
    odd.table.push(0);
    let mut wrong = refused("32,769 bytes of zero", &right(), 1, 0);
    wrong.table = vec![0; 32_769];
    vec![
        passes("32,768 bytes", &bytes(32_768)),
        odd,
        wrong,
        passes("32,766 bytes", &bytes(32_766)),
        refused("32,770 bytes, valid otherwise", &bytes(32_770), 1, 0),
    ]
}

fn left_over() -> Vec<Edge> {
    let mut list = Vec::new();
    for bytes in 0..=3 {
        let number = if bytes == 0 { 3 } else { 2 };
        let mut edge = refused(&format!("a table of {bytes} bytes"), &right(), number, 0);
        edge.table.truncate(bytes);
        list.push(edge);
    }
    let length = right().bytes().len();
    for bytes in 1..=3 {
        let mut edge = refused(&format!("{bytes} bytes after CHECK"), &right(), 2, 5);
        edge.table.resize(length + bytes, 0);
        list.push(edge);
        let mut edge = refused(&format!("{bytes} bytes cut from CHECK"), &right(), 2, 4);
        edge.table.truncate(length - bytes);
        list.push(edge);
    }
    for kind in [CLAUSE, 6] {
        let past = changed(|records| records[1].kind = kind);
        let mut edge = refused(&format!("body of kind {kind} past the end"), &past, 2, 1);
        edge.table.truncate(15);
        list.push(edge);
    }
    list
}

fn numbers_of_rows() -> Vec<Edge> {
    let rows = |rows| full::of_rows(&mut Random::new(2), rows).draft();
    let mut wrong_length = rows(513);
    wrong_length.records[513].resize(1);
    let mut out_of_range = rows(513);
    out_of_range.records[513].set_word(0, 65);
    vec![
        passes("no rows", &rows(0)),
        passes("512 rows", &rows(512)),
        refused("513 rows", &rows(513), 10, 513),
        refused("a 513th row of wrong length", &wrong_length, 10, 513),
        refused("a 513th row out of range", &out_of_range, 10, 513),
    ]
}

fn lengths() -> Vec<Edge> {
    let clause = |literals| Plan::empty(1, 1).clause(1, &vec![1; literals]).draft();
    let linear = |terms| Plan::empty(1, 1).linear(0, 0, &vec![(0, 1); terms]).draft();
    let mut list = vec![
        passes("a clause of no literal", &clause(0)),
        passes("64 literals", &clause(64)),
        refused("65 literals", &clause(65), 5, 1),
        passes("a linear row of no term", &linear(0)),
        passes("20 terms", &linear(20)),
        refused("21 terms", &linear(21), 5, 1),
    ];
    for kind in [CLAUSE, LINEAR] {
        let empty = changed(|records| records[1] = Record::new(kind, Vec::new()));
        list.push(refused(
            &format!("kind {kind} without a body"),
            &empty,
            5,
            1,
        ));
    }
    list
}

/// L off by one and two for each kind, the body in step.
fn off_lengths() -> Vec<Edge> {
    let mut list = Vec::new();
    for record in 0..5 {
        for off in [-2, -1, 1, 2] {
            let resize = |records: &mut Vec<Record>| {
                let length = records[record].body.len() as i32 + off;
                records[record].resize(length as usize);
            };
            let name = format!("record {record} with L off by {off}");
            let draft = changed(resize);
            let even_clause = record == 1 && off % 2 == 0;
            list.push(match even_clause {
                true => passes(&name, &draft),
                false => refused(&name, &draft, 5, record),
            });
        }
    }
    list
}

fn kinds() -> Vec<Edge> {
    let mut list = Vec::new();
    for kind in UNKNOWN {
        for record in 0..5 {
            let unknown = changed(|records| records[record].kind = kind);
            let name = format!("kind {kind} at record {record}");
            list.push(refused(&name, &unknown, 4, record));
        }
        let after = changed(|records| records.push(Record::new(kind, Vec::new())));
        list.push(refused(&format!("kind {kind} after CHECK"), &after, 4, 5));
    }
    list
}

fn sequences() -> Vec<Edge> {
    let head = || Record::head(3, 2);
    let wrong_head = || Record::new(1, vec![9; 3]);
    let clause = || Record::clause(1, &[0]);
    let order = || Record::order(&[2, 1]);
    let edge = |name: &str, change: &dyn Fn(&mut Vec<Record>), number, record| {
        refused(name, &changed(change), number, record)
    };
    vec![
        edge("no HEAD", &|all| drop(all.remove(0)), 3, 0),
        edge("HEAD second", &|all| all.swap(0, 1), 3, 0),
        edge("two HEADs", &|all| all.insert(1, head()), 3, 1),
        edge("HEAD after ORDER", &|all| all.insert(4, head()), 3, 4),
        edge("HEAD after CHECK", &|all| all.push(head()), 3, 5),
        edge(
            "a later HEAD of wrong length",
            &|all| all.insert(2, wrong_head()),
            3,
            2,
        ),
        edge("a row after ORDER", &|all| all.swap(2, 3), 7, 3),
        edge("two ORDERs", &|all| all.insert(4, order()), 7, 4),
        edge("no ORDER", &|all| drop(all.remove(3)), 7, 3),
        edge("CHECK before ORDER", &|all| all.swap(3, 4), 7, 3),
        edge("two CHECKs", &|all| all.push(Record::check()), 7, 5),
        edge("a row after CHECK", &|all| all.push(clause()), 7, 5),
        edge("ORDER after CHECK", &|all| all.push(order()), 7, 5),
        edge("no CHECK", &|all| drop(all.pop()), 7, 4),
        edge("HEAD alone", &|all| all.truncate(1), 7, 1),
    ]
}
