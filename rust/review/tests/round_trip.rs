//! Tables and texts say the same: what is written of an event is read back as the same event, and a
//! table comes back byte for byte. What the library refuses is refused with its number and place.

use compare::Tally;
use hainscope::{calls, refuses, wants, Condition, TableBuilder};
use made::edges::edges;
use made::random::Random;
use made::{full, hostile, sheet, stream};
use review::event::{Event, EventRow};
use review::input::{self, NoEvent};
use review::text;
use std::collections::BTreeSet;

/// The event of an accepted table, which goes to a text and comes back.
fn there_and_back(name: &str, table: &[u8]) -> Event {
    let event = input::event(table).unwrap_or_else(|wrong| panic!("{name}: {wrong:?}"));
    assert!(event.table() == table, "{name}: the event's table");
    assert_same_from_its_text(name, &event);
    event
}

/// An event is the same after it was written and read, and so is what is written of it.
fn assert_same_from_its_text(name: &str, event: &Event) {
    let written = text::write(event);
    let again = input::event(written.as_bytes());
    let again = again.unwrap_or_else(|wrong| panic!("{name}: {wrong:?} in\n{written}"));
    assert!(again == *event, "{name}: another event from\n{written}");
    assert_eq!(again.table(), event.table(), "{name}");
    assert_eq!(text::write(&again), written, "{name}");
}

/// Holds reading a table to the library's number and place, and returns the event of an accepted one.
fn read_as_the_library_does(name: &str, table: &[u8], tally: &mut Tally) -> Option<Event> {
    let mut place = 0;
    let number = calls::read(table, &mut place);
    tally.add_number(number);
    if number == 0 {
        return Some(there_and_back(name, table));
    }
    match input::event(table) {
        Err(NoEvent::Refused(refusal, record)) => {
            assert_eq!((refusal.number, refusal.place), (number, place), "{name}");
            assert_eq!(record, refusal.record(table), "{name}");
        }
        other => panic!("{name}: {number} at {place}, but {other:?}"),
    }
    None
}

/// Counts what sorts of rows an event has.
fn count_rows(event: &Event, tally: &mut Tally) {
    let twice = |terms: &[(u16, i32)]| {
        let variables: BTreeSet<u16> = terms.iter().map(|(variable, _)| *variable).collect();
        variables.len() < terms.len()
    };
    let mut seen = BTreeSet::new();
    for EventRow { row, .. } in &event.rows {
        match &row.condition {
            Condition::Clause(literals) if literals.is_empty() => seen.extend(["empty clause"]),
            Condition::Clause(_) => seen.extend(["clause"]),
            Condition::Linear { terms, .. } if terms.is_empty() => {
                seen.extend(["empty linear row"]);
            }
            Condition::Linear { terms, bound } => {
                let negative = terms.iter().any(|(_, weight)| *weight < 0);
                seen.extend(negative.then_some("negative weight"));
                seen.extend((*bound < 0).then_some("negative bound"));
                seen.extend(twice(terms).then_some("variable with two terms"));
            }
        }
    }
    seen.extend(event.variables.is_empty().then_some("no variables"));
    seen.extend(event.plug_ins.is_empty().then_some("no plug-ins"));
    let declared = event.order.windows(2).all(|pair| pair[0] < pair[1]);
    seen.extend((!declared).then_some("another order than declared"));
    seen.into_iter().for_each(|sort| tally.add(sort));
}

#[test]
fn made_tables_come_back_byte_for_byte_or_are_refused_as_by_the_library() {
    let (mut tally, mut rows) = (Tally::new(), Tally::new());
    for seed in 0..10_000 {
        let name = format!("seed {seed}");
        let event = read_as_the_library_does(&name, &stream::made(seed).table, &mut tally);
        event.iter().for_each(|event| count_rows(event, &mut rows));
    }
    tally.print("round trip: made tables");
    rows.print("round trip: rows of made tables");
    assert_eq!(tally.all(), 10_000);
    tally.at_least(3_000, "accepted");
    tally.numbers_at_least(75, 1..=10);
    for (times, sort) in [
        (500, "empty clause"),
        (500, "empty linear row"),
        (1_000, "clause"),
        (1_000, "negative weight"),
        (1_000, "negative bound"),
        (1_000, "variable with two terms"),
        (50, "no variables"),
        (50, "no plug-ins"),
        (2_000, "another order than declared"),
    ] {
        rows.at_least(times, sort);
    }
}

#[test]
fn both_sides_of_every_limit_are_read_as_the_library_reads_them() {
    let mut tally = Tally::new();
    for edge in edges() {
        read_as_the_library_does(&edge.name, &edge.table, &mut tally);
    }
    tally.numbers_at_least(1, 0..=10);
}

#[test]
fn the_longest_and_the_hardest_tables_come_back() {
    let mut random = Random::new(1);
    for _ in 0..20 {
        let longest = full::of_bytes(&mut random, 32_768).table();
        assert_eq!(longest.len(), 32_768);
        there_and_back("longest", &longest);
        let rows = full::of_rows(&mut random, 512);
        assert_eq!(there_and_back("512 rows", &rows.table()).rows.len(), 512);
        let filled = full::filled(&mut random, &sheet::bib_map(4_000), 512, 32_768).table();
        assert_eq!(filled.len(), 32_768);
        assert_eq!(there_and_back("both", &filled).rows.len(), 512);
    }
    for (name, plan) in hostile::all() {
        there_and_back(&name, &plan.table());
    }
}

#[test]
fn the_sample_sheet_comes_back() {
    for row in sheet::sheet() {
        there_and_back(row.name, &row.plan.table());
    }
}

#[test]
fn a_text_with_every_statement_is_the_table_that_it_says() {
    let words = "then: c\n\
        b requests the impossible\n\
        variable x\n\
        plug-ins a, b\n\
        host allows at most -7 of time: x takes 3, \"y z\" takes -4, x takes 5\n\
        a requests \"y z\" off or x on or \"y z\" off\n\
        event E\n\
        host requires the impossible\n\
        c requests at most 2147483647: nothing\n\
        variables \"y z\"\n\
        plug-in c\n\
        host requires x off\n";
    let order = "most important first: b, a\n";
    let table = |order: &[u16]| {
        TableBuilder::new(2, 3)
            .clause(2, &[])
            .linear(0, -7, &[(0, 3), (1, -4), (0, 5)])
            .clause(1, &[refuses(1), wants(0), refuses(1)])
            .clause(0, &[])
            .linear(3, i32::MAX, &[])
            .clause(0, &[refuses(0)])
            .order(order)
            .table()
    };
    let stated = text::read(format!("{order}{words}").as_bytes()).unwrap();
    assert_eq!(stated.table(), table(&[2, 1, 3]));
    assert_eq!(stated.name.as_deref(), Some("E"));
    assert_eq!(stated.variables, ["x", "y z"]);
    assert_eq!(stated.plug_ins, ["a", "b", "c"]);
    assert_eq!(stated.rows[1].budget.as_deref(), Some("time"));
    let unstated = words.strip_prefix("then: c\n").unwrap();
    let unstated = text::read(unstated.as_bytes()).unwrap();
    assert_eq!(unstated.table(), table(&[1, 2, 3]));
}

#[test]
fn a_table_is_written_in_these_words() {
    let table = TableBuilder::new(2, 3)
        .linear(0, -7, &[(0, 3), (1, -4), (0, 5)])
        .linear(2, i32::MIN, &[])
        .clause(3, &[refuses(1), wants(0)])
        .clause(0, &[])
        .order(&[2, 3, 1])
        .table();
    let expected = "# 2 variables, 3 plug-ins, 4 rows\n\
        variables 0, 1\n\
        plug-ins 1, 2, 3\n\
        host allows at most -7: 0 takes 3, 1 takes -4, 0 takes 5\n\
        2 requests at most -2147483648: nothing\n\
        3 requests 1 off or 0 on\n\
        host requires the impossible\n\
        most important first: 2, 3, 1\n";
    assert_eq!(text::write(&there_and_back("table", &table)), expected);
    let least = there_and_back("no parts", &TableBuilder::new(0, 0).table());
    assert_eq!(text::write(&least), "# 0 variables, 0 plug-ins, 0 rows\n");
    let ones = TableBuilder::new(1, 1).clause(1, &[wants(0)]).table();
    let ones = text::write(&there_and_back("one of each", &ones));
    assert!(
        ones.starts_with("# 1 variable, 1 plug-in, 1 row\n"),
        "{ones}"
    );
}
