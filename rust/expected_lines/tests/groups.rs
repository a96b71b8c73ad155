//! The groups hold what they are for: all limits, every refusal of a table, every status, and no
//! name twice.

use expected_lines::{groups, Group, Named};
use second::program::output;
use second::reading::read;
use std::collections::{BTreeMap, BTreeSet};

/// The group of a name.
fn group(name: &str) -> Group {
    let group = groups().into_iter().find(|group| group.name == name);
    group.expect("a group of this name")
}

/// The first two words of what the program must print: "conflict" and a status, or "refused" and a
/// number.
fn outcome(made: &Named) -> String {
    let lines = output(&made.table);
    lines.split(' ').take(2).collect::<Vec<&str>>().join(" ")
}

/// Fails where an outcome is that of fewer tables of a group than this.
fn at_least(times: usize, name: &str, expected: impl IntoIterator<Item = String>) {
    let mut seen: BTreeMap<String, usize> = BTreeMap::new();
    for made in group(name).tables {
        *seen.entry(outcome(&made)).or_default() += 1;
    }
    for outcome in expected {
        let enough = seen.get(&outcome).is_some_and(|seen| *seen >= times);
        assert!(enough, "{name} have too few of {outcome}: {seen:?}");
    }
}

#[test]
fn no_name_stands_twice() {
    for group in groups() {
        let names: BTreeSet<&String> = group.tables.iter().map(|made| &made.name).collect();
        assert_eq!(names.len(), group.tables.len(), "{}", group.name);
    }
}

#[test]
fn every_status_and_every_refusal_is_there() {
    let statuses = || (0..=2).map(|status| format!("conflict {status}"));
    let refusals = (1..=10).map(|number| format!("refused {number}"));
    at_least(20, "made events", statuses());
    at_least(5, "large events", statuses());
    at_least(3, "valid and damaged tables", statuses().chain(refusals));
}

#[test]
fn all_limits_are_reached_at_once() {
    let mut reached = 0;
    for Named { name, table } in group("all limits at once").tables {
        if let Ok(frame) = read(&table) {
            let sizes = (frame.variables, frame.requests, frame.rows, table.len());
            assert_eq!(sizes, (20, 64, 512, 32_768), "{name}");
            reached += 1;
        }
    }
    assert_eq!(reached, 2);
}

#[test]
fn all_limits_are_passed_one_at_a_time() {
    let mut refusals = BTreeMap::new();
    for Named { name, table } in group("all limits at once").tables {
        if let Err(refusal) = read(&table) {
            refusals.insert(name, refusal);
        }
    }
    let numbers = [
        ("21 variables", 6),
        ("65 requests", 6),
        ("513 rows", 10),
        ("32,769 bytes", 1),
        ("32,770 bytes", 1),
        ("98,304 bytes", 1),
        ("a wrong CHECK word", 9),
        ("no CHECK", 7),
    ];
    assert_eq!(refusals.len(), numbers.len());
    for (name, number) in numbers {
        assert_eq!(refusals[name].number, number, "{name}");
    }
    assert_eq!(refusals["a wrong CHECK word"].place, 32_762);
    assert_eq!(refusals["no CHECK"].place, 32_768);
}
