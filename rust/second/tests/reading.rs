//! Reading: both sides of every limit, every cut and every changed byte of a table,
//! and the bodies of records.

use made::edges::edges;
use made::plan::Plan;
use made::stream::made;
use second::body::{body, Stretch};
use second::reading::read;
use second::refusal::Refusal;

/// Number and place of reading; an accepted table gives 0 and 0.
fn number_and_place(table: &[u8]) -> (u32, usize) {
    match read(table) {
        Ok(_) => (0, 0),
        Err(refusal) => (refusal.number, refusal.place),
    }
}

#[test]
fn both_sides_of_every_limit() {
    for edge in edges() {
        let found = number_and_place(&edge.table);
        assert_eq!(found, (edge.number, edge.place), "{}", edge.name);
    }
}

#[test]
fn every_number_is_on_the_edges() {
    for number in 0..=10 {
        let some = edges().iter().any(|edge| edge.number == number);
        assert!(some, "no edge gives {number}");
    }
}

#[test]
fn every_cut_of_a_table_is_refused_within_it() {
    let plan = Plan::empty(2, 2).clause(1, &[0]).linear(2, 5, &[(1, 7)]);
    let table = plan.table();
    for length in 0..table.len() {
        let refusal = read(&table[..length]).expect_err("a cut table");
        assert!(matches!(refusal.number, 2 | 3 | 7), "{refusal:?}");
        assert!(refusal.place <= length);
    }
}

#[test]
fn made_tables_give_every_number() {
    let mut seen = [0; 11];
    for seed in 0..20_000 {
        let (number, place) = number_and_place(&made(seed).table);
        seen[number as usize] += 1;
        assert!(place <= made(seed).table.len());
    }
    assert!(seen.iter().all(|times| *times >= 100), "{seen:?}");
}

#[test]
fn bodies_are_stretches_between_the_headings() {
    let table = Plan::empty(2, 0).clause(0, &[0, 1]).table();
    let stretch = |place, length| Ok(Stretch { place, length });
    assert_eq!(body(&table, 0), stretch(4, 4));
    assert_eq!(body(&table, 1), stretch(12, 6));
    assert_eq!(body(&table, 2), stretch(22, 0));
    assert_eq!(body(&table, 3), stretch(26, 2));
    assert_eq!(body(&table, 4), Err(Refusal::new(13, 28)));
    assert_eq!(body(&table, usize::MAX), Err(Refusal::new(13, 28)));
    assert_eq!(body(&table[..27], 0), Err(Refusal::new(2, 22)));
}
