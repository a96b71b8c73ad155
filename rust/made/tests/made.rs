//! What is made is what its name says: exact lengths, equal seeds, mended words.

use made::draft::mended;
use made::events::{any, SMALL};
use made::full;
use made::plan::{Plan, Row};
use made::planted::planted;
use made::random::Random;
use made::stream::made;
use made::twins::twin;
use std::collections::BTreeSet;

#[test]
fn a_seed_makes_one_table() {
    for seed in 0..500 {
        assert_eq!(made(seed).table, made(seed).table);
    }
}

#[test]
fn many_seeds_make_many_tables() {
    let tables: BTreeSet<Vec<u8>> = (0..5_000).map(|seed| made(seed).table).collect();
    assert!(tables.len() > 4_500, "{}", tables.len());
}

#[test]
fn all_ways_are_taken() {
    let ways: BTreeSet<&str> = (0..2_000).map(|seed| made(seed).way).collect();
    assert_eq!(ways.len(), 12, "{ways:?}");
}

#[test]
fn full_tables_have_the_length_asked_for() {
    for (seed, bytes) in (0..).zip([32_768, 32_766, 32_770, 5_000, 1_002]) {
        let plan = full::of_bytes(&mut Random::new(seed), bytes);
        assert_eq!(plan.table().len(), bytes);
        assert!(plan.rows.len() <= 512);
    }
    assert_eq!(full::of_rows(&mut Random::new(1), 512).rows.len(), 512);
}

/// The clauses of a plan, each once: role and literals, each of these once.
fn clauses(plan: &Plan) -> BTreeSet<(u16, BTreeSet<u16>)> {
    let clause = |row: &Row| match row {
        Row::Clause(role, literals) => Some((*role, literals.iter().copied().collect())),
        Row::Linear(..) => None,
    };
    plan.rows.iter().filter_map(clause).collect()
}

#[test]
fn filled_plans_have_the_rows_and_bytes_asked_for_and_say_the_same() {
    for (seed, rows, bytes) in [(1, 512, 32_768), (2, 513, 32_770), (3, 200, 10_000)] {
        let mut random = Random::new(seed);
        let (plan, _) = planted(&mut random, 20, 64, 40);
        let filled = full::filled(&mut random, &plan, rows, bytes);
        assert_eq!((filled.rows.len(), filled.table().len()), (rows, bytes));
        assert_eq!(clauses(&filled), clauses(&plan));
    }
}

#[test]
fn mended_words_add_to_zero() {
    let mut random = Random::new(5);
    for length in (2..40).step_by(2) {
        let bytes = mended(random.bytes(length));
        let words = bytes.chunks_exact(2);
        let sum = words.fold(0u16, |sum, two| {
            sum.wrapping_add(u16::from_le_bytes([two[0], two[1]]))
        });
        assert_eq!(sum, 0);
    }
}

#[test]
fn twins_differ() {
    let mut different = 0;
    for seed in 0..1_000 {
        let mut random = Random::new(seed);
        let plan = any(&mut random, SMALL);
        different += usize::from(twin(&mut random, &plan) != plan);
    }
    assert!(different > 700, "{different}");
}
