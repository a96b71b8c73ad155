//! The crate's table builder: it writes the bytes of the made plans and of the document's row H,
//! and the library accepts them. What does not fit in its bytes is refused, and never taken for
//! something else.

use hainscope::{refuses, wants, Table, TableBuilder};
use made::events::{any, LARGE, SMALL};
use made::plan::{Plan, Row};
use made::random::Random;
use made::sheet::h;

/// A plan written by the builder.
fn built(plan: &Plan) -> Vec<u8> {
    let mut builder = TableBuilder::new(plan.variables, plan.requests).order(&plan.order);
    for row in &plan.rows {
        builder = match row {
            Row::Clause(role, literals) => builder.clause(*role, literals),
            Row::Linear(role, bound, terms) => builder.linear(*role, *bound, terms),
        };
    }
    builder.table()
}

#[test]
fn the_builder_writes_the_table_of_h() {
    let mut builder =
        TableBuilder::new(4, 4).linear(0, 4000, &[(0, 1200), (1, 900), (2, 2500), (3, 700)]);
    for request in 1..=4 {
        builder = builder.clause(request, &[wants(request - 1)]);
    }
    assert_eq!(builder.order(&[2, 4, 1, 3]).table(), h());
}

#[test]
fn built_tables_are_accepted() {
    for seed in 0..2_000 {
        let mut random = Random::new(seed);
        let sizes = random.pick(&[SMALL, SMALL, LARGE]);
        let plan = any(&mut random, sizes);
        let table = built(&plan);
        assert_eq!(table, plan.table(), "seed {seed}");
        assert!(Table::read(&table).is_ok(), "seed {seed}");
    }
}

/// Number and place of a refused table, by the library and by the second program alike.
fn refusal(table: &[u8]) -> (u32, usize) {
    let library = Table::read(table).expect_err("a table that is refused");
    let second = second::reading::read(table).expect_err("the same table");
    assert_eq!(
        (library.number, library.place),
        (second.number, second.place)
    );
    (library.number, library.place)
}

/// The variables on both sides of the last one whose literals fit in a word, with what each wants
/// and refuses.
const LAST_LITERALS: [(u16, u16, u16); 3] = [
    (32_767, 65_534, 65_535),
    (32_768, 65_535, 65_535),
    (65_535, 65_535, 65_535),
];

#[test]
fn a_variable_without_a_literal_becomes_no_other_variable() {
    for (variable, wanted, refused) in LAST_LITERALS {
        assert_eq!(wants(variable), wanted, "wants {variable}");
        assert_eq!(refuses(variable), refused, "refuses {variable}");
    }
}

#[test]
fn a_literal_of_a_variable_that_no_table_has_is_refused_at_its_row() {
    for (variable, _, _) in LAST_LITERALS {
        for literal in [wants(variable), refuses(variable)] {
            let builder = TableBuilder::new(20, 2).clause(1, &[wants(0), refuses(19)]);
            assert!(Table::read(&builder.table()).is_ok());
            let table = builder.clause(2, &[refuses(19), literal]).table();
            assert_eq!(refusal(&table), (6, 18), "literal {literal}");
        }
    }
}

#[test]
fn a_record_too_long_for_its_length_word_makes_a_table_too_long() {
    let empty = || TableBuilder::new(1, 0);
    // The bodies have 65,534 and 65,536 bytes, and lengths whose last 16 bits are those of a short row.
    for literals in [32_766, 32_767, 32_768, 65_535, 65_536] {
        let table = empty().clause(0, &vec![0; literals]).table();
        assert_eq!(refusal(&table), (1, 0), "{literals} literals");
    }
    // 65,532 and 65,538 bytes, and 131,076: 4 more than 2 to the power of 17.
    for terms in [10_921, 10_922, 21_845] {
        let table = empty().linear(0, 0, &vec![(0, 1); terms]).table();
        assert_eq!(refusal(&table), (1, 0), "{terms} terms");
    }
    // 65,534, 65,536 and 131,072 bytes.
    for requests in [32_767, 32_768, 65_536] {
        let table = empty().order(&vec![1; requests]).table();
        assert_eq!(refusal(&table), (1, 0), "{requests} requests");
    }
    assert_eq!(refusal(&TableBuilder::new(0, u16::MAX).table()), (1, 0));
}
