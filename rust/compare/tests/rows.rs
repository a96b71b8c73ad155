//! The crate's decoding of rows against the second program's, and the builder that writes them again.

use compare::{same, Asked, Tally};
use hainscope::{Condition, Row, Table, TableBuilder};
use made::full;
use made::random::Random;
use made::stream::made;
use second::rows::{Event, Row as OfSecond};

/// A row of the second program by the crate's names.
fn named(row: &OfSecond) -> Row {
    match row.clone() {
        OfSecond::Clause { role, literals } => Row {
            role,
            condition: Condition::Clause(literals),
        },
        OfSecond::Linear { role, bound, terms } => Row {
            role,
            condition: Condition::Linear { bound, terms },
        },
    }
}

/// Compares the rows of a table, if it is accepted, writes them again, and counts their sorts.
fn compare_rows(seed: u64, table: &[u8], tally: &mut Tally) {
    let (Ok(accepted), Ok(event)) = (Table::read(table), Event::of(table)) else {
        return tally.add("refused");
    };
    let call = "rows";
    let asked = Asked { call, seed, table };
    let rows: Vec<Row> = accepted.rows().collect();
    same(&asked, &rows, &event.rows.iter().map(named).collect());
    let empty = TableBuilder::new(accepted.variables(), accepted.requests());
    let with_row = |builder: TableBuilder, row: &Row| builder.row(row);
    let builder = rows.iter().fold(empty, with_row);
    let written = builder.order(&accepted.order()).table();
    same(&asked, written.as_slice(), table);
    for row in rows {
        tally.add(match row.condition {
            Condition::Clause(literals) if literals.is_empty() => "empty clause",
            Condition::Clause(_) => "clause",
            Condition::Linear { terms, .. } if terms.is_empty() => "empty linear row",
            Condition::Linear { bound, .. } if bound < 0 => "bound below 0",
            Condition::Linear { .. } => "linear row",
        });
    }
}

#[test]
fn rows_are_decoded_as_the_second_program_decodes_them() {
    let mut tally = Tally::new();
    for seed in 660_000..664_000 {
        compare_rows(seed, &made(seed).table, &mut tally);
    }
    let mut random = Random::new(664_000);
    for seed in 664_000..664_050 {
        compare_rows(
            seed,
            &full::of_bytes(&mut random, 32_768).table(),
            &mut tally,
        );
    }
    tally.print("rows");
    tally.at_least(1_500, "refused");
    for sort in ["clause", "linear row"] {
        tally.at_least(5_000, sort);
    }
    for sort in ["empty clause", "empty linear row", "bound below 0"] {
        tally.at_least(300, sort);
    }
}
