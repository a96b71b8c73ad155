//! Tables at all limits at once: 20 variables, 64 requests, 512 rows and 32,768 bytes. And tables
//! that are past one of these, or wrong at their very end.

use crate::Named;
use made::draft::Record;
use made::full::filled;
use made::plan::Plan;
use made::planted::planted;
use made::random::Random;
use made::twins::twin;

const VARIABLES: u16 = 20;
const REQUESTS: u16 = 64;
const ROWS: usize = 512;
const BYTES: usize = 32_768;

/// The bytes of a CHECK record.
const CHECK_BYTES: usize = 6;

/// All of them.
pub fn all() -> Vec<Named> {
    [within(), past_a_limit(), wrong_at_the_end()].concat()
}

/// A table with its name.
fn named(name: &str, table: Vec<u8>) -> Named {
    let name = name.to_string();
    Named { name, table }
}

/// A plan of so many rows and bytes whose only minimal conflict is of k requests.
fn conflict_of(k: usize, rows: usize, bytes: usize) -> Plan {
    let mut random = Random::new(k as u64);
    let (plan, _) = planted(&mut random, VARIABLES, REQUESTS, k);
    let plan = twin(&mut random, &plan);
    filled(&mut random, &plan, rows, bytes)
}

/// A plan at all limits.
fn whole() -> Plan {
    conflict_of(40, ROWS, BYTES)
}

/// All limits reached, and none passed.
fn within() -> Vec<Named> {
    let of_all = conflict_of(64, ROWS, BYTES);
    vec![
        named("a conflict of 40", whole().table()),
        named("a conflict of 64", of_all.table()),
    ]
}

/// One limit passed, all others reached. 98,304 bytes are 32,768 again in 16 bits.
fn past_a_limit() -> Vec<Named> {
    let headed = |variables, requests| {
        let mut draft = whole().draft();
        draft.records[0] = Record::head(variables, requests);
        draft.mended()
    };
    let longer = |bytes| [whole().table(), vec![0; bytes]].concat();
    vec![
        named("21 variables", headed(VARIABLES + 1, REQUESTS)),
        named("65 requests", headed(VARIABLES, REQUESTS + 1)),
        named("513 rows", conflict_of(40, ROWS + 1, BYTES).table()),
        named("32,769 bytes", longer(1)),
        named("32,770 bytes", conflict_of(40, ROWS, BYTES + 2).table()),
        named("98,304 bytes", longer(65_536)),
    ]
}

/// The greatest places: a wrong CHECK word, and the end where CHECK is missing.
fn wrong_at_the_end() -> Vec<Named> {
    let mut wrong_word = whole().table();
    wrong_word[BYTES - 1] ^= 1;
    let mut no_check = conflict_of(40, ROWS, BYTES + CHECK_BYTES).draft();
    no_check.records.pop();
    vec![
        named("a wrong CHECK word", wrong_word),
        named("no CHECK", no_check.bytes()),
    ]
}
