//! An event as a text: one statement a line, in whole words. docs/EVENT.md defines it.
//! A text is read into words, statements and an event, in this sequence; each step tells its own
//! mistakes, and the next one is taken only where there are none.

mod cursor;
mod declared;
mod gathering;
mod mistake;
mod nearest;
mod ordering;
mod places;
mod rows;
mod statement;
mod tokens;
mod writing;

use crate::event::Event;
use crate::names::ordinal;
use hainscope::{MOST_REQUESTS, MOST_ROWS, MOST_VARIABLES};
use places::Place;
use statement::Statement;
use std::str;

pub use mistake::{Mistake, Mistakes, MOST_MISTAKES};
pub use writing::write;

/// The most statements of a text: more than an event can need, whose rows, names and places in the
/// order are 661 at most.
pub const MOST_STATEMENTS: usize = 1000;
const _: () = {
    let names = MOST_VARIABLES as usize + MOST_REQUESTS as usize;
    assert!(1 + names + MOST_ROWS + MOST_REQUESTS as usize <= MOST_STATEMENTS);
};

/// The most words and marks of a line: more than a statement can need, which are 193 at most.
pub const MOST_WORDS: usize = 1000;

/// Reads a text.
///
/// # Errors
///
/// What is wrong in it, each with its line and column, in the sequence of the text.
pub fn read(bytes: &[u8]) -> Result<Event, Mistakes> {
    let bytes = bytes.strip_prefix("\u{feff}".as_bytes()).unwrap_or(bytes);
    let text = str::from_utf8(bytes).map_err(|error| not_unicode(bytes, error.valid_up_to()))?;
    gathering::event(&statements(text)?)
}

/// The statements of a text.
fn statements(text: &str) -> Result<Vec<Statement>, Mistakes> {
    let mut mistakes = Mistakes::default();
    let mut statements = Vec::new();
    for (line, words) in (1..).zip(text.split('\n')) {
        let words = words.strip_suffix('\r').unwrap_or(words);
        match tokens::tokens(line, words).and_then(|line| statement::statement(&line)) {
            Ok(statement) => statements.extend(statement),
            Err(mistake) => mistakes.add(mistake),
        }
        let beyond = statements.len() > MOST_STATEMENTS;
        if beyond {
            let number = ordinal(statements.len());
            let words = format!("the {number} statement, at most {MOST_STATEMENTS}");
            mistakes.add(Place { line, column: 1 }.mistake(words));
        }
        if beyond || mistakes.are_enough() {
            break;
        }
    }
    mistakes.unless_none()?;
    Ok(statements)
}

/// Whether bytes begin as a text in UTF-16 does, with a byte order mark.
pub fn is_utf_16(bytes: &[u8]) -> bool {
    bytes.starts_with(&[0xFF, 0xFE]) || bytes.starts_with(&[0xFE, 0xFF])
}

/// The mistake that a byte is no part of a text.
fn not_unicode(bytes: &[u8], good: usize) -> Mistakes {
    let before = String::from_utf8_lossy(&bytes[..good]);
    let line = 1 + before.matches('\n').count();
    let column = 1 + before.chars().rev().take_while(|c| *c != '\n').count();
    let place = Place { line, column };
    let found = match is_utf_16(bytes) {
        true => "one in UTF-16".to_string(),
        false => format!("the byte {:#04X}", bytes[good]),
    };
    Mistakes::from(place.mistake(format!("expected a text in UTF-8, found {found}")))
}
