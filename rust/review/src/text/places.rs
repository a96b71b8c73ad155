//! Places in a text, and what stands at one: names and numbers as they were written.

use super::mistake::Mistake;
use crate::names::MOST_NAME;

/// A place in a text. Lines and columns are counted from 1, columns in characters.
#[derive(Clone, Copy, Debug, PartialEq, Eq)]
pub(super) struct Place {
    pub line: usize,
    pub column: usize,
}

impl Place {
    /// The place so many characters later on its line.
    pub fn after(self, characters: usize) -> Place {
        let column = self.column + characters;
        Place { column, ..self }
    }

    /// A mistake at this place.
    pub fn mistake(self, words: String) -> Mistake {
        Mistake {
            line: self.line,
            column: self.column,
            words,
        }
    }
}

/// A name where it stands.
#[derive(Clone, Debug)]
pub(super) struct Name {
    pub name: String,
    pub place: Place,
}

/// A name as a mistake tells it: one that is too long only by its length.
pub(super) fn shown(sort: &str, name: &str, written: String) -> String {
    match name.chars().count() {
        length if length > MOST_NAME => format!("a {sort} of {length} characters"),
        _ => written,
    }
}

/// A whole number where it stands. One that is beyond 64 bits is the greatest of these: it is beyond
/// every limit anyway.
#[derive(Clone, Debug)]
pub(super) struct Number {
    pub value: i64,
    pub written: String,
    pub place: Place,
}
