//! Mistakes in a text: where each is, what was expected, and what stands there instead.

use std::fmt;

/// The most mistakes that are told at once.
pub const MOST_MISTAKES: usize = 20;

/// A mistake in a text. Shown it is one line: line, column and words.
#[derive(Clone, Debug, PartialEq, Eq)]
pub struct Mistake {
    /// Its line, the first being 1.
    pub line: usize,
    /// Its column in characters, the first being 1.
    pub column: usize,
    /// What was expected, what was found, and the nearest known name.
    pub words: String,
}

impl Mistake {
    /// The mistake with a hint more.
    pub(super) fn with(mut self, hint: &str) -> Mistake {
        self.words.push_str("; ");
        self.words.push_str(hint);
        self
    }
}

impl fmt::Display for Mistake {
    fn fmt(&self, out: &mut fmt::Formatter) -> fmt::Result {
        let Mistake {
            line,
            column,
            words,
        } = self;
        write!(out, "line {line}, column {column}: {words}")
    }
}

/// The mistakes of a text, the first [`MOST_MISTAKES`] of them.
#[derive(Clone, Debug, Default, PartialEq, Eq)]
pub struct Mistakes {
    told: Vec<Mistake>,
}

impl Mistakes {
    /// The mistakes, in the sequence of the text.
    pub fn told(&self) -> &[Mistake] {
        &self.told
    }

    /// Whether so many were found that no more are looked for.
    pub fn are_enough(&self) -> bool {
        self.told.len() >= MOST_MISTAKES
    }

    /// A mistake more, unless there are enough.
    pub(super) fn add(&mut self, mistake: Mistake) {
        if !self.are_enough() {
            self.told.push(mistake);
        }
    }

    /// These mistakes as an error, if there are any.
    pub(super) fn unless_none(&mut self) -> Result<(), Mistakes> {
        self.told
            .sort_by_key(|mistake| (mistake.line, mistake.column));
        match self.told.is_empty() {
            true => Ok(()),
            false => Err(self.clone()),
        }
    }
}

impl From<Mistake> for Mistakes {
    fn from(mistake: Mistake) -> Mistakes {
        Mistakes {
            told: vec![mistake],
        }
    }
}
