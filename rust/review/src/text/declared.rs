//! The names that a text declares, of variables or of plug-ins, and looking them up.

use super::mistake::{Mistake, Mistakes};
use super::nearest::near;
use super::places::Name;
use crate::names::{listed, written};
use std::collections::HashMap;

/// The most names that are listed in a mistake.
const MOST_LISTED: usize = 6;

/// All names that a text declares.
pub(super) struct Known<'a> {
    pub variables: Declared<'a>,
    pub plug_ins: Declared<'a>,
}

impl Known<'_> {
    /// The number of a variable.
    pub fn variable(&self, name: &Name) -> Result<u16, Mistake> {
        self.variables.number(name, &self.plug_ins)
    }

    /// Where a plug-in stands among the plug-ins, the first being 0.
    pub fn plug_in(&self, name: &Name) -> Result<u16, Mistake> {
        self.plug_ins.number(name, &self.variables)
    }
}

/// Names of one sort, in the sequence of their numbers.
pub(super) struct Declared<'a> {
    /// What they are: "variable" or "plug-in".
    sort: &'static str,
    names: Vec<&'a Name>,
    numbers: HashMap<&'a str, usize>,
}

impl<'a> Declared<'a> {
    /// The names that are declared, of which there may be so many.
    pub fn of(
        sort: &'static str,
        most: u16,
        declared: impl Iterator<Item = &'a Name>,
        mistakes: &mut Mistakes,
    ) -> Declared<'a> {
        let mut names: Vec<&'a Name> = Vec::new();
        let mut numbers = HashMap::new();
        for name in declared {
            if let Some(number) = numbers.get(name.name.as_str()) {
                let first: &Name = names[*number];
                let words = format!(
                    "{sort} {} is declared twice, first on line {}",
                    written(&name.name),
                    first.place.line
                );
                mistakes.add(name.place.mistake(words));
            } else {
                numbers.insert(name.name.as_str(), names.len());
                names.push(name);
            }
        }
        if let Some(beyond) = names.get(usize::from(most)) {
            let words = format!("{} {sort}s, at most {most}", names.len());
            mistakes.add(beyond.place.mistake(words));
        }
        Declared {
            sort,
            names,
            numbers,
        }
    }

    /// The names.
    pub fn names(&self) -> Vec<String> {
        self.names.iter().map(|name| name.name.clone()).collect()
    }

    /// Where a name stands among these, the first being 0; the other sort is for the mistake alone.
    fn number(&self, name: &Name, other: &Declared) -> Result<u16, Mistake> {
        let found = self.numbers.get(name.name.as_str());
        let number = found.and_then(|number| u16::try_from(*number).ok());
        number.ok_or_else(|| self.unknown(name, other))
    }

    /// The mistake that no name of this sort is this one.
    fn unknown(&self, name: &Name, other: &Declared) -> Mistake {
        let sort = self.sort;
        let known: Vec<&str> = self.names.iter().map(|name| name.name.as_str()).collect();
        let nearest = near(&name.name, &known).map(written);
        let is_other = other.numbers.contains_key(name.name.as_str());
        let hint = match (nearest, is_other) {
            (Some(nearest), false) => format!("the nearest is {nearest}"),
            (Some(nearest), true) => {
                format!("it is a {}; the nearest {sort} is {nearest}", other.sort)
            }
            (None, true) => format!("it is a {}", other.sort),
            (None, false) if known.is_empty() => format!("no {sort} is declared"),
            (None, false) => format!("known are {}", some_of(&known)),
        };
        let words = format!("no {sort} is named {}; {hint}", written(&name.name));
        name.place.mistake(words)
    }
}

/// The first of some names, and how many there are beside them.
pub(super) fn some_of(names: &[impl AsRef<str>]) -> String {
    let mut told: Vec<String> = names
        .iter()
        .take(MOST_LISTED)
        .map(|name| written(name.as_ref()))
        .collect();
    if names.len() > MOST_LISTED {
        told.push(format!("{} more", names.len() - MOST_LISTED));
    }
    listed(&told)
}
