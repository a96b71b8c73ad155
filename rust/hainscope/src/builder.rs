//! A builder that writes a table's bytes: HEAD, rows, ORDER, and CHECK with its word set right.
//! It judges nothing: numbers out of range are written as they are, and reading refuses them. What
//! does not fit in its bytes is never cut to something that fits, which could mean something else.

use crate::kind::Kind;
use crate::row::{Condition, Row};
use crate::words::words;

/// A table in the making.
///
/// ```
/// use hainscope::{refuses, wants, Table, TableBuilder};
///
/// let bytes = TableBuilder::new(1, 2)
///     .clause(1, &[wants(0)])
///     .clause(2, &[refuses(0)])
///     .table();
/// assert_eq!(bytes.len(), 38);
/// assert!(Table::read(&bytes).is_ok());
/// ```
#[derive(Clone, Debug, PartialEq, Eq)]
pub struct TableBuilder {
    /// HEAD and the rows so far.
    bytes: Vec<u8>,
    /// What ORDER will name.
    order: Vec<u16>,
}

impl TableBuilder {
    /// A table of V variables, numbered from 0, and N requests, numbered from 1, without rows and
    /// in the order 1 to N.
    pub fn new(variables: u16, requests: u16) -> TableBuilder {
        let mut bytes = Vec::new();
        push_words(&mut bytes, Kind::Head, &[variables, requests]);
        TableBuilder {
            bytes,
            order: (1..=requests).collect(),
        }
    }

    /// A clause more: met where at least one literal is true. Role 0 is the host, r is request r.
    pub fn clause(mut self, role: u16, literals: &[u16]) -> TableBuilder {
        push_words(&mut self.bytes, Kind::Clause, &[&[role], literals].concat());
        self
    }

    /// A linear row more: met where the sum of weight times value is at most the bound. Terms are
    /// variable and weight. Role 0 is the host, r is request r.
    pub fn linear(mut self, role: u16, bound: i32, terms: &[(u16, i32)]) -> TableBuilder {
        let mut body = role.to_le_bytes().to_vec();
        body.extend(bound.to_le_bytes());
        for (variable, weight) in terms {
            body.extend(variable.to_le_bytes());
            body.extend(weight.to_le_bytes());
        }
        push_record(&mut self.bytes, Kind::Linear, &body);
        self
    }

    /// A row more, be it a clause or a linear row.
    pub fn row(self, row: &Row) -> TableBuilder {
        match &row.condition {
            Condition::Clause(literals) => self.clause(row.role, literals),
            Condition::Linear { bound, terms } => self.linear(row.role, *bound, terms),
        }
    }

    /// The requests in their order, most important first.
    pub fn order(mut self, requests: &[u16]) -> TableBuilder {
        self.order = requests.to_vec();
        self
    }

    /// The table's bytes, ORDER and CHECK set at their end.
    pub fn table(&self) -> Vec<u8> {
        let mut bytes = self.bytes.clone();
        push_words(&mut bytes, Kind::Order, &self.order);
        push_words(&mut bytes, Kind::Check, &[0]);
        let sum = words(&bytes).fold(0, u16::wrapping_add);
        let word = bytes.len() - 2;
        bytes[word..].copy_from_slice(&sum.wrapping_neg().to_le_bytes());
        bytes
    }
}

/// Writes a record whose body is words.
fn push_words(bytes: &mut Vec<u8>, kind: Kind, words: &[u16]) {
    let body: Vec<u8> = words.iter().flat_map(|word| word.to_le_bytes()).collect();
    push_record(bytes, kind, &body);
}

/// Writes a record. A body of more than 65,535 bytes has no L and gets the greatest; whatever L it
/// has, its table has more than 32,768 bytes, which reading refuses before it looks at any L.
fn push_record(bytes: &mut Vec<u8>, kind: Kind, body: &[u8]) {
    let length = u16::try_from(body.len()).unwrap_or(u16::MAX);
    bytes.extend(length.to_le_bytes());
    bytes.extend(kind.number().to_le_bytes());
    bytes.extend(body);
}
