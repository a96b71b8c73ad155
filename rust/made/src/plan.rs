//! An event that is right: sizes, rows and order, from which a valid table is written.
//! Nothing here is shared with the second program, which decodes such tables again.

use crate::draft::{Draft, Record};

/// A row of a plan.
#[derive(Clone, Debug, PartialEq, Eq)]
pub enum Row {
    /// Role and literals.
    Clause(u16, Vec<u16>),
    /// Role, bound and terms of variable and weight.
    Linear(u16, i32, Vec<(u16, i32)>),
}

/// An event.
#[derive(Clone, Debug, PartialEq, Eq)]
pub struct Plan {
    /// V.
    pub variables: u16,
    /// N.
    pub requests: u16,
    /// The rows in the table's sequence.
    pub rows: Vec<Row>,
    /// The requests, most important first.
    pub order: Vec<u16>,
}

impl Row {
    /// The role: 0 for the host.
    pub fn role(&self) -> u16 {
        match self {
            Row::Clause(role, _) | Row::Linear(role, _, _) => *role,
        }
    }

    /// The row's record.
    pub fn record(&self) -> Record {
        match self {
            Row::Clause(role, literals) => Record::clause(*role, literals),
            Row::Linear(role, bound, terms) => Record::linear(*role, *bound, terms),
        }
    }
}

impl Plan {
    /// A plan without rows, in the order 1 to N.
    pub fn empty(variables: u16, requests: u16) -> Plan {
        Plan {
            variables,
            requests,
            rows: Vec::new(),
            order: (1..=requests).collect(),
        }
    }

    /// The plan with a clause more.
    pub fn clause(mut self, role: u16, literals: &[u16]) -> Plan {
        self.rows.push(Row::Clause(role, literals.to_vec()));
        self
    }

    /// The plan with a linear row more.
    pub fn linear(mut self, role: u16, bound: i32, terms: &[(u16, i32)]) -> Plan {
        self.rows.push(Row::Linear(role, bound, terms.to_vec()));
        self
    }

    /// The plan in another order.
    pub fn ordered(mut self, order: &[u16]) -> Plan {
        self.order = order.to_vec();
        self
    }

    /// The plan's records, the CHECK word not yet mended.
    pub fn draft(&self) -> Draft {
        let mut records = vec![Record::head(self.variables, self.requests)];
        records.extend(self.rows.iter().map(Row::record));
        records.push(Record::order(&self.order));
        records.push(Record::check());
        Draft { records }
    }

    /// The valid table.
    pub fn table(&self) -> Vec<u8> {
        self.draft().mended()
    }
}

/// The literal that is true where a variable is 1.
pub fn wants(variable: u16) -> u16 {
    2 * variable
}

/// The literal that is true where a variable is 0.
pub fn refuses(variable: u16) -> u16 {
    2 * variable + 1
}
