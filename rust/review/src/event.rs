//! An event: what a table states, with names for its variables and plug-ins.
//! A text and a table both become one, and it becomes either again.

use hainscope::{Condition, Refusal, Row, Table, TableBuilder};

/// What stands for the name of something that an event has not.
const UNNAMED: &str = "?";

/// What the host allows, what each plug-in requests, and which requests matter most.
#[derive(Clone, Debug, Default, PartialEq, Eq)]
pub struct Event {
    /// The event's own name, if it has one.
    pub name: Option<String>,
    /// The names of the variables, from variable 0 on.
    pub variables: Vec<String>,
    /// The names of the plug-ins, from request 1 on.
    pub plug_ins: Vec<String>,
    /// The rows, in the sequence of their statements.
    pub rows: Vec<EventRow>,
    /// The requests, most important first.
    pub order: Vec<u16>,
}

/// A row of an event.
#[derive(Clone, Debug, PartialEq, Eq)]
pub struct EventRow {
    /// Whose it is and what it asks, by numbers.
    pub row: Row,
    /// What a budget is of, if that has a name.
    pub budget: Option<String>,
}

impl Event {
    /// The event of a table. A table has no names: variables and plug-ins get their numbers.
    pub fn of_table(table: &Table) -> Event {
        let numbers = |from: u16, to: u16| (from..to).map(|number| number.to_string()).collect();
        let row = |row| EventRow { row, budget: None };
        Event {
            name: None,
            variables: numbers(0, table.variables()),
            plug_ins: numbers(1, table.requests() + 1),
            rows: table.rows().map(row).collect(),
            order: table.order(),
        }
    }

    /// The event's table. An event that was read from a text or a table is within the limits, so that
    /// the library accepts it.
    pub fn table(&self) -> Vec<u8> {
        let number = |names: &[String]| u16::try_from(names.len()).unwrap_or(u16::MAX);
        let builder = TableBuilder::new(number(&self.variables), number(&self.plug_ins));
        let with_rows = |builder: TableBuilder, row: &EventRow| builder.row(&row.row);
        let builder = self.rows.iter().fold(builder, with_rows);
        builder.order(&self.order).table()
    }

    /// The name of a variable; `?` for a number that the event has not.
    pub fn variable(&self, number: u16) -> &str {
        let name = self.variables.get(usize::from(number));
        name.map_or(UNNAMED, String::as_str)
    }

    /// The name of the plug-in of a request; `?` for a number that the event has not.
    pub fn plug_in(&self, request: u16) -> &str {
        let place = usize::from(request).checked_sub(1);
        let name = place.and_then(|place| self.plug_ins.get(place));
        name.map_or(UNNAMED, String::as_str)
    }

    /// The budgets of the host: each linear row of role 0.
    pub fn host_budgets(&self) -> impl Iterator<Item = Budget<'_>> {
        let of_host = |row: &&EventRow| row.row.role == 0;
        self.rows.iter().filter(of_host).filter_map(Budget::of)
    }
}

/// A linear row, seen as a budget.
#[derive(Clone, Copy, Debug, PartialEq, Eq)]
pub struct Budget<'a> {
    /// What it is of, if that has a name.
    pub name: Option<&'a str>,
    /// How much there is.
    pub bound: i32,
    /// What each variable takes of it where it is on.
    pub terms: &'a [(u16, i32)],
}

impl Budget<'_> {
    /// The budget of a row, if it is one.
    fn of(EventRow { row, budget }: &EventRow) -> Option<Budget<'_>> {
        match &row.condition {
            Condition::Clause(_) => None,
            Condition::Linear { bound, terms } => Some(Budget {
                name: budget.as_deref(),
                bound: *bound,
                terms,
            }),
        }
    }
}

/// Reads a table's bytes as an event.
///
/// # Errors
///
/// The library's refusal.
pub fn read_table(bytes: &[u8]) -> Result<Event, Refusal> {
    Ok(Event::of_table(&Table::read(bytes)?))
}
