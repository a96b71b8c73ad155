//! The records of an accepted table, decoded from its own bytes: their kinds, places and bodies, and
//! what HEAD and ORDER say. The library has accepted these bytes, so that nothing is tested again.

use crate::kind::Kind;
use crate::table::Table;
use crate::words::{word, words};
use std::iter::FusedIterator;

/// The bytes of L and kind, before a body.
pub(crate) const HEADING: usize = 4;

/// One record of an accepted table.
#[derive(Clone, Copy, Debug, PartialEq, Eq, Hash)]
pub struct Record<'a> {
    /// Its number in the table, the first being 0, by which [`Table::body`] finds it too.
    pub number: usize,
    /// Its kind.
    pub kind: Kind,
    /// Where its first byte stands in the table, as a refusal tells it.
    pub place: usize,
    /// Its body, which is that stretch of the caller's own table; it may be empty.
    pub body: &'a [u8],
}

/// The records of an accepted table from the first on, as [`Table::records`] gives them.
#[derive(Clone, Debug)]
pub struct Records<'a> {
    table: &'a [u8],
    /// The number and the place of the next record.
    number: usize,
    place: usize,
}

impl<'a> Iterator for Records<'a> {
    type Item = Record<'a>;

    fn next(&mut self) -> Option<Record<'a>> {
        let Records {
            table,
            number,
            place,
        } = *self;
        if place == table.len() {
            return None;
        }
        let body = place + HEADING;
        let end = body + usize::from(word(table, place));
        let kind = Kind::of(word(table, place + 2));
        (self.number, self.place) = (number + 1, end);
        Some(Record {
            number,
            kind: kind.expect("an accepted table has no unknown kind"),
            place,
            body: &table[body..end],
        })
    }
}

impl FusedIterator for Records<'_> {}

impl<'a> Table<'a> {
    /// The records from the first on: HEAD, the rows, ORDER and CHECK.
    ///
    /// ```
    /// use hainscope::{wants, Kind, Table, TableBuilder};
    ///
    /// let bytes = TableBuilder::new(1, 2).clause(2, &[wants(0)]).table();
    /// let table = Table::read(&bytes)?;
    /// let kinds: Vec<Kind> = table.records().map(|record| record.kind).collect();
    /// assert_eq!(kinds, [Kind::Head, Kind::Clause, Kind::Order, Kind::Check]);
    /// let clause = table.records().nth(1).unwrap();
    /// assert_eq!((clause.number, clause.place), (1, 8));
    /// assert_eq!(clause.body, [2, 0, 0, 0]); // role 2, literal 0
    /// # Ok::<(), hainscope::Refusal>(())
    /// ```
    pub fn records(&self) -> Records<'a> {
        Records {
            table: self.bytes(),
            number: 0,
            place: 0,
        }
    }

    /// How many variables the table has, V. They are numbered from 0.
    pub fn variables(&self) -> u16 {
        word(self.body_of(Kind::Head), 0)
    }

    /// How many requests the table has, N. They are numbered from 1.
    pub fn requests(&self) -> u16 {
        word(self.body_of(Kind::Head), 2)
    }

    /// The requests in their order, most important first.
    ///
    /// ```
    /// use hainscope::{Table, TableBuilder};
    ///
    /// let bytes = TableBuilder::new(5, 3).order(&[2, 3, 1]).table();
    /// let table = Table::read(&bytes)?;
    /// assert_eq!((table.variables(), table.requests()), (5, 3));
    /// assert_eq!(table.order(), [2, 3, 1]);
    /// # Ok::<(), hainscope::Refusal>(())
    /// ```
    pub fn order(&self) -> Vec<u16> {
        words(self.body_of(Kind::Order)).collect()
    }

    /// The body of the first record of a kind that every table has.
    fn body_of(&self, kind: Kind) -> &'a [u8] {
        let mut records = self.records();
        let found = records.find(|record| record.kind == kind);
        found.expect("an accepted table has this record").body
    }
}
