//! A refusal: its number, a byte place, and the reason that the number stands for.
//! The numbers are fixed; a server may pass them on.

use crate::reason::Reason;
use crate::records::HEADING;
use crate::words::word;
use std::error::Error;
use std::fmt;

/// Why a call was refused, and where. Shown or debugged it is the same words, so that a `main` that
/// returns it prints them.
///
/// ```
/// use hainscope::{Reason, Refusal, Table};
///
/// let refusal = Table::read(&[4, 0, 1, 0]).unwrap_err();
/// assert_eq!(refusal, Refusal { number: 2, place: 0 });
/// assert_eq!(refusal.reason(), Reason::RecordCutShort);
/// assert_eq!(
///     refusal.to_string(),
///     "table refused (number 2) at byte 0: \
///      only 1 to 3 bytes are left for the record, or its body passes the end of the table"
/// );
/// assert_eq!(format!("{refusal:?}"), refusal.to_string());
/// ```
#[derive(Clone, Copy, PartialEq, Eq, Hash)]
pub struct Refusal {
    /// The number in the list of refusals (docs/FORMAT.md).
    pub number: u32,
    /// A byte place in the table: that of the record, 0, or the table's length, as the list says.
    pub place: usize,
}

impl Refusal {
    /// The reason that the number stands for.
    pub fn reason(&self) -> Reason {
        Reason::of(self.number)
    }

    /// The number of the record at the place, the first being 0, in the table that was refused. Where
    /// the place is the table's end, it is the number that a further record would have.
    ///
    /// ```
    /// use hainscope::{Table, TableBuilder};
    ///
    /// let mut bytes = TableBuilder::new(3, 2).table(); // HEAD, ORDER and CHECK
    /// bytes[2] = 9;
    /// assert_eq!(Table::read(&bytes).unwrap_err().record(&bytes), 0);
    /// bytes[2] = 1;
    /// bytes[20] ^= 1;
    /// assert_eq!(Table::read(&bytes).unwrap_err().record(&bytes), 2);
    /// bytes.truncate(16);
    /// assert_eq!(Table::read(&bytes).unwrap_err().record(&bytes), 2);
    /// ```
    pub fn record(&self, table: &[u8]) -> usize {
        let (mut number, mut place) = (0, 0);
        while place < self.place && place + HEADING <= table.len() {
            place += HEADING + usize::from(word(table, place));
            number += 1;
        }
        number
    }

    /// Nothing where the number is 0, else the refusal.
    pub(crate) fn unless_accepted(number: u32, place: usize) -> Result<(), Refusal> {
        match number {
            0 => Ok(()),
            _ => Err(Refusal { number, place }),
        }
    }
}

impl fmt::Display for Refusal {
    fn fmt(&self, out: &mut fmt::Formatter) -> fmt::Result {
        let Refusal { number, place } = self;
        let reason = self.reason();
        let refused = reason.refused();
        write!(
            out,
            "{refused} refused (number {number}) at byte {place}: {reason}"
        )
    }
}

impl fmt::Debug for Refusal {
    fn fmt(&self, out: &mut fmt::Formatter) -> fmt::Result {
        fmt::Display::fmt(self, out)
    }
}

impl Error for Refusal {}
