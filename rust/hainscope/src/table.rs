//! An accepted table, lent by the caller.
//! A refused table never becomes a [`Table`].

use crate::calls;
use crate::refusal::Refusal;
use std::fmt;

/// A table that the proved library has accepted. It borrows the caller's bytes, and may be copied and
/// shared among threads. Debugged it tells its sizes, and not its up to 32,768 bytes.
///
/// ```
/// use hainscope::{Table, TableBuilder};
///
/// let bytes = TableBuilder::new(3, 2).table();
/// let table = Table::read(&bytes)?;
/// assert_eq!(format!("{table:?}"), "Table { variables: 3, requests: 2, length: 22 }");
/// # Ok::<(), hainscope::Refusal>(())
/// ```
#[derive(Clone, Copy, PartialEq, Eq)]
pub struct Table<'a> {
    bytes: &'a [u8],
}

impl fmt::Debug for Table<'_> {
    fn fmt(&self, out: &mut fmt::Formatter) -> fmt::Result {
        out.debug_struct("Table")
            .field("variables", &self.variables())
            .field("requests", &self.requests())
            .field("length", &self.bytes.len())
            .finish()
    }
}

impl<'a> Table<'a> {
    /// Reads a table: accepted, or refused with number and place.
    ///
    /// ```
    /// use hainscope::{Table, TableBuilder};
    ///
    /// let mut bytes = TableBuilder::new(0, 0).table();
    /// assert!(Table::read(&bytes).is_ok());
    /// bytes[0] = 5;
    /// assert_eq!(Table::read(&bytes).unwrap_err().number, 5);
    /// ```
    ///
    /// # Errors
    ///
    /// 1 to 10, which are about the table: [`Reason`](crate::Reason) names them.
    pub fn read(bytes: &'a [u8]) -> Result<Table<'a>, Refusal> {
        let mut place = 0;
        let number = calls::read(bytes, &mut place);
        Refusal::unless_accepted(number, place)?;
        Ok(Table { bytes })
    }

    /// The table's own bytes, as the caller lent them.
    pub fn bytes(&self) -> &'a [u8] {
        self.bytes
    }

    /// The body of the record of a number, the first being 0. It is that stretch of the caller's
    /// own table; it may be empty.
    ///
    /// ```
    /// use hainscope::{Table, TableBuilder};
    ///
    /// let bytes = TableBuilder::new(3, 0).table();
    /// let table = Table::read(&bytes)?;
    /// assert_eq!(table.body(0)?, [3, 0, 0, 0]); // HEAD: V 3, N 0
    /// assert_eq!(table.body(1)?, []); // ORDER
    /// assert_eq!(table.body(3).unwrap_err().number, 13);
    /// # Ok::<(), hainscope::Refusal>(())
    /// ```
    ///
    /// # Errors
    ///
    /// 13, at the table's length, where the table has no record of that number.
    pub fn body(&self, number: usize) -> Result<&'a [u8], Refusal> {
        let (mut length, mut place) = (0, 0);
        let refusal = calls::body(self.bytes, number, &mut length, &mut place);
        Refusal::unless_accepted(refusal, place)?;
        Ok(&self.bytes[place..place + length])
    }
}

/// Reads a table, as [`Table::read`] does, with the same errors.
///
/// ```
/// use hainscope::{Refusal, Table, TableBuilder};
///
/// let bytes = TableBuilder::new(2, 1).table();
/// let table: Table = bytes.as_slice().try_into()?;
/// assert_eq!(table.variables(), 2);
/// # Ok::<(), Refusal>(())
/// ```
impl<'a> TryFrom<&'a [u8]> for Table<'a> {
    type Error = Refusal;

    fn try_from(bytes: &'a [u8]) -> Result<Table<'a>, Refusal> {
        Table::read(bytes)
    }
}
