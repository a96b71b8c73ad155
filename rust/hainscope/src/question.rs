//! The question: can a selection of requests stand?
//! It is always answered fully: yes or no, or a refusal.

use crate::calls;
use crate::refusal::Refusal;
use crate::selection::Selection;
use crate::table::Table;

impl Table<'_> {
    /// Whether a selection can stand: whether some setting meets all host rows and all rows of the
    /// selected requests.
    ///
    /// ```
    /// use hainscope::{refuses, wants, Selection, Table, TableBuilder};
    ///
    /// let bytes = TableBuilder::new(1, 2)
    ///     .clause(1, &[wants(0)])
    ///     .clause(2, &[refuses(0)])
    ///     .table();
    /// let table = Table::read(&bytes)?;
    /// assert!(table.can_stand(Selection::of(&[1]).unwrap())?);
    /// assert!(!table.can_stand(Selection::all(&table))?);
    /// let above = table.can_stand(Selection::of(&[3]).unwrap());
    /// assert_eq!(above.unwrap_err().number, 11);
    /// # Ok::<(), hainscope::Refusal>(())
    /// ```
    ///
    /// # Errors
    ///
    /// 11 where the selection names a request above N, the table's number of requests. A selection
    /// of this table's requests, such as a part of [`Selection::all`], is never refused.
    pub fn can_stand(&self, selection: Selection) -> Result<bool, Refusal> {
        let (mut stands, mut place) = (0, 0);
        let number = calls::can_stand(self.bytes(), selection.bits(), &mut stands, &mut place);
        Refusal::unless_accepted(number, place)?;
        Ok(stands == 1)
    }
}
