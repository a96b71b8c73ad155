//! Selections: some of the requests that a table may have.

use crate::limits::MOST_REQUESTS;
use crate::table::Table;
use std::fmt;

/// Some requests of a table.
///
/// ```
/// use hainscope::Selection;
///
/// let selection = Selection::of(&[3, 1]).unwrap();
/// assert_eq!(selection.bits(), 0b101);
/// assert!(selection.holds(3));
/// assert!(!selection.holds(2));
/// assert_eq!(selection.len(), 2);
/// assert_eq!(selection.requests().collect::<Vec<u16>>(), [1, 3]);
/// assert_eq!(selection.to_string(), "1 3");
/// assert_eq!(Selection::NONE.to_string(), "none");
/// assert_eq!(Selection::of(&[65]), None);
/// ```
#[derive(Clone, Copy, Debug, Default, PartialEq, Eq, Hash)]
pub struct Selection {
    bits: u64,
}

impl Selection {
    /// No request.
    pub const NONE: Selection = Selection { bits: 0 };

    /// The selection of some request numbers, unless one is 0 or above 64: no selection has such.
    pub fn of(requests: &[u16]) -> Option<Selection> {
        let with = |selection: Selection, request: &u16| selection.with(*request);
        requests.iter().try_fold(Selection::NONE, with)
    }

    /// All requests of a table.
    ///
    /// ```
    /// use hainscope::{Selection, Table, TableBuilder};
    ///
    /// let bytes = TableBuilder::new(0, 3).table();
    /// let all = Selection::all(&Table::read(&bytes)?);
    /// assert_eq!(all.to_string(), "1 2 3");
    /// # Ok::<(), hainscope::Refusal>(())
    /// ```
    pub fn all(table: &Table) -> Selection {
        (1..=table.requests()).collect()
    }

    /// The selection of some bits, request r at bit r-1.
    pub fn from_bits(bits: u64) -> Selection {
        Selection { bits }
    }

    /// The bits, request r at bit r-1.
    pub fn bits(&self) -> u64 {
        self.bits
    }

    /// Whether a request is in the selection.
    pub fn holds(&self, request: u16) -> bool {
        (1..=MOST_REQUESTS).contains(&request) && self.bits >> (request - 1) & 1 == 1
    }

    /// The requests of the selection, from the lowest number up.
    pub fn requests(self) -> impl Iterator<Item = u16> {
        (1..=MOST_REQUESTS).filter(move |request| self.holds(*request))
    }

    /// How many requests are in the selection.
    pub fn len(&self) -> usize {
        self.requests().count()
    }

    /// Whether no request is in the selection.
    pub fn is_empty(&self) -> bool {
        *self == Selection::NONE
    }

    /// The selection with a request more, unless that is 0 or above 64.
    fn with(self, request: u16) -> Option<Selection> {
        match request {
            1..=MOST_REQUESTS => Some(Selection {
                bits: self.bits | 1 << (request - 1),
            }),
            _ => None,
        }
    }
}

/// The selection of the request numbers of an iterator.
///
/// ```
/// use hainscope::Selection;
///
/// let even: Selection = (1..=6).filter(|request| request % 2 == 0).collect();
/// assert_eq!(even.to_string(), "2 4 6");
/// ```
///
/// # Panics
///
/// Where a request is 0 or above 64: no selection has such. [`Selection::of`] tells it instead.
impl FromIterator<u16> for Selection {
    fn from_iter<I: IntoIterator<Item = u16>>(requests: I) -> Selection {
        let with = |selection: Selection, request| match selection.with(request) {
            Some(selection) => selection,
            None => panic!("request {request} is not one of 1 to {MOST_REQUESTS}"),
        };
        requests.into_iter().fold(Selection::NONE, with)
    }
}

/// The request numbers from the lowest up, "1 3", or "none".
impl fmt::Display for Selection {
    fn fmt(&self, out: &mut fmt::Formatter) -> fmt::Result {
        if self.is_empty() {
            return out.pad("none");
        }
        let numbers: Vec<String> = self.requests().map(|number| number.to_string()).collect();
        out.pad(&numbers.join(" "))
    }
}
