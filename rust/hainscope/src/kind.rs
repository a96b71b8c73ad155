//! The kinds of records that a table has, each with its number.

/// A kind of record. Later versions of the library may have more.
///
/// ```
/// use hainscope::Kind;
///
/// assert_eq!(Kind::Head.number(), 1);
/// assert_eq!(Kind::Check.number(), 5);
/// ```
#[derive(Clone, Copy, Debug, PartialEq, Eq, Hash)]
#[non_exhaustive]
#[repr(u16)]
pub enum Kind {
    /// 1, the first record: how many variables and how many requests there are.
    Head = 1,
    /// 2, a row: a role and literals, of which at least one is to be true.
    Clause = 2,
    /// 3, a row: a role, a bound, and weighted variables whose sum is to be at most the bound.
    Linear = 3,
    /// 4, after the rows: the requests, most important first.
    Order = 4,
    /// 5, the last record: the word that makes all words add to zero.
    Check = 5,
}

impl Kind {
    /// All kinds.
    const ALL: [Kind; 5] = [
        Kind::Head,
        Kind::Clause,
        Kind::Linear,
        Kind::Order,
        Kind::Check,
    ];

    /// The number that stands for the kind in a record.
    pub fn number(self) -> u16 {
        self as u16
    }

    /// The kind of a number, if a table may have it.
    pub(crate) fn of(number: u16) -> Option<Kind> {
        Kind::ALL.into_iter().find(|kind| kind.number() == number)
    }
}
