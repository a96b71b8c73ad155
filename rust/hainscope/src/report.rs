//! Reports: the preferred conflict and the preferred relaxation of an accepted table,
//! as a record in a lent buffer, decoded, or as one line of words.

mod line;

use crate::calls;
use crate::limits::MOST_REQUESTS;
use crate::records::HEADING;
use crate::refusal::Refusal;
use crate::table::Table;
use crate::words::words;

/// Room for the report on any table: 12 + 2N bytes with the greatest N.
pub const MOST_REPORT_BYTES: usize = 12 + 2 * MOST_REQUESTS as usize;

/// What a report is on.
#[derive(Clone, Copy, Debug, PartialEq, Eq, Hash)]
pub enum Sought {
    /// Kind 16: the preferred conflict.
    Conflict,
    /// Kind 17: the preferred relaxation.
    Relaxation,
}

/// How it was worked. The sets are the same; the counts are each method's own.
#[derive(Clone, Copy, Debug, PartialEq, Eq, Hash)]
pub enum Method {
    /// Parts cut into halves: few questions where conflicts are small.
    Halving,
    /// N + 2 questions where something cannot stand.
    OneByOne,
}

/// The status of a report.
#[derive(Clone, Copy, Debug, PartialEq, Eq, Hash)]
pub enum Status {
    /// 0: all requests can stand together.
    AllCanStand,
    /// 1: there is a conflict, and the relaxation drops something.
    Conflict,
    /// 2: the host rows alone cannot stand.
    HostCannotStand,
}

impl Status {
    /// The number that stands for the status in a report.
    ///
    /// ```
    /// assert_eq!(hainscope::Status::HostCannotStand.number(), 2);
    /// ```
    pub fn number(self) -> u16 {
        match self {
            Status::AllCanStand => 0,
            Status::Conflict => 1,
            Status::HostCannotStand => 2,
        }
    }

    /// The status of a number, if it is one.
    fn of(number: u16) -> Option<Status> {
        let all = [
            Status::AllCanStand,
            Status::Conflict,
            Status::HostCannotStand,
        ];
        all.into_iter().find(|status| status.number() == number)
    }
}

/// A report, decoded. Shown it is one line of words.
#[derive(Clone, Debug, PartialEq, Eq, Hash)]
pub struct Report {
    /// Conflict or relaxation.
    pub sought: Sought,
    /// How it stands with the event.
    pub status: Status,
    /// The number of questions that the method asked.
    pub count: u32,
    /// The request numbers of the set, in the table's order.
    pub requests: Vec<u16>,
}

impl Report {
    /// Decodes a record of kind 16 or 17, if the bytes are one and nothing else.
    ///
    /// ```
    /// use hainscope::{Report, Sought, Status};
    ///
    /// let record = [10, 0, 16, 0, 1, 0, 2, 0, 0, 0, 1, 0, 7, 0];
    /// let report = Report::of_record(&record).unwrap();
    /// assert_eq!(report.sought, Sought::Conflict);
    /// assert_eq!(report.status, Status::Conflict);
    /// assert_eq!((report.count, report.requests), (2, vec![7]));
    /// assert_eq!(Report::of_record(&record[..13]), None);
    /// ```
    pub fn of_record(record: &[u8]) -> Option<Report> {
        let words: Vec<u16> = words(record).collect();
        let &[length, kind, status, low, high, k, ref requests @ ..] = words.as_slice() else {
            return None;
        };
        let (length, k) = (usize::from(length), usize::from(k));
        if length != 8 + 2 * k || record.len() != HEADING + length {
            return None;
        }
        Some(Report {
            sought: match kind {
                16 => Sought::Conflict,
                17 => Sought::Relaxation,
                _ => return None,
            },
            status: Status::of(status)?,
            count: u32::from(low) | u32::from(high) << 16,
            requests: requests.to_vec(),
        })
    }
}

impl Table<'_> {
    /// Writes a report into a lent buffer from a start on, and returns the place after it. No other
    /// byte is changed.
    ///
    /// ```
    /// use hainscope::{Method, Sought, Table, TableBuilder};
    ///
    /// let bytes = TableBuilder::new(0, 1).clause(1, &[]).table();
    /// let table = Table::read(&bytes)?;
    /// let mut buffer = [0xEE; 16];
    /// let end = table.write_report(Sought::Relaxation, Method::Halving, &mut buffer, 1)?;
    /// assert_eq!(buffer[1..end], [8, 0, 17, 0, 1, 0, 2, 0, 0, 0, 0, 0]);
    /// assert_eq!((buffer[0], buffer[13]), (0xEE, 0xEE));
    /// let refusal = table.write_report(Sought::Relaxation, Method::Halving, &mut buffer, 3);
    /// assert_eq!(refusal.unwrap_err().number, 12);
    /// # Ok::<(), hainscope::Refusal>(())
    /// ```
    ///
    /// # Errors
    ///
    /// 12 where the start is past the buffer's end, or where fewer than 12 + 2N bytes are left from
    /// it, N being the table's number of requests: whatever the answer is, and the buffer stays as
    /// it was. [`MOST_REPORT_BYTES`] are room enough for any table.
    pub fn write_report(
        &self,
        sought: Sought,
        method: Method,
        buffer: &mut [u8],
        start: usize,
    ) -> Result<usize, Refusal> {
        let call = match (sought, method) {
            (Sought::Conflict, Method::Halving) => calls::conflict,
            (Sought::Conflict, Method::OneByOne) => calls::conflict_one_by_one,
            (Sought::Relaxation, Method::Halving) => calls::relaxation,
            (Sought::Relaxation, Method::OneByOne) => calls::relaxation_one_by_one,
        };
        let mut place = 0;
        let number = call(self.bytes(), buffer, start, &mut place);
        Refusal::unless_accepted(number, place)?;
        Ok(place)
    }

    /// The report by a method, decoded.
    ///
    /// ```
    /// use hainscope::{Method, Sought, Table, TableBuilder};
    ///
    /// let bytes = TableBuilder::new(0, 3).clause(3, &[]).table();
    /// let table = Table::read(&bytes)?;
    /// let halving = table.report_by(Sought::Relaxation, Method::Halving)?;
    /// let one_by_one = table.report_by(Sought::Relaxation, Method::OneByOne)?;
    /// assert_eq!(halving.requests, [1, 2]);
    /// assert_eq!(one_by_one.requests, halving.requests);
    /// assert_eq!((halving.count, one_by_one.count), (4, 5));
    /// # Ok::<(), hainscope::Refusal>(())
    /// ```
    ///
    /// # Errors
    ///
    /// None of today's list: the table is accepted, and there is room for any report.
    pub fn report_by(&self, sought: Sought, method: Method) -> Result<Report, Refusal> {
        let mut buffer = [0; MOST_REPORT_BYTES];
        let end = self.write_report(sought, method, &mut buffer, 0)?;
        Ok(Report::of_record(&buffer[..end]).expect("an accepted call writes one report"))
    }

    /// The report by the halving method, decoded: [`Table::report_by`] with [`Method::Halving`].
    ///
    /// ```
    /// use hainscope::{refuses, wants, Sought, Status, Table, TableBuilder};
    ///
    /// let bytes = TableBuilder::new(1, 2)
    ///     .clause(1, &[wants(0)])
    ///     .clause(2, &[refuses(0)])
    ///     .order(&[2, 1])
    ///     .table();
    /// let table = Table::read(&bytes)?;
    /// let conflict = table.report(Sought::Conflict)?;
    /// assert_eq!(conflict.status, Status::Conflict);
    /// assert_eq!((conflict.count, &conflict.requests[..]), (4, &[2, 1][..]));
    /// assert_eq!(
    ///     conflict.to_string(),
    ///     "requests 2 and 1 cannot stand together (preferred conflict, 4 questions)"
    /// );
    /// assert_eq!(table.report(Sought::Relaxation)?.requests, [2]);
    /// # Ok::<(), hainscope::Refusal>(())
    /// ```
    ///
    /// # Errors
    ///
    /// As of [`Table::report_by`].
    pub fn report(&self, sought: Sought) -> Result<Report, Refusal> {
        self.report_by(sought, Method::Halving)
    }
}
