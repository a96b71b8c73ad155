//! The four report calls by the library and by the second program, whole buffers compared:
//! the bytes before the start and after the record, and everything where a call is refused.

use crate::{same, Asked, Tally};
use hainscope::calls;
use made::random::Random;
use second::methods::{Method, Sought};
use second::report::report;

/// A byte around a lent buffer, and how many of them stand on each side: a whole report's.
const GUARD: u8 = 0xA5;
const GUARDS: usize = hainscope::MOST_REPORT_BYTES;

/// A report call as the C function has it.
type Call = fn(&[u8], &mut [u8], usize, &mut usize) -> u32;

/// One of the four report calls.
pub struct ReportCall {
    /// Its name.
    pub name: &'static str,
    /// The library's function.
    pub library: Call,
    /// What it is on.
    pub sought: Sought,
    /// How it works.
    pub method: Method,
}

/// The four report calls.
pub const REPORT_CALLS: [ReportCall; 4] = [
    ReportCall {
        name: "conflict",
        library: calls::conflict,
        sought: Sought::Conflict,
        method: Method::Halving,
    },
    ReportCall {
        name: "conflict_one_by_one",
        library: calls::conflict_one_by_one,
        sought: Sought::Conflict,
        method: Method::OneByOne,
    },
    ReportCall {
        name: "relaxation",
        library: calls::relaxation,
        sought: Sought::Relaxation,
        method: Method::Halving,
    },
    ReportCall {
        name: "relaxation_one_by_one",
        library: calls::relaxation_one_by_one,
        sought: Sought::Relaxation,
        method: Method::OneByOne,
    },
];

/// What a call leaves: refusal number, place, and the whole buffer.
#[derive(PartialEq, Eq, Debug)]
pub struct Left {
    /// The refusal number; 0: accepted.
    pub number: u32,
    /// The place.
    pub place: usize,
    /// The buffer after the call.
    pub buffer: Vec<u8>,
}

impl ReportCall {
    /// The call by the library, which must set the place. The buffer is lent between guard bytes,
    /// which must stay.
    pub fn by_library(&self, table: &[u8], buffer: Vec<u8>, start: usize) -> Left {
        let mut guarded = [&[GUARD; GUARDS][..], &buffer, &[GUARD; GUARDS]].concat();
        let lent = &mut guarded[GUARDS..GUARDS + buffer.len()];
        let mut place = 0xDEAD_BEEF;
        let number = (self.library)(table, lent, start, &mut place);
        let buffer = lent.to_vec();
        let after = guarded.split_off(GUARDS + buffer.len());
        let guards = [&guarded[..GUARDS], &after].concat();
        assert_eq!(
            guards,
            [GUARD; 2 * GUARDS],
            "a byte outside the buffer was changed"
        );
        Left {
            number,
            place,
            buffer,
        }
    }

    /// The call by the second program.
    pub fn by_second(&self, table: &[u8], mut buffer: Vec<u8>, start: usize) -> Left {
        let written = report(table, self.sought, self.method, &mut buffer, start);
        let (number, place) = match written {
            Ok(place) => (0, place),
            Err(refusal) => (refusal.number, refusal.place),
        };
        Left {
            number,
            place,
            buffer,
        }
    }

    /// Compares one call on a buffer of any bytes and counts its outcome: the status of an
    /// accepted report, or the refusal.
    pub fn compare(
        &self,
        seed: u64,
        table: &[u8],
        (length, start): (usize, usize),
        tally: &mut Tally,
    ) {
        let buffer = Random::new(seed ^ start as u64).bytes(length);
        let library = self.by_library(table, buffer.clone(), start);
        let second = self.by_second(table, buffer, start);
        let status = library.buffer.get(start.saturating_add(4));
        match (library.number, status) {
            (0, Some(status)) => tally.add(format!("status {status}")),
            (number, _) => tally.add_number(number),
        }
        let call = &format!("{} from {start} in a buffer of {length}", self.name);
        same(&Asked { call, seed, table }, library, second);
    }
}
