//! The exported functions, each with the most stack that was measured of it: a call is made on each
//! of the tables that go deepest.

use crate::deepest::plans;
use crate::painted::used;
use hainscope::{calls, MOST_REPORT_BYTES};
use made::plan::Plan;
use std::hint::black_box;

/// An exported function.
pub struct Exported {
    /// Its name.
    pub name: &'static str,
    /// The stack of one call on a plan's table. The safe function around the C function is inlined
    /// into `used`; where it were not, its frame would count too.
    call: fn(&Plan, &[u8]) -> usize,
}

/// A report's entry in the list of exported functions.
macro_rules! report {
    ($name:literal, $call:path) => {
        Exported {
            name: $name,
            call: |_, table| {
                let (mut report, mut place) = ([0; MOST_REPORT_BYTES], 0);
                used(|| {
                    black_box($call(table, &mut report, 0, &mut place));
                })
            },
        }
    };
}

/// All exported functions.
pub const EXPORTED: [Exported; 7] = [
    Exported {
        name: "hainscope_read",
        call: |_, table| {
            let mut place = 0;
            used(|| {
                black_box(calls::read(table, &mut place));
            })
        },
    },
    Exported {
        name: "hainscope_body",
        call: |plan, table| {
            let last = plan.rows.len() + 2;
            let (mut length, mut place) = (0, 0);
            used(|| {
                black_box(calls::body(table, last, &mut length, &mut place));
            })
        },
    },
    Exported {
        name: "hainscope_can_stand",
        call: |plan, table| {
            let above = 64 - u32::from(plan.requests);
            let all = u64::MAX.checked_shr(above).unwrap_or(0);
            let (mut stands, mut place) = (0, 0);
            used(|| {
                black_box(calls::can_stand(table, all, &mut stands, &mut place));
            })
        },
    },
    report!("hainscope_conflict", calls::conflict),
    report!("hainscope_conflict_one_by_one", calls::conflict_one_by_one),
    report!("hainscope_relaxation", calls::relaxation),
    report!(
        "hainscope_relaxation_one_by_one",
        calls::relaxation_one_by_one
    ),
];

impl Exported {
    /// The most stack of a call on the tables that go deepest.
    pub fn painted(&self) -> usize {
        let used = |plan: &Plan| (self.call)(plan, &plan.table());
        plans().iter().map(used).max().unwrap_or(0)
    }
}
