//! The sample sheet of document 01: rows A to K as plans, with the halving answers that it prints,
//! and the bytes of row H's table as the document writes them. Beside them stands a row of three
//! requests, a number that halving cuts into one and two.

use crate::plan::{refuses, wants, Plan};

/// What the sheet prints of a conflict or a relaxation: status, halving count, set.
pub type Printed = (u16, u32, &'static [u16]);

/// One row of the sheet.
pub struct SheetRow {
    /// A to K, or three.
    pub name: &'static str,
    /// Its table as a plan.
    pub plan: Plan,
    /// Its preferred conflict.
    pub conflict: Printed,
    /// Its preferred relaxation.
    pub relaxation: Printed,
}

/// The table of row H as the document prints it.
pub const H: &str = "04 00 01 00 04 00 04 00 / 1E 00 03 00 00 00 A0 0F 00 00 00 00 B0 04 00 00 \
    01 00 84 03 00 00 02 00 C4 09 00 00 03 00 BC 02 00 00 / 04 00 02 00 01 00 00 00 / \
    04 00 02 00 02 00 02 00 / 04 00 02 00 03 00 04 00 / 04 00 02 00 04 00 06 00 / \
    08 00 04 00 02 00 04 00 01 00 03 00 / 02 00 05 00 2D DB";

/// The bytes of row H's table.
pub fn h() -> Vec<u8> {
    let byte = |text| u8::from_str_radix(text, 16).ok();
    H.split_whitespace().filter_map(byte).collect()
}

/// The bib map of rows H and I: four plug-ins want 1200, 900, 2500 and 700 rows of it.
pub fn bib_map(bound: i32) -> Plan {
    let wanted = [(0, 1200), (1, 900), (2, 2500), (3, 700)];
    let mut plan = Plan::empty(4, 4).linear(0, bound, &wanted);
    for request in 1..=4 {
        plan = plan.clause(request, &[wants(request - 1)]);
    }
    plan.ordered(&[2, 4, 1, 3])
}

/// Rows A to K, and that of three requests, which want 1, 1 and 2 of a budget of 2.
pub fn sheet() -> Vec<SheetRow> {
    let x0 = wants(0);
    let not_x0 = refuses(0);
    let empty_clause = |requests, role| Plan::empty(0, requests).clause(role, &[]);
    let e = Plan::empty(1, 2).clause(1, &[x0]).clause(2, &[not_x0]);
    let f = e.clone().ordered(&[2, 1]);
    let g = Plan::empty(1, 2).clause(0, &[not_x0]);
    let g = g.clause(1, &[x0]).clause(2, &[x0]);
    let j = Plan::empty(1, 1).linear(0, 1, &[(0, 1), (0, 1)]);
    let k = Plan::empty(1, 1).linear(0, -1, &[(0, -3)]);
    let three = Plan::empty(3, 3).linear(0, 2, &[(0, 1), (1, 1), (2, 2)]);
    let three = (1..=3).fold(three, |plan, request| {
        plan.clause(request, &[wants(request - 1)])
    });
    vec![
        row("A", Plan::empty(0, 0), (0, 1, &[]), (0, 1, &[])),
        row("B", empty_clause(0, 0), (2, 1, &[]), (2, 1, &[])),
        row("C", empty_clause(1, 0), (2, 2, &[]), (2, 2, &[])),
        row("D", empty_clause(1, 1), (1, 2, &[1]), (1, 2, &[])),
        row("E", e, (1, 4, &[1, 2]), (1, 3, &[1])),
        row("F", f, (1, 4, &[2, 1]), (1, 3, &[2])),
        row("G", g, (1, 3, &[1]), (1, 4, &[])),
        row("H", bib_map(4000), (1, 8, &[2, 4, 3]), (1, 4, &[2, 4, 1])),
        row("I", bib_map(4100), (1, 7, &[2, 1, 3]), (1, 4, &[2, 4, 1])),
        row("J", j.clause(1, &[x0]), (1, 2, &[1]), (1, 2, &[])),
        row("K", k.clause(1, &[not_x0]), (1, 2, &[1]), (1, 2, &[])),
        row("three", three, (1, 6, &[1, 3]), (1, 4, &[1, 2])),
    ]
}

/// A row of the sheet.
fn row(name: &'static str, plan: Plan, conflict: Printed, relaxation: Printed) -> SheetRow {
    SheetRow {
        name,
        plan,
        conflict,
        relaxation,
    }
}
