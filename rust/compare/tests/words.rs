//! Reports in words: what each line says against the second program's questions, and the lines of
//! the sample sheet.

use compare::Tally;
use hainscope::{Sought, Table};
use made::events::quick;
use made::sheet::sheet;
use second::meaning::Granted;
use second::rows::Event;
use second::selection::{only, selection_of, NONE};

/// What a line says.
struct Claim {
    /// The sort of line.
    sort: &'static str,
    /// The selections that it speaks of.
    selections: Vec<u64>,
    /// Whether it says that they can stand.
    can_stand: bool,
}

/// What a line says of a table whose requests are in this order.
fn claim(line: &str, order: &[u16]) -> Claim {
    let finding = line.split(" (").next().unwrap_or(line);
    let numbers = finding.split(|letter: char| !letter.is_ascii_digit());
    let named: Vec<u16> = numbers.filter_map(|number| number.parse().ok()).collect();
    let all = || vec![selection_of(order)];
    let each = || order.iter().map(|request| only(*request)).collect();
    let of_all = format!("all {} requests can stand together", order.len());
    let (sort, selections, can_stand) = match finding {
        "all requests can stand together" => ("all", all(), true),
        "there are no requests, and the host's rows can stand" if order.is_empty() => {
            ("all of none", all(), true)
        }
        "the only request can stand" if order.len() == 1 => ("all of one", all(), true),
        _ if finding == of_all && order.len() > 1 => ("all of several", all(), true),
        "the host's own rows cannot stand" => ("host", vec![NONE], false),
        "no request can stand beside the host's rows" => ("none", each(), false),
        _ if finding.starts_with("request") && !named.is_empty() => {
            let cannot_stand = finding.contains(" cannot stand");
            let sort = match (cannot_stand, named.len()) {
                (true, 1) => "conflict of one",
                (true, _) => "conflict of several",
                (false, 1) => "relaxation of one",
                (false, _) => "relaxation of several",
            };
            (sort, vec![selection_of(&named)], !cannot_stand)
        }
        _ => panic!("{line}: no known sort of line for the order {order:?}"),
    };
    Claim {
        sort,
        selections,
        can_stand,
    }
}

#[test]
fn what_a_line_says_is_true() {
    let mut tally = Tally::new();
    for seed in 650_000..656_000 {
        let bytes = quick(seed).table();
        let table = Table::read(&bytes).expect("a plan's table is valid");
        let event = Event::of(&bytes).expect("the same table");
        let granted = Granted::by(&event);
        for sought in [Sought::Conflict, Sought::Relaxation] {
            let line = table.report(sought).expect("a report").to_string();
            let claim = claim(&line, &event.order);
            for selection in claim.selections {
                let can_stand = granted.can_stand(selection);
                assert_eq!(can_stand, claim.can_stand, "seed {seed}: {line}");
            }
            tally.add(claim.sort);
        }
    }
    tally.print("words: what a line says is true");
    tally.at_least(1_500, "all");
    tally.at_least(100, "all of none");
    tally.at_least(250, "all of one");
    tally.at_least(1_200, "all of several");
    tally.at_least(1_500, "host");
    tally.at_least(500, "none");
    tally.at_least(1_000, "conflict of one");
    tally.at_least(400, "conflict of several");
    tally.at_least(400, "relaxation of one");
    tally.at_least(1_000, "relaxation of several");
}

/// Rows of the sample sheet with their conflict and their relaxation in words.
const LINES: [(&str, &str, &str); 6] = [
    (
        "A",
        "all requests can stand together (1 question)",
        "there are no requests, and the host's rows can stand (1 question)",
    ),
    (
        "B",
        "the host's own rows cannot stand (1 question)",
        "the host's own rows cannot stand (1 question)",
    ),
    (
        "C",
        "the host's own rows cannot stand (2 questions)",
        "the host's own rows cannot stand (2 questions)",
    ),
    (
        "E",
        "requests 1 and 2 cannot stand together (preferred conflict, 4 questions)",
        "request 1 can stand, and no better set can (preferred relaxation, 3 questions)",
    ),
    (
        "G",
        "request 1 cannot stand beside the host's rows (preferred conflict, 3 questions)",
        "no request can stand beside the host's rows (preferred relaxation, 4 questions)",
    ),
    (
        "H",
        "requests 2, 4 and 3 cannot stand together (preferred conflict, 8 questions)",
        "requests 2, 4 and 1 can stand together, and no better set can \
         (preferred relaxation, 4 questions)",
    ),
];

#[test]
fn the_sample_sheet() {
    for (name, conflict, relaxation) in LINES {
        let row = sheet().into_iter().find(|row| row.name == name);
        let bytes = row.expect("a row of the sheet").plan.table();
        let table = Table::read(&bytes).expect("the table of a row");
        let line = |sought| table.report(sought).expect("a report").to_string();
        assert_eq!(line(Sought::Conflict), conflict, "row {name}");
        assert_eq!(line(Sought::Relaxation), relaxation, "row {name}");
    }
}
