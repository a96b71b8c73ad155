//! Decoded reports: the crate's, by both methods, against the second program's answers.

use compare::{same, Asked, Tally};
use hainscope::{Method, Report, Sought, Status, Table};
use made::events::quick;
use second::methods::Answer;
use second::report::answer;
use second::rows::Event;

/// What is sought, by the crate's name and by the second program's.
const SOUGHT: [(Sought, second::methods::Sought); 2] = [
    (Sought::Conflict, second::methods::Sought::Conflict),
    (Sought::Relaxation, second::methods::Sought::Relaxation),
];

/// The methods, by the crate's name and by the second program's.
const METHODS: [(Method, second::methods::Method); 2] = [
    (Method::Halving, second::methods::Method::Halving),
    (Method::OneByOne, second::methods::Method::OneByOne),
];

/// The second program's answer as a decoded report.
fn expected(sought: Sought, answer: Answer) -> Report {
    Report {
        sought,
        status: match answer.status {
            0 => Status::AllCanStand,
            1 => Status::Conflict,
            _ => Status::HostCannotStand,
        },
        count: answer.count,
        requests: answer.set,
    }
}

#[test]
fn made_events() {
    let mut tally = Tally::new();
    for seed in 640_000..644_000 {
        let bytes = quick(seed).table();
        let table = Table::read(&bytes).expect("a plan's table is valid");
        let event = Event::of(&bytes).expect("the same table");
        for (sought, second_sought) in SOUGHT {
            for (method, second_method) in METHODS {
                let found = table.report_by(sought, method).expect("a report");
                let call = &format!("{sought:?} by {method:?}");
                let answer = answer(&event, second_sought, second_method);
                let table = &bytes;
                let asked = Asked { call, seed, table };
                tally.add(format!("{sought:?}: {:?}", found.status));
                same(&asked, found, expected(sought, answer));
            }
            let halving = table.report_by(sought, Method::Halving);
            assert_eq!(table.report(sought), halving, "seed {seed}");
        }
    }
    tally.print("decoded: made events");
    for (sought, _) in SOUGHT {
        tally.at_least(2_000, &format!("{sought:?}: AllCanStand"));
        tally.at_least(3_000, &format!("{sought:?}: Conflict"));
        tally.at_least(500, &format!("{sought:?}: HostCannotStand"));
    }
}
