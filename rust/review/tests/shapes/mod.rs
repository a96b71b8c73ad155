//! Events of all shapes that a page must show, built by hand: each status, each kind of row, many
//! plug-ins, long names, names that try to break the page, and budgets that are given to.
#![allow(dead_code)] // each test uses some of them

use hainscope::{refuses, wants, Condition, Row};
use review::answer::Answer;
use review::event::{Event, EventRow};
use review::progress::Progress;

/// A name that tries to end the title and to run something.
pub const SCRIPT: &str = "</title><script>alert(1)</script>";
/// A name that tries to leave an attribute.
pub const QUOTES: &str = "\" onload='alert(2)' x=\"";
/// A name that is read from the right, with signs that stand on both sides.
pub const FROM_THE_RIGHT: &str = "מרוץ האביב (2026)";
/// A name of signs beyond the usual letters.
pub const SIGNS: &str = "🏃‍♀️ & 🏁 <5 km>";

/// Each shape with its name.
pub fn all() -> Vec<(&'static str, Event)> {
    vec![
        ("accident", accident()),
        ("bib-map", bib_map()),
        ("all-stand", all_stand()),
        ("host-fails", host_fails()),
        ("no-plug-ins", no_plug_ins()),
        ("one-fails", one_fails()),
        ("no-budget", no_budget()),
        ("negative", negative()),
        ("less-than-nothing", less_than_nothing()),
        ("shared", shared()),
        ("hostile", hostile()),
        ("long-names", long_names()),
        ("large", large()),
    ]
}

/// An event without rows, its plug-ins in the order of their names.
pub fn event(name: &str, variables: &[&str], plug_ins: &[&str]) -> Event {
    let owned = |names: &[&str]| names.iter().map(|name| name.to_string()).collect();
    Event {
        name: Some(name.to_string()),
        variables: owned(variables),
        plug_ins: owned(plug_ins),
        rows: Vec::new(),
        order: (1..).take(plug_ins.len()).collect(),
    }
}

/// The event with a clause more.
pub fn clause(mut event: Event, role: u16, literals: &[u16]) -> Event {
    let condition = Condition::Clause(literals.to_vec());
    event.rows.push(EventRow {
        row: Row { role, condition },
        budget: None,
    });
    event
}

/// The event with a budget more.
pub fn budget(mut event: Event, role: u16, of: &str, bound: i32, terms: &[(u16, i32)]) -> Event {
    let terms = terms.to_vec();
    let condition = Condition::Linear { bound, terms };
    event.rows.push(EventRow {
        row: Row { role, condition },
        budget: (!of.is_empty()).then(|| of.to_string()),
    });
    event
}

/// The library's answer to an event.
pub fn answer(event: &Event) -> Answer {
    Answer::to(event, &Progress::hidden()).expect("the event is within the limits")
}

/// Three plug-ins want 1500, 1400 and 1300 rows of a bib map of 4000.
pub fn accident() -> Event {
    let variables = ["tracking", "splits", "photos"];
    let plug_ins = ["Live tracking", "Split times", "Finish photos"];
    let event = event("Spring run", &variables, &plug_ins);
    let terms = [(0, 1500), (1, 1400), (2, 1300)];
    let event = budget(event, 0, "bib map rows", 4000, &terms);
    (1..=3).fold(event, |event, request| {
        clause(event, request, &[wants(request - 1)])
    })
}

/// Row H of the sample sheet, with names.
pub fn bib_map() -> Event {
    let variables = ["heats", "tracking", "photos", "laps"];
    let plug_ins = ["Heat lists", "Live tracking", "Finish photos", "Lap board"];
    let event = event("Row H", &variables, &plug_ins);
    let terms = [(0, 1200), (1, 900), (2, 2500), (3, 700)];
    let event = budget(event, 0, "bib map rows", 4000, &terms);
    let mut event = (1..=4).fold(event, |event, request| {
        clause(event, request, &[wants(request - 1)])
    });
    event.order = vec![2, 4, 1, 3];
    event
}

/// Two plug-ins that can stand together, and a third that requests nothing.
pub fn all_stand() -> Event {
    let event = event("A quiet day", &["gps", "wifi"], &["Map", "Chat", "Clock"]);
    let event = budget(event, 0, "batteries", 10, &[(0, 4), (1, 3)]);
    let event = clause(event, 1, &[wants(0)]);
    clause(event, 2, &[wants(0), wants(1)])
}

/// The host asks for what it does not allow.
pub fn host_fails() -> Event {
    let event = event("A host at odds", &["gps"], &["Map", "Chat"]);
    let event = budget(event, 0, "batteries", 3, &[(0, 4)]);
    let event = clause(event, 0, &[wants(0)]);
    clause(event, 1, &[wants(0)])
}

/// A host alone, without a name for its event and its budget.
pub fn no_plug_ins() -> Event {
    let mut event = event("", &["gps"], &[]);
    event.name = None;
    budget(event, 0, "", 5, &[(0, 3)])
}

/// A plug-in that fails by itself, beside one that does not.
pub fn one_fails() -> Event {
    let event = event("One too large", &["gps", "wifi"], &["Map", "Chat"]);
    let event = budget(event, 0, "batteries", 3, &[(0, 4), (1, 1)]);
    let event = clause(event, 1, &[wants(0)]);
    clause(event, 2, &[wants(1)])
}

/// Two plug-ins at odds over a switch, without any budget, and rows of every sort.
pub fn no_budget() -> Event {
    let event = event("At odds", &["gps", "wifi"], &["Map", "Chat", "Clock"]);
    let event = clause(event, 0, &[wants(0), refuses(1)]);
    let event = clause(event, 1, &[wants(1)]);
    let event = clause(event, 2, &[refuses(0), refuses(0)]);
    let event = clause(event, 2, &[]);
    let event = budget(event, 3, "", 5, &[]);
    budget(event, 3, "patience", -2, &[(0, -3), (1, 1)])
}

/// A budget to which two variables give, and one that nobody requests.
pub fn negative() -> Event {
    let variables = ["battery pack", "solar", "gps", "wifi", "screen"];
    let event = event("Power", &variables, &["Map", "Saver", "Chat", "Night mode"]);
    let terms = [(0, -300), (1, -120), (2, 400), (3, 300), (4, 250)];
    let event = budget(event, 0, "milliamperes", 500, &terms);
    let event = clause(event, 0, &[wants(4)]);
    let event = clause(event, 1, &[wants(2)]);
    let event = clause(event, 2, &[refuses(0)]);
    clause(event, 4, &[refuses(1)])
}

/// A budget with less than no room, which no setting meets.
pub fn less_than_nothing() -> Event {
    let event = event("Debts", &["gps", "wifi"], &["Map"]);
    let event = budget(event, 0, "batteries", -1000, &[(0, 400), (1, -200)]);
    let event = clause(event, 1, &[wants(0)]);
    budget(event, 0, "chairs", 0, &[])
}

/// Requests that several make, with a variable named twice and one that comes to nothing.
pub fn shared() -> Event {
    let variables = ["gps", "wifi", "screen"];
    let event = event("Shared", &variables, &["Map", "Chat", "Clock", "Lamp"]);
    let terms = [(0, 30), (1, 20), (0, 10), (2, 50), (2, -50)];
    let event = budget(event, 0, "batteries", 50, &terms);
    let event = clause(event, 0, &[wants(2)]);
    let event = clause(event, 1, &[wants(0), wants(0)]);
    let event = clause(event, 1, &[wants(0)]);
    let event = clause(event, 2, &[wants(0)]);
    let event = clause(event, 3, &[wants(1)]);
    clause(event, 4, &[wants(1)])
}

/// Names that try to be more than names.
pub fn hostile() -> Event {
    let variables = [SCRIPT, QUOTES, SIGNS];
    let plug_ins = [SCRIPT, QUOTES, FROM_THE_RIGHT, SIGNS];
    let event = event(SCRIPT, &variables, &plug_ins);
    let event = budget(event, 0, SCRIPT, 40, &[(0, 20), (1, 15), (2, 10)]);
    let event = budget(event, 0, FROM_THE_RIGHT, 30, &[(0, 20), (1, -15)]);
    let event = clause(event, 1, &[wants(0)]);
    let event = clause(event, 2, &[wants(1)]);
    clause(event, 3, &[wants(2), refuses(1)])
}

/// Names of 80 characters, with and without places to break them at.
pub fn long_names() -> Event {
    let unbroken = "W".repeat(80);
    let words = "A name of many words that somebody has written in order to see what happens then";
    let variable = "v".repeat(80);
    let event = event(&unbroken, &[&variable, "gps"], &[&unbroken, words]);
    let event = budget(event, 0, &unbroken, 4000, &[(0, 2500), (1, 2500)]);
    let event = clause(event, 1, &[wants(0)]);
    clause(event, 2, &[wants(1)])
}

/// As many plug-ins and variables as a table may have, and five budgets.
pub fn large() -> Event {
    let variables: Vec<String> = (0..20).map(|number| format!("feature {number}")).collect();
    let plug_ins: Vec<String> = (1..=64).map(|number| format!("Plug-in {number}")).collect();
    let mut large = event("A full house", &[], &[]);
    large.variables = variables;
    large.plug_ins = plug_ins;
    large.order = (1..=64).map(|place: u16| place * 27 % 64 + 1).collect();
    for number in 0..5 {
        let weight = |variable: u16| 100 + i32::from((variable * 37 + number * 11) % 50) * 20;
        let terms: Vec<(u16, i32)> = (0..20)
            .map(|variable| (variable, weight(variable)))
            .collect();
        let all: i32 = terms.iter().map(|(_, weight)| weight).sum();
        let name = format!("store {number}");
        large = budget(
            large,
            0,
            &name,
            all / 5 * (4 + i32::from(number % 3)),
            &terms,
        );
    }
    (1..=64).fold(large, |event, request| {
        clause(event, request, &[wants(request * 7 % 20)])
    })
}
