//! The publisher's page tells what the reports tell, and nothing else: it is the same, byte for byte, for
//! two events that differ in rows and variables alone, and no name of a variable or budget is in it.

mod shapes;
mod tags;

use hainscope::Status;
use made::events::quick;
use made::plan::Plan;
use made::random::Random;
use made::twins::twin;
use review::event::{read_table, Event};
use review::page::{page, publisher_page};
use shapes::answer;
use tags::{classed, elements, texts, words};

/// The event of a plan, with the same plug-ins whoever writes it, and other names for all else.
fn event(plan: &Plan, writer: &str) -> Event {
    let mut event = read_table(&plan.table()).expect("a plan's table is valid");
    event.name = Some("The same event".to_string());
    let plug_in = |number: usize| format!("Plug-in <{number}>");
    event.plug_ins = (1..=event.plug_ins.len()).map(plug_in).collect();
    let variable = |number| format!("{writer}-variable-{number}");
    event.variables = (0..event.variables.len()).map(variable).collect();
    for (number, row) in event.rows.iter_mut().enumerate() {
        row.budget = Some(format!("{writer}-budget-{number}"));
    }
    event
}

#[test]
fn twins_have_the_same_page() {
    let (mut conflicts, mut hosts, mut others) = (0, 0, 0);
    for seed in 0..200 {
        let plan = quick(seed);
        let other = twin(&mut Random::new(seed + 1_000_000), &plan);
        let (one, other) = (event(&plan, "alpha"), event(&other, "omega"));
        let (to_one, to_other) = (answer(&one), answer(&other));
        let shown = publisher_page(&one, &to_one);
        assert!(shown == publisher_page(&other, &to_other), "seed {seed}");
        for secret in ["alpha", "omega", "-variable-", "-budget-"] {
            assert!(!shown.contains(secret), "seed {seed}: {secret}");
        }
        others += usize::from(page(&one, &to_one) != page(&other, &to_other));
        conflicts += usize::from(to_one.status() == Status::Conflict);
        hosts += usize::from(to_one.status() == Status::HostCannotStand);
    }
    assert!(others >= 150, "{others} twins differ at all");
    assert!(conflicts >= 50 && hosts >= 10, "{conflicts}, {hosts}");
}

#[test]
fn nothing_of_rows_or_variables_is_in_it() {
    for (name, event) in shapes::all() {
        let file = publisher_page(&event, &answer(&event));
        let page = elements(&file).expect("a well-formed page");
        assert!(texts(&page, "svg").is_empty(), "{name}");
        assert_eq!(
            texts(&page, "table").len(),
            usize::from(!event.plug_ins.is_empty()),
            "{name}"
        );
        let headings = ["The conflict", "The best set", "All plug-ins"];
        assert_eq!(texts(&page, "h2"), headings, "{name}");
        assert!(texts(&page, "h3").is_empty(), "{name}");
        for hint in [
            "budget", "variable", "feature", "takes", "claim", "limit", "bar",
        ] {
            let told = words(&page).to_lowercase();
            assert!(!told.contains(hint), "{name}: {hint}");
            assert!(
                !file.contains(&format!(".{hint}")),
                "{name}: {hint} in the style"
            );
        }
    }
}

#[test]
fn no_name_of_a_variable_or_budget_is_in_it() {
    let event = shapes::accident();
    let answer = answer(&event);
    let (shown, whole) = (publisher_page(&event, &answer), page(&event, &answer));
    for secret in [
        "tracking on",
        "splits",
        "bib map",
        "4000",
        "1500",
        "1400",
        "1300",
    ] {
        assert!(!shown.contains(secret), "{secret}");
    }
    for secret in ["splits", "bib map", "4000", "1500"] {
        assert!(whole.contains(secret), "{secret}");
    }
}

#[test]
fn it_tells_what_the_reports_tell() {
    let event = shapes::accident();
    let page = elements(&publisher_page(&event, &answer(&event))).expect("a well-formed page");
    assert_eq!(texts(&page, "h1"), ["Spring run"]);
    let verdict =
        "The plug-ins Live tracking, Split times and Finish photos cannot stand together.";
    assert_eq!(classed(&page, "verdict"), [verdict]);
    let told = words(&page);
    for sought in [
        "6 questions asked.",
        "4 questions asked.",
        "Left out: Finish photos.",
    ] {
        assert!(told.contains(sought), "{sought}");
    }
    assert_eq!(texts(&page, "tr").len(), 4);
    assert_eq!(
        texts(&page, "tr")[3],
        "3Finish photosin the conflictleft out"
    );
}

#[test]
fn hostile_names_stand_only_as_text() {
    let event = shapes::hostile();
    let file = publisher_page(&event, &answer(&event));
    assert!(!file.contains("<script") && !file.contains(shapes::QUOTES));
    let page = elements(&file).expect("a well-formed page");
    assert_eq!(texts(&page, "h1"), [shapes::SCRIPT]);
}
