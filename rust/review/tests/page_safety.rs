//! No name and no event breaks a page: hostile names stay text, a page fetches and runs nothing, and made
//! events, very large ones and impossible ones have pages that are well formed.

mod shapes;
mod tags;

use hainscope::{wants, Report, Sought, Status};
use made::events::quick;
use review::answer::Answer;
use review::event::read_table;
use review::page::{page, publisher_page};
use shapes::{answer, FROM_THE_RIGHT, QUOTES, SCRIPT, SIGNS};
use tags::{elements, texts, Element};

#[test]
fn a_page_fetches_and_runs_nothing() {
    for (name, event) in shapes::all() {
        let answer = answer(&event);
        for page in [page(&event, &answer), publisher_page(&event, &answer)] {
            let elements = elements(&page).unwrap_or_else(|wrong| panic!("{name}: {wrong}"));
            let policy = "default-src 'none'; style-src 'unsafe-inline'";
            let holds = |element: &Element| element.attribute("content") == policy;
            assert!(elements.iter().any(holds), "{name}");
            let cited = ["href", "src", "style", "action", "srcset"];
            let cites =
                |element: &Element| cited.iter().any(|name| !element.attribute(name).is_empty());
            assert!(!elements.iter().any(cites), "{name}");
            for fetched in ["://", "@import", "javascript:"] {
                assert!(!page.contains(fetched), "{name}: {fetched}");
            }
            assert_eq!(page.matches("<style>").count(), 1, "{name}");
        }
    }
}

#[test]
fn hostile_names_stand_only_as_text() {
    let event = shapes::hostile();
    let file = page(&event, &answer(&event));
    for hostile in [SCRIPT, QUOTES, SIGNS, "<script", "' x="] {
        assert!(!file.contains(hostile), "{hostile}");
    }
    let page = elements(&file).expect("a well-formed page");
    assert_eq!(texts(&page, "h1"), [SCRIPT]);
    let names = texts(&page, "bdi");
    for name in [SCRIPT, QUOTES, FROM_THE_RIGHT, SIGNS] {
        assert!(names.iter().any(|one| one == name), "{name}");
    }
}

#[test]
fn every_name_is_kept_apart() {
    let mut event = shapes::negative();
    let mark = |name: &mut String| *name = format!("@{name}@");
    event
        .variables
        .iter_mut()
        .chain(&mut event.plug_ins)
        .for_each(mark);
    let file = page(&event, &answer(&event));
    let body = file.split_once("<body>").expect("a body").1;
    for (place, _) in body.match_indices('@') {
        let before = &body[..place];
        let within =
            |tag: &str| before.rfind(&format!("<{tag}")) > before.rfind(&format!("</{tag}"));
        assert!(
            within("bdi") || within("desc"),
            "{}",
            &body[place..place + 20]
        );
    }
}

#[test]
fn made_events_have_well_formed_pages() {
    for seed in 0..500 {
        let event = read_table(&quick(seed).table()).expect("a plan's table is valid");
        let answer = answer(&event);
        for page in [page(&event, &answer), publisher_page(&event, &answer)] {
            elements(&page).unwrap_or_else(|wrong| panic!("seed {seed}: {wrong}"));
        }
    }
}

#[test]
fn as_many_budgets_as_rows_have_a_page() {
    let variables: Vec<String> = (0..20).map(|number| format!("feature {number}")).collect();
    let mut event = shapes::event("All rows", &[], &["Map"]);
    event.variables = variables;
    let terms: Vec<(u16, i32)> = (0..8).map(|variable| (variable, 1_000_000)).collect();
    for _ in 0..491 {
        event = shapes::budget(event, 0, "", i32::MAX, &terms);
    }
    let event = (0..20).fold(event, |event, variable| {
        shapes::clause(event, 1, &[wants(variable)])
    });
    let page = elements(&page(&event, &answer(&event))).expect("a well-formed page");
    assert_eq!(texts(&page, "figure").len(), 491);
}

#[test]
fn numbers_that_no_event_has_do_no_harm() {
    let mut event = shapes::accident();
    event.variables.truncate(1);
    event.plug_ins.truncate(1);
    event.order = vec![0, 9, 1, 65_535];
    let report = |sought| Report {
        sought,
        status: Status::Conflict,
        count: u32::MAX,
        requests: vec![7, 0, 9],
    };
    let answer = Answer {
        conflict: report(Sought::Conflict),
        relaxation: report(Sought::Relaxation),
        left_out: vec![8],
    };
    for page in [page(&event, &answer), publisher_page(&event, &answer)] {
        assert!(elements(&page).is_ok());
    }
}
