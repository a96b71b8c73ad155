//! The reviewer's page: what it says of the accident and of every other shape of event.

mod shapes;
mod tags;

use review::event::Event;
use review::page::page;
use shapes::answer;
use tags::{classed, elements, texts, words, Element};

/// The elements of an event's page.
fn read(event: &Event) -> Vec<Element> {
    elements(&page(event, &answer(event))).expect("a well-formed page")
}

/// Says so where a page lacks words.
fn says(page: &[Element], sought: &str) {
    let words = words(page);
    assert!(words.contains(sought), "no “{sought}” in: {words}");
}

/// The pictures that are to be seen.
fn bars(page: &[Element]) -> Vec<&Element> {
    let is_bar = |element: &&Element| element.tag == "svg" && element.attribute("role") == "img";
    page.iter().filter(is_bar).collect()
}

#[test]
fn the_accident_is_seen_at_a_glance() {
    let page = read(&shapes::accident());
    assert_eq!(
        texts(&page, "title")[0],
        "Spring run: the conflict and the best set"
    );
    assert_eq!(texts(&page, "h1"), ["Spring run"]);
    let verdict =
        "The plug-ins Live tracking, Split times and Finish photos cannot stand together.";
    assert_eq!(classed(&page, "verdict"), [verdict]);
    says(
        &page,
        "Each of them is needed for the failure: without any one of them, the rest of them can stand.",
    );
    says(&page, "Left out: Finish photos.");
    says(&page, "6 questions asked.");
    says(&page, "4 questions asked.");
    says(
        &page,
        "All plug-ins: 4200 claimed of 4000: 200 beyond the limit",
    );
    says(&page, "The best set only: 2900 claimed of 4000: 1100 left");
    says(&page, "at most 4000 of \"bib map rows\": tracking takes 1500, splits takes 1400, photos takes 1300");
    assert_eq!(classed(&page, "key"), ["1", "2", "3", "1", "2"]);
    assert_eq!(bars(&page).len(), 2);
}

#[test]
fn what_is_beyond_begins_at_the_limit() {
    let page = read(&shapes::accident());
    let beyond: Vec<&Element> = page
        .iter()
        .filter(|element| element.tag == "rect" && element.attribute("class") == "beyond")
        .collect();
    let limit = page
        .iter()
        .find(|element| element.tag == "line" && element.attribute("class") == "limit");
    let limit = limit.expect("a limit").attribute("x1");
    assert_eq!(beyond.len(), 1, "only all plug-ins together are too many");
    assert_eq!(beyond[0].attribute("x"), limit);
    let place = 0.4 + 4000.0 / 4200.0 * 99.2;
    assert_eq!(limit, format!("{place:.3}%"));
}

#[test]
fn no_key_stands_on_the_limit() {
    let page = read(&shapes::bib_map());
    let place = |element: &Element, name: &str| -> f64 {
        let place = element.attribute(name).trim_end_matches('%');
        place.parse().expect("a part of the width")
    };
    let limit = page
        .iter()
        .find(|element| element.tag == "line" && element.attribute("class") == "limit");
    let limit = place(limit.expect("a limit"), "x1");
    let keys: Vec<&Element> = page
        .iter()
        .filter(|element| element.attribute("class") == "key")
        .collect();
    assert_eq!(keys.len(), 7);
    for key in keys {
        assert!((place(key, "x") - limit).abs() > 2.5, "{}", key.text);
    }
}

#[test]
fn every_plug_in_stands_in_the_table_by_importance() {
    let page = read(&shapes::bib_map());
    let rows = texts(&page, "tr");
    let expected = [
        "RankPlug-inThe conflictThe best set",
        "1Live trackingin the conflictin the best set",
        "2Lap boardin the conflictin the best set",
        "3Heat lists–in the best set",
        "4Finish photosin the conflictleft out",
        "RankPlug-inRequestsTakes",
        "1Live trackingtracking on900",
        "2Lap boardlaps on700",
        "3Heat listsheats on1200",
        "4Finish photosphotos on2500",
    ];
    assert_eq!(rows, expected);
    says(&page, "8 questions asked.");
    says(&page, "5300 claimed of 4000: 1300 beyond the limit");
}

#[test]
fn every_status_has_its_verdict() {
    let verdict = |event: Event| classed(&read(&event), "verdict").join("");
    assert_eq!(
        verdict(shapes::all_stand()),
        "All 3 plug-ins can stand together."
    );
    assert_eq!(
        verdict(shapes::host_fails()),
        "The host's own rows cannot stand, so no set of plug-ins can."
    );
    assert_eq!(
        verdict(shapes::no_plug_ins()),
        "There are no plug-ins, and the host's rows can stand."
    );
    assert_eq!(
        verdict(shapes::one_fails()),
        "The plug-in Map cannot stand, even alone."
    );
    assert_eq!(
        verdict(shapes::event("One", &[], &["Map"])),
        "The only plug-in can stand."
    );
    assert_eq!(
        verdict(shapes::large()),
        "15 of the 64 plug-ins cannot stand together."
    );
}

#[test]
fn two_bars_only_where_something_is_left_out() {
    let number = |event: Event| bars(&read(&event)).len();
    assert_eq!(number(shapes::all_stand()), 1);
    assert_eq!(number(shapes::host_fails()), 1);
    assert_eq!(number(shapes::one_fails()), 2);
    assert_eq!(number(shapes::no_budget()), 0);
    assert_eq!(number(shapes::large()), 10);
}

#[test]
fn rows_stand_under_their_owners() {
    let page = read(&shapes::no_budget());
    says(&page, "The host states no budget.");
    says(
        &page,
        "What the host allows and requires requires gps on or wifi off",
    );
    assert_eq!(
        texts(&page, "dd"),
        [
            "wifi on",
            "gps off or gps off",
            "the impossible",
            "at most 5: nothing",
            "at most -2 of patience: gps takes -3, wifi takes 1",
        ]
    );
    let page = read(&shapes::all_stand());
    says(&page, "3 Clock nothing, so it stands in nobody's way");
    says(
        &read(&shapes::event("Free", &[], &["Map"])),
        "it allows everything",
    );
}

#[test]
fn what_gives_and_what_nobody_requests_is_explained() {
    let page = read(&shapes::negative());
    says(&page, "1070 claimed of 920: 150 beyond the limit");
    assert!(texts(&page, "tr").contains(&"–the hostscreen on250".to_string()));
    says(
        &page,
        "Not counted, since nobody requests it outright: wifi on takes 300.",
    );
    says(
        &page,
        "battery pack gives 300 and solar gives 120, each where it is on. The bars count this as room, and as \
         taken where off is requested. So the host's limit of 500 stands at 920.",
    );
    let page = read(&shapes::less_than_nothing());
    says(&page, "400 claimed of -800: 1200 beyond the limit");
    says(&page, "wifi gives 200 where it is on. The bars count this as room, and as taken where off is requested.");
    says(&page, "0 claimed of 0: nothing left");
    says(&page, "Nobody requests any of it outright.");
    assert_eq!(classed(&page, "nothing"), ["", "0"]);
}

#[test]
fn a_limit_close_below_nothing_has_the_only_number() {
    let event = shapes::budget(shapes::accident(), 0, "", -10, &[(0, 400)]);
    let page = read(&event);
    says(&page, "400 claimed of -10: 410 beyond the limit");
    assert_eq!(classed(&page, "nothing"), [""]);
}

#[test]
fn a_request_that_several_make_counts_once() {
    let page = read(&shapes::shared());
    let rows = texts(&page, "tr");
    assert!(rows.contains(&"1Mapgps on40".to_string()), "{rows:?}");
    assert!(
        rows.contains(&"2Chatgps onshared with rank 1".to_string()),
        "{rows:?}"
    );
    assert!(
        rows.contains(&"4Lampwifi onshared with rank 3".to_string()),
        "{rows:?}"
    );
    says(&page, "60 claimed of 50: 10 beyond the limit");
}

#[test]
fn budgets_without_names_are_numbered() {
    let event = shapes::budget(shapes::no_plug_ins(), 0, "chairs", 2, &[]);
    let event = shapes::budget(event, 0, "", 3, &[]);
    let page = read(&event);
    assert_eq!(texts(&page, "h3"), ["Budget 1", "chairs", "Budget 3"]);
    assert_eq!(texts(&page, "h1"), ["An event"]);
    says(
        &page,
        "limit 5 Not counted, since nobody requests it outright: gps on takes 3. chairs",
    );
}

#[test]
fn every_picture_is_told_in_words() {
    for (name, event) in shapes::all() {
        let page = read(&event);
        for bar in bars(&page) {
            let told: Vec<&str> = bar.attribute("aria-labelledby").split(' ').collect();
            assert_eq!(told.len(), 2, "{name}");
            let tag = |identifier: &str| page.iter().find(|one| one.attribute("id") == identifier);
            for (identifier, expected) in told.into_iter().zip(["title", "desc"]) {
                let element = tag(identifier).expect("what tells a picture");
                assert_eq!(element.tag, expected, "{name}");
                assert!(!element.text.is_empty(), "{name}");
            }
        }
    }
    let page = read(&shapes::accident());
    assert!(texts(&page, "desc")[0]
        .contains("From the left: Live tracking 1500, Split times 1400, Finish photos 1300."));
}

#[test]
fn headings_go_down_by_one() {
    for (name, event) in shapes::all() {
        let page = page(&event, &answer(&event));
        let levels: Vec<u32> = page
            .match_indices("<h")
            .filter_map(|(place, _)| page[place + 2..].chars().next()?.to_digit(10))
            .collect();
        assert_eq!(levels[0], 1, "{name}");
        let far = levels.windows(2).find(|pair| pair[1] > pair[0] + 1);
        assert_eq!(far, None, "{name}");
        assert_eq!(
            levels.iter().filter(|level| **level == 1).count(),
            1,
            "{name}"
        );
    }
}
