//! The answer in words, whatever its status is, and why there is none.

use review::answer::Answer;
use review::input::{self, NoEvent};
use review::progress::Progress;
use review::words;

/// What is told of a text.
fn told(text: &str) -> Vec<String> {
    let event = input::event(text.as_bytes()).expect("a right text");
    let answer = Answer::to(&event, &Progress::hidden()).expect("an accepted table");
    let words = words::explain(&event, &answer);
    words.lines().map(str::to_string).collect()
}

/// What is said of bytes that are no event.
fn said(bytes: &[u8]) -> Vec<String> {
    let wrong: NoEvent = input::event(bytes).expect_err("no event");
    words::no_event("some.event", &wrong)
}

#[test]
fn all_can_stand() {
    assert_eq!(
        told("plug-ins a, b"),
        [
            "In order of importance: a and b.",
            "All 2 plug-ins can stand together.",
            "Questions asked: 1 for the conflict, 1 for the best set.",
        ]
    );
    assert_eq!(told("plug-in a")[1], "The only plug-in can stand.");
    let none = told("# nothing");
    assert_eq!(
        none[0],
        "There are no plug-ins, and the host's rows can stand."
    );
}

#[test]
fn the_host_cannot_stand() {
    assert_eq!(
        told("event Night\nplug-ins a, b\nhost requires the impossible"),
        [
            "Event: Night.",
            "In order of importance: a and b.",
            "The host's own rows cannot stand, so no set of plug-ins can.",
            "Questions asked: 2 for the conflict, 2 for the best set.",
        ]
    );
}

#[test]
fn one_cannot_stand_by_itself() {
    assert_eq!(
        told("plug-ins a, b\nb requests the impossible\nmost important first: b, a"),
        [
            "In order of importance: b and a.",
            "Cannot stand, even alone (the preferred conflict): plug-in b.",
            "It is needed for the failure: without it, the host's rows can stand.",
            "The best set (the preferred relaxation): plug-in a.",
            "It leaves out plug-in b.",
            "Questions asked: 3 for the conflict, 4 for the best set.",
        ]
    );
    let lines = told("plug-in a\na requests the impossible");
    assert_eq!(
        lines[3],
        "The best set (the preferred relaxation): no plug-in."
    );
}

#[test]
fn two_cannot_stand_together() {
    let lines = told("variable x\nplug-ins a, b\na requests x on\nb requests x off");
    assert_eq!(
        lines[1],
        "Cannot stand together (the preferred conflict): plug-ins a and b."
    );
    assert_eq!(
        lines[2],
        "Each of them is needed for the failure: either can stand without the other."
    );
}

#[test]
fn a_refused_table_tells_its_reason_place_and_record() {
    assert_eq!(
        said(include_bytes!("../../../samples/h-damaged.table")),
        [
            "some.event: table refused (number 9) at byte 86, record 7 (the first is 0): \
          the words from the start of the table to the end of CHECK do not add to zero"
        ]
    );
    assert_eq!(
        said(include_bytes!("../../../samples/long.table")),
        ["some.event: table refused (number 1): the table has more than 32,768 bytes"]
    );
}

#[test]
fn each_mistake_of_a_text_is_a_line() {
    assert_eq!(
        said(b"variables a,\nhost\n"),
        [
            "some.event: line 1, column 13: expected a variable's name, \
             found the end of the line; a statement stands on one line",
            "some.event: line 2, column 5: expected \"allows\" or \"requires\" after \"host\", \
             found the end of the line",
        ]
    );
    let many = "wrong\n".repeat(30);
    let lines = said(many.as_bytes());
    assert_eq!(lines.len(), 21);
    assert_eq!(
        lines[20],
        "some.event: there may be more mistakes after these"
    );
}
