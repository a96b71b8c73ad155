//! The exact words of mistakes, and their places: each statement, names, duplicates and the order.

use crate::shown;

/// Lines, each with the column and the words of its mistake below it.
const SAID: &str = include_str!("said.txt");

/// What is declared before a line that is tested; that is line 3.
const DECLARED: &str = "variables gps, wifi, \"chip reader\"\nplug-ins tracking, \"Split times\"\n";

/// What is said of some lines after the declarations.
fn said_of(lines: &str) -> Vec<String> {
    shown(&format!("{DECLARED}{lines}"))
}

#[test]
fn each_wrong_line_is_told_in_these_words() {
    let lines = SAID.lines();
    let lines: Vec<&str> = lines
        .filter(|line| !line.is_empty() && !line.starts_with('#'))
        .collect();
    for case in lines.chunks(2) {
        let expected = format!("line 3, {}", case[1].trim());
        assert_eq!(said_of(case[0]), [expected], "{}", case[0]);
    }
    assert!(lines.len() > 180, "only {} lines", lines.len());
}

#[test]
fn a_name_of_characters_that_cannot_be_one_is_told() {
    let spaces =
        "expected a name in the quotes, which neither is empty nor begins or ends with a space";
    let backslash =
        "a backslash in quotes stands before a quote or another backslash: \\\" or \\\\";
    let one_space = "between the words of a name stands one space, and no other white space";
    let unseen = "expected a name, found characters that nobody sees";
    for (line, column, words) in [
        ("variables \"y \"", 11, spaces),
        ("variables \" y\"", 11, spaces),
        ("variables \"y\u{a0}z\"", 13, one_space),
        ("variables \"\u{3000}y\"", 12, one_space),
        ("variables \"y\tz\"", 13, one_space),
        ("variables \"y  z\"", 14, one_space),
        ("variables \"y\\\tz\"", 13, backslash),
        ("variables \u{200d}", 11, unseen),
        ("variables \"\u{200d} \u{fe0f}\"", 11, unseen),
    ] {
        let expected = format!("line 3, column {column}: {words}");
        assert_eq!(said_of(line), [expected], "{line}");
    }
}

#[test]
fn the_order_is_looked_at_as_a_whole() {
    let orders = "most important first: tracking\nmost important first: \"Split times\"\n";
    assert_eq!(
        said_of(orders),
        [
            "line 3, column 1: the order leaves out \"Split times\"",
            "line 4, column 1: the order is begun twice, first on line 3; \"then:\" goes on with it",
        ]
    );
    let many: Vec<String> = (1..=64).map(|number| format!("p{number}")).collect();
    let said = shown(&format!(
        "plug-ins {}\nmost important first: p2",
        many.join(", ")
    ));
    assert_eq!(
        said,
        ["line 2, column 1: the order leaves out p1, p3, p4, p5, p6, p7 and 57 more"]
    );
}

#[test]
fn an_event_is_named_once() {
    assert_eq!(
        shown("event a\nevent b\nevent \"c d\""),
        [
            "line 2, column 7: the event is named twice, first on line 1",
            "line 3, column 7: the event is named twice, first on line 1",
        ]
    );
}

#[test]
fn names_that_are_known_are_told_where_none_is_near() {
    let none = "line 1, column 15: no variable is named gps; no variable is declared";
    assert_eq!(shown("host requires gps on"), [none]);
    let both = "variables maps\nplug-ins Maps\nmaps requests maps on";
    let hint = "it is a variable; the nearest plug-in is Maps";
    let expected = format!("line 3, column 1: no plug-in is named maps; {hint}");
    assert_eq!(shown(both), [expected]);
    let many = "variables a1, b2, c3, d4, e5, f6, g7, h8\nhost requires camera on";
    let listed = "known are a1, b2, c3, d4, e5, f6 and 2 more";
    let expected = format!("line 2, column 15: no variable is named camera; {listed}");
    assert_eq!(shown(many), [expected]);
}

#[test]
fn mistakes_of_a_later_step_are_told_where_there_are_none_of_an_earlier_one() {
    let length = "tracking requests gps off\n".repeat(600);
    let rows = format!("host requires camera on\n{length}");
    let declared = format!("variable gps\n{rows}");
    let words = format!("{declared}variables x y\n");
    assert_eq!(said_of(&words).len(), 1);
    assert!(said_of(&words)[0].starts_with("line 605, column 13: expected a comma"));
    assert_eq!(
        said_of(&declared),
        ["line 3, column 10: variable gps is declared twice, first on line 1"]
    );
    assert_eq!(
        said_of(&rows),
        [
            "line 3, column 15: no variable is named camera; known are gps, wifi and \"chip reader\"",
            "line 515, column 1: the 513th row, at most 512",
        ]
    );
}

#[test]
fn twenty_mistakes_are_told_and_no_more() {
    for (line, times) in [
        ("variables x y\n", 30),
        ("host requires x on\n", 21),
        ("event x\n", 25),
        (
            "most important first: x, x, x, x, x, x, x, x, x, x, x, x, x, x, x, x, x, x, x, x, x\n",
            1,
        ),
        (
            "variables x, x, x, x, x, x, x, x, x, x, x, x, x, x, x, x, x, x, x, x, x, x\n",
            1,
        ),
    ] {
        assert_eq!(shown(&line.repeat(times)).len(), 20, "{line}");
    }
    assert_eq!(shown(&"variables x y\n".repeat(19)).len(), 19);
}
