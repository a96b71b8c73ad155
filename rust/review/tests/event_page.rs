//! docs/EVENT.md and the program say the same: its texts are right, its mistakes are told in its
//! words, and its limits, its words of the language and its fields are the program's. That its commands
//! print what stands below them is held elsewhere.

use hainscope::{
    Table, MOST_LITERALS, MOST_REQUESTS, MOST_ROWS, MOST_TABLE_BYTES, MOST_TERMS, MOST_VARIABLES,
    MOST_WEIGHT,
};
use review::answer::Answer;
use review::input::{self, MOST_BYTES};
use review::json;
use review::names::{MOST_NAME, RESERVED};
use review::progress::Progress;
use review::text::{self, MOST_MISTAKES, MOST_STATEMENTS, MOST_WORDS};
use std::collections::BTreeSet;
use std::fs;
use std::path::Path;

/// The bytes of a file, named from the top folder.
fn bytes(name: &str) -> Vec<u8> {
    let top = Path::new(env!("CARGO_MANIFEST_DIR")).join("../..");
    fs::read(top.join(name)).unwrap()
}

/// The page.
fn page() -> String {
    String::from_utf8(bytes("docs/EVENT.md")).unwrap()
}

/// What stands between backquotes.
fn quoted(words: &str) -> Vec<&str> {
    words.split('`').skip(1).step_by(2).collect()
}

/// What stands after some words of the page, up to others.
fn between<'a>(page: &'a str, begin: &str, end: &str) -> &'a str {
    let after = page
        .split_once(begin)
        .unwrap_or_else(|| panic!("{begin}"))
        .1;
    after.split_once(end).unwrap_or_else(|| panic!("{end}")).0
}

#[test]
fn every_event_on_the_page_is_right() {
    let page = page();
    let events = page.split("```event\n").skip(1);
    let events: Vec<&str> = events.filter_map(|part| part.split("```").next()).collect();
    assert!(events.len() >= 8, "{}", events.len());
    for block in events {
        let event = text::read(block.as_bytes());
        let event = event.unwrap_or_else(|mistakes| panic!("{mistakes:?} in\n{block}"));
        assert!(Table::read(&event.table()).is_ok(), "{block}");
    }
}

#[test]
fn every_mistake_on_the_page_is_told_in_its_words() {
    let page = page();
    let mistakes = between(&page, "\n## Mistakes\n", "\n## ");
    let rows: Vec<&str> = mistakes
        .lines()
        .filter(|line| line.starts_with("| `"))
        .collect();
    assert!(rows.len() >= 5, "{}", rows.len());
    for row in rows {
        let [line, words] = quoted(row)[..] else {
            panic!("{row}");
        };
        let found = text::read(line.as_bytes()).unwrap_err();
        assert_eq!(found.told()[0].to_string(), words, "{line}");
    }
}

#[test]
fn the_words_of_the_language_are_those_of_the_page_and_of_its_grammar() {
    let page = page();
    let listed = quoted(between(&page, "The words of the language (", ")"));
    let mut reserved = RESERVED;
    reserved.sort_unstable();
    assert_eq!(listed, reserved);
    let grammar = between(&page, "\n### Grammar\n", "\nAll rows");
    let written: BTreeSet<&str> = grammar.split('"').skip(1).step_by(2).collect();
    let marks = ["#", ",", "-", ":"];
    let expected: BTreeSet<&str> = reserved.into_iter().chain(marks).collect();
    assert_eq!(written, expected);
}

#[test]
fn the_limits_of_the_page_are_those_of_the_program() {
    let page = page().replace('−', "-");
    let (least, most) = (i32::MIN, i32::MAX);
    let mebibytes = MOST_BYTES / (1024 * 1024);
    assert_eq!(mebibytes * 1024 * 1024, MOST_BYTES);
    for words in [
        format!("There are at most {MOST_VARIABLES}, numbered from 0 "),
        format!("Declares plug-ins, at most {MOST_REQUESTS}."),
        format!("A name has at most {MOST_NAME} characters; "),
        format!("a variable takes -{MOST_WEIGHT} to {MOST_WEIGHT}, "),
        format!("The number that is allowed is {least} to {most}."),
        format!("A row has at most {MOST_TERMS} terms;"),
        format!("A row has at most {MOST_LITERALS} literals "),
        format!("All rows together are at most {MOST_ROWS}, "),
        format!("the table of an event has at most {MOST_TABLE_BYTES} bytes."),
        format!("A line has at most {MOST_WORDS} words and marks "),
        format!("a text at most {MOST_STATEMENTS} statements,"),
        format!("An input of more than {mebibytes} MiB is not read."),
        format!("; at most {MOST_MISTAKES} at once."),
    ] {
        assert!(page.contains(&words), "not on the page: {words}");
    }
}

#[test]
fn the_fields_of_the_json_are_those_of_the_page() {
    let page = page();
    let fields = between(&page, "| field | what |", "\nStatus is");
    let fields: BTreeSet<&str> = fields
        .lines()
        .filter_map(|line| quoted(line).first().copied())
        .collect();
    let event = input::event(&bytes("samples/e.table")).unwrap();
    let answered = json::explain(&event, &Answer::to(&event, &Progress::hidden()).unwrap());
    let refused = json::no_event(&input::event(&bytes("samples/cut.table")).unwrap_err());
    let mistaken = json::no_event(&input::event(b"x").unwrap_err());
    for field in ["event", "answered", "order", "conflict", "relaxation"] {
        assert!(fields.contains(field) && answered.contains(&format!("\"{field}\": ")));
    }
    assert!(
        fields.contains("refusal") && refused.starts_with("{\"answered\": false, \"refusal\": {")
    );
    assert!(
        fields.contains("mistakes")
            && mistaken.starts_with("{\"answered\": false, \"mistakes\": [")
    );
    assert!(fields.contains("more") && mistaken.ends_with("], \"more\": false}\n"));
    assert_eq!(fields.len(), 8);
}
