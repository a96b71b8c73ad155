//! The sample events: each gives the words, the JSON, the pages and the table that stand beside it.

use hainscope::Table;
use review::answer::Answer;
use review::event::Event;
use review::progress::Progress;
use review::{input, json, page, text, words};
use std::fs;
use std::path::{Path, PathBuf};

/// The folder of the sample events.
fn folder() -> PathBuf {
    Path::new(env!("CARGO_MANIFEST_DIR")).join("../../samples/events")
}

/// The names of the sample events.
fn names() -> Vec<String> {
    let entries = fs::read_dir(folder()).expect("the folder of the samples");
    let mut names: Vec<String> = entries
        .filter_map(|entry| entry.ok()?.file_name().into_string().ok())
        .filter_map(|file| Some(file.strip_suffix(".event")?.to_string()))
        .collect();
    names.sort();
    names
}

/// The file of a sample event that ends so.
fn file(name: &str, ending: &str) -> String {
    let path = folder().join(format!("{name}.{ending}"));
    fs::read_to_string(&path).unwrap_or_else(|error| panic!("{}: {error}", path.display()))
}

/// A sample event and its answer.
fn answered(name: &str) -> (Event, Answer) {
    let event = input::event(file(name, "event").as_bytes()).expect("a right text");
    let answer = Answer::to(&event, &Progress::hidden()).expect("an accepted table");
    (event, answer)
}

/// Each sample has, in the file of an ending, what is made of it.
fn hold(ending: &str, make: fn(&Event, &Answer) -> String) {
    assert_eq!(names(), ["accident", "bib-map", "marathon"]);
    for name in names() {
        let (event, answer) = answered(&name);
        let made = make(&event, &answer);
        assert!(
            made == file(&name, ending),
            "{name}.{ending} is not what is made:\n{made}"
        );
    }
}

#[test]
fn words_stand_beside_each_sample() {
    hold("words", words::explain);
}

#[test]
fn json_stands_beside_each_sample() {
    hold("json", json::explain);
}

#[test]
fn pages_stand_beside_each_sample() {
    hold("html", page::page);
    hold("publisher.html", page::publisher_page);
}

#[test]
fn a_sample_is_the_same_event_after_it_is_written() {
    for name in names() {
        let (event, _) = answered(&name);
        assert_eq!(
            text::read(text::write(&event).as_bytes()),
            Ok(event),
            "{name}"
        );
    }
}

#[test]
fn the_accident_is_one() {
    let (event, answer) = answered("accident");
    assert_eq!(answer.conflict.requests, [1, 2, 3]);
    assert_eq!(
        (answer.relaxation.requests, answer.left_out),
        (vec![1, 2], vec![3])
    );
    // each is fine beside either of the others
    let bytes = event.table();
    let table = Table::read(&bytes).expect("an accepted table");
    for pair in [[1, 2], [1, 3], [2, 3]] {
        assert_eq!(
            table.can_stand(pair.into_iter().collect()),
            Ok(true),
            "{pair:?}"
        );
    }
}

#[test]
fn the_bib_map_is_row_h() {
    let (event, _) = answered("bib-map");
    assert_eq!(event.table(), include_bytes!("../../../samples/h.table"));
}

#[test]
fn the_marathon_has_as_many_plug_ins_and_variables_as_can_be() {
    let (event, _) = answered("marathon");
    assert_eq!((event.plug_ins.len(), event.variables.len()), (64, 20));
}
