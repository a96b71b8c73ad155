//! Bytes that are no text, characters that cannot stand in one, and texts that end too soon.

use crate::{accepted, mistakes, shown};
use review::input::{self, NoEvent};
use review::text;
use std::ffi::OsStr;
use std::fs;
use std::path::Path;

const RIGHT: &str = "variables gps, \"Zürich — 中\"\nplug-in a\na requests gps on\n";

/// What is said of bytes, as the program reads them.
fn said(bytes: &[u8]) -> Vec<String> {
    match input::event(bytes) {
        Err(NoEvent::Mistaken(mistakes)) => mistakes
            .told()
            .iter()
            .map(|told| told.to_string())
            .collect(),
        other => panic!("{other:?} of {bytes:?}"),
    }
}

#[test]
fn bytes_that_are_not_utf_8_are_told_with_their_place() {
    for (bytes, place, byte) in [
        (&b"\xFF"[..], "line 1, column 1", "0xFF"),
        (b"variables Z\xFCrich", "line 1, column 12", "0xFC"),
        (b"variables gps\n\x80", "line 2, column 1", "0x80"),
        (b"# \xC3\xBC\xC3\xBC\xC3\r\n", "line 1, column 5", "0xC3"),
        (b"# overlong \xC0\xAF", "line 1, column 12", "0xC0"),
        (b"# overlong \xE0\x80\xAF", "line 1, column 12", "0xE0"),
        (b"# surrogate \xED\xA0\x80", "line 1, column 13", "0xED"),
        (b"# beyond \xF4\x90\x80\x80", "line 1, column 10", "0xF4"),
        (b"# cut \xE2\x80", "line 1, column 7", "0xE2"),
        (b"\xEF\xBB\xBF# mark \xFE", "line 1, column 8", "0xFE"),
        (b"\xEF\xBB", "line 1, column 1", "0xEF"),
    ] {
        let expected = format!("{place}: expected a text in UTF-8, found the byte {byte}");
        assert_eq!(said(bytes), [expected]);
    }
}

#[test]
fn a_text_in_utf_16_is_told() {
    let units: Vec<u16> = RIGHT.encode_utf16().collect();
    let little = units.iter().flat_map(|unit| unit.to_le_bytes());
    let big = units.iter().flat_map(|unit| unit.to_be_bytes());
    let expected = ["line 1, column 1: expected a text in UTF-8, found one in UTF-16"];
    assert_eq!(
        said(
            &[0xFF, 0xFE]
                .into_iter()
                .chain(little.clone())
                .collect::<Vec<u8>>()
        ),
        expected
    );
    assert_eq!(
        said(&[0xFE, 0xFF].into_iter().chain(big).collect::<Vec<u8>>()),
        expected
    );
    let bytes: Vec<u8> = little.collect();
    assert!(matches!(input::event(&bytes), Err(NoEvent::Refused(_, 0))));
}

#[test]
fn line_ends_of_either_sort_and_a_byte_order_mark_change_nothing() {
    let event = accepted(RIGHT);
    let ends = RIGHT.replace('\n', "\r\n");
    assert_eq!(accepted(&ends), event);
    assert_eq!(accepted(ends.trim_end()), event);
    assert_eq!(accepted(&format!("\u{feff}{RIGHT}")), event);
    assert_eq!(accepted(&format!("\u{feff}{ends}")), event);
    assert_eq!(accepted(RIGHT.trim_end()), event);
    let mark = "line 1, column 1: the character U+FEFF cannot stand in a text";
    assert_eq!(shown(&format!("\u{feff}\u{feff}{RIGHT}")), [mark]);
}

#[test]
fn columns_after_a_byte_order_mark_and_wide_letters_count_characters() {
    let wrong = "variables \"Zürich — 中👟\" x\r\n";
    let expected = "column 25: expected a comma and a further name, or the end of the line, \
        found x; a name of several words stands in quotes, \"like this\"";
    assert_eq!(shown(wrong), [format!("line 1, {expected}")]);
    assert_eq!(
        shown(&format!("\u{feff}{wrong}")),
        [format!("line 1, {expected}")]
    );
    assert_eq!(
        shown(&format!("\r\n\n{wrong}")),
        [format!("line 3, {expected}")]
    );
    let tabs = shown("\t\t\u{a0}event\t");
    assert_eq!(
        tabs,
        ["line 1, column 9: expected the event's name, found the end of the line"]
    );
}

#[test]
fn white_space_of_any_sort_parts_words() {
    let event = accepted("variables gps, wifi\nhost requires gps on or wifi off\n");
    for space in [
        "  ",
        "\t",
        "\u{a0}",
        "\u{2009}",
        "\u{202f}",
        "\u{3000}",
        " \t \u{a0} ",
    ] {
        let spaced = "variables gps ,wifi\nhost requires gps on or wifi off\n".replace(' ', space);
        assert_eq!(
            accepted(&format!("{space}{spaced}{space}")),
            event,
            "{space:?}"
        );
    }
    assert_eq!(
        accepted("variables\"gps\",\"wifi\"\nhost requires\"gps\"on or\"wifi\"off#x"),
        event
    );
}

#[test]
fn characters_that_nobody_sees_cannot_stand_anywhere_in_a_text() {
    for letter in "\0\u{1}\u{7}\u{8}\u{b}\u{c}\r\u{1b}\u{7f}\u{80}\u{85}\u{9f}\u{ad}\u{34f}\u{61c}\u{115f}\u{1160}\
        \u{180e}\u{200b}\u{200e}\u{200f}\u{2028}\u{2029}\u{202a}\u{202b}\u{202c}\u{202d}\u{202e}\u{2060}\
        \u{2066}\u{2067}\u{2068}\u{2069}\u{206f}\u{2800}\u{3164}\u{feff}\u{ffa0}\u{fff9}\u{e0001}\u{e007f}"
        .chars()
    {
        let code = u32::from(letter);
        for (text, column) in [
            (format!("gps{letter} on"), 4),
            (format!("variables \"a{letter}b\""), 13),
            (format!("variables \"a\\{letter}b\""), 14),
            (format!("variables {letter} "), 11),
            (format!("variables gps # {letter}a"), 17),
            (format!("event {letter}\r"), 7),
        ] {
            let words = format!("the character U+{code:04X} cannot stand in a text");
            let expected = format!("line 2, column {column}: {words}");
            assert_eq!(shown(&format!("event a\n{text}\n")), [expected], "{text:?}");
        }
    }
}

#[test]
fn letters_and_joiners_of_all_scripts_can_stand_in_a_name() {
    for name in [
        "Zürich",
        "e\u{301}",
        "می\u{200c}خواهم",
        "👩\u{200d}👧",
        "❤\u{fe0f}",
        "葛\u{e0100}",
        "שלום",
        "ไทย",
        "№",
        "½",
        "-",
    ] {
        for written in [name.to_string(), format!("\"{name}\"")] {
            assert_eq!(
                accepted(&format!("event {written}")).name.as_deref(),
                Some(name)
            );
        }
    }
}

#[test]
fn a_sample_event_cut_at_any_byte_is_an_event_or_has_mistakes_at_its_places() {
    let folder = Path::new(env!("CARGO_MANIFEST_DIR")).join("../../samples/events");
    let (mut whole, mut wrong) = (0, 0);
    for file in fs::read_dir(folder).unwrap() {
        let path = file.unwrap().path();
        if path.extension() != Some(OsStr::new("event")) {
            continue;
        }
        let bytes = fs::read(path).unwrap();
        for length in 0..bytes.len() {
            match text::read(&bytes[..length]) {
                Ok(_) => whole += 1,
                Err(_) if length % 16 == 0 => wrong += mistakes(&bytes[..length]).len(),
                Err(_) => wrong += 1,
            }
        }
    }
    assert!(whole > 100 && wrong > 2_000, "{whole} and {wrong}");
}
