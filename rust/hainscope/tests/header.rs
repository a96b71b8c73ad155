//! The C header and this crate name the same refusals by the same numbers, and have the same limits.

use hainscope::{Reason, Refusal, MOST_REPORT_BYTES, MOST_REQUESTS};

const HEADER: &str = include_str!("../../../include/hainscope.h");

/// The number that a line of the header gives to a name: `NAME = number` or `#define NAME number`.
fn number_of(name: &str) -> Option<usize> {
    HEADER.lines().find_map(|line| {
        let line = line.replace([',', '='], " ");
        let mut words = line
            .split_whitespace()
            .skip_while(|word| *word == "#define");
        (words.next() == Some(name)).then(|| words.next()?.parse().ok())?
    })
}

/// A reason's name as a constant of the header: `NoRoom` is `HAINSCOPE_NO_ROOM`.
fn constant(reason: Reason) -> String {
    let mut name = "HAINSCOPE".to_string();
    for letter in format!("{reason:?}").chars() {
        if letter.is_uppercase() {
            name.push('_');
        }
        name.push(letter.to_ascii_uppercase());
    }
    name
}

#[test]
fn reasons_have_the_same_names_and_numbers() {
    let reason = |number| Refusal { number, place: 0 }.reason();
    let listed = (1..100).filter(|number| reason(*number) != Reason::Unlisted);
    let listed: Vec<u32> = listed.collect();
    assert!(listed.len() >= 13);
    for number in &listed {
        let name = constant(reason(*number));
        assert_eq!(number_of(&name), Some(*number as usize), "{name}");
    }
    let from = HEADER.find("enum hainscope_refusal {").unwrap();
    let length = HEADER[from..].find('}').unwrap();
    let named = HEADER[from..from + length].matches(" = ").count();
    assert_eq!(named, listed.len() + 1, "the refusals and 0");
}

#[test]
fn limits_are_the_same() {
    assert_eq!(
        number_of("HAINSCOPE_MOST_REQUESTS"),
        Some(usize::from(MOST_REQUESTS))
    );
    assert_eq!(MOST_REPORT_BYTES, 12 + 2 * usize::from(MOST_REQUESTS));
    assert!(
        HEADER.contains("#define HAINSCOPE_REPORT_ROOM(requests) (12 + 2 * (size_t)(requests))")
    );
}
