//! Every statement of the grammar, broken at every word: left out, doubled, or another in its place.

use crate::{accepted, mistakes};
use review::text;
use std::collections::BTreeSet;

/// A text with every statement and every part that one may have, a word of the language, a name or a
/// mark being parted from the next by a space.
const RIGHT: [&str; 14] = [
    "event \"City run\"",
    "variables gps , wifi , \"chip reader\"",
    "variable spare",
    "plug-ins tracking , \"Split times\"",
    "plug-in photos",
    "host allows at most 100 of battery : gps takes 60 , wifi takes -30",
    "host allows at most 0 : nothing",
    "host requires gps on or wifi off",
    "host requires the impossible",
    "tracking requests gps on or \"chip reader\" off",
    "\"Split times\" requests at most 1 of \"radio sets\" : gps takes 1 , wifi takes 1",
    "photos requests the impossible",
    "most important first : \"Split times\" , photos",
    "then : tracking",
];

/// What stands in the place of a word.
const WRONG: [&str; 9] = [
    ",",
    ":",
    "unknown",
    "\"not known\"",
    "7",
    "on",
    "requests",
    "gps",
    "tracking",
];

/// The words of a line; those in quotes have one space at most.
fn words(line: &str) -> Vec<String> {
    let mut words: Vec<String> = Vec::new();
    for word in line.split(' ') {
        match words.last_mut() {
            Some(last) if last.starts_with('"') && !last.ends_with('"') => {
                *last = format!("{last} {word}");
            }
            _ => words.push(word.to_string()),
        }
    }
    words
}

/// All ways in which a line is broken at one word, or by leaving out two.
fn broken(line: &str) -> BTreeSet<String> {
    let right = words(line);
    let mut broken = BTreeSet::new();
    for place in 0..right.len() {
        let mut with = |words: &[&str], taken: usize| {
            let mut line = right.clone();
            let end = line.len().min(place + taken);
            line.splice(place..end, words.iter().map(|word| word.to_string()));
            broken.insert(line.join(" "));
        };
        with(&[], 1);
        with(&[], 2);
        with(&[&right[place], &right[place]], 1);
        WRONG.iter().for_each(|wrong| with(&[wrong], 1));
        WRONG.iter().for_each(|wrong| with(&[wrong], 0));
    }
    broken.remove(line);
    broken
}

/// The text with another line in the place of one.
fn text_with(place: usize, line: &str) -> String {
    let mut lines = RIGHT;
    lines[place] = line;
    lines.join("\n")
}

/// The broken lines with which the text is right, and says something else.
const STILL_RIGHT: [&str; 37] = [
    // No statement: nothing else uses the event's name, or this variable.
    "",
    // Another name for what is named here.
    "event \"not known\"",
    "event 7",
    "event gps",
    "event tracking",
    "event unknown",
    "variable \"not known\"",
    "variable 7",
    "variable tracking",
    "variable unknown",
    "host allows at most 100 of \"not known\" : gps takes 60 , wifi takes -30",
    "host allows at most 100 of 7 : gps takes 60 , wifi takes -30",
    "host allows at most 100 of gps : gps takes 60 , wifi takes -30",
    "host allows at most 100 of tracking : gps takes 60 , wifi takes -30",
    "host allows at most 100 of unknown : gps takes 60 , wifi takes -30",
    "\"Split times\" requests at most 1 of \"not known\" : gps takes 1 , wifi takes 1",
    "\"Split times\" requests at most 1 of 7 : gps takes 1 , wifi takes 1",
    "\"Split times\" requests at most 1 of gps : gps takes 1 , wifi takes 1",
    "\"Split times\" requests at most 1 of tracking : gps takes 1 , wifi takes 1",
    "\"Split times\" requests at most 1 of unknown : gps takes 1 , wifi takes 1",
    // A budget without a name.
    "host allows at most 100 : gps takes 60 , wifi takes -30",
    "\"Split times\" requests at most 1 : gps takes 1 , wifi takes 1",
    // Another number.
    "host allows at most 7 of battery : gps takes 60 , wifi takes -30",
    "host allows at most 100 of battery : gps takes 7 , wifi takes -30",
    "host allows at most 100 of battery : gps takes 60 , wifi takes 7",
    "host allows at most 7 : nothing",
    "\"Split times\" requests at most 7 of \"radio sets\" : gps takes 1 , wifi takes 1",
    "\"Split times\" requests at most 1 of \"radio sets\" : gps takes 7 , wifi takes 1",
    "\"Split times\" requests at most 1 of \"radio sets\" : gps takes 1 , wifi takes 7",
    // Another variable or plug-in, on for off.
    "host allows at most 100 of battery : gps takes 60 , gps takes -30",
    "host requires gps on or gps off",
    "host requires gps on or wifi on",
    "tracking requests gps on or gps off",
    "tracking requests gps on or \"chip reader\" on",
    "\"Split times\" requests at most 1 of \"radio sets\" : gps takes 1 , gps takes 1",
    "tracking requests at most 1 of \"radio sets\" : gps takes 1 , wifi takes 1",
    "tracking requests the impossible",
];

/// The lines that use what a line declares: those are wrong where it declares it no longer.
fn users_of(place: usize) -> &'static [usize] {
    match place {
        1 => &[5, 7, 9, 10],
        3 => &[9, 10, 12, 13],
        4 => &[11, 12],
        // The two lines of the order are looked at together.
        12 => &[13],
        13 => &[12],
        _ => &[],
    }
}

#[test]
fn the_text_is_right_before_it_is_broken() {
    accepted(&RIGHT.join("\n"));
    for (place, line) in RIGHT.iter().enumerate() {
        assert_eq!(words(line).join(" "), *line);
        assert!(broken(line).len() > 40, "line {place} is hardly broken");
    }
}

#[test]
fn every_statement_broken_at_every_word_gets_a_mistake_at_its_place() {
    let (mut right, mut wrong) = (BTreeSet::new(), 0);
    for (place, line) in RIGHT.iter().enumerate() {
        for broken in broken(line) {
            let text = text_with(place, &broken);
            if text::read(text.as_bytes()).is_ok() {
                assert!(STILL_RIGHT.contains(&broken.as_str()), "accepted: {broken}");
                accepted(&text);
                right.insert(broken);
                continue;
            }
            let lines: Vec<usize> = mistakes(text.as_bytes())
                .iter()
                .map(|mistake| mistake.line - 1)
                .collect();
            let fits = |line: &usize| *line == place || users_of(place).contains(line);
            assert!(lines.iter().all(fits), "{broken}: mistakes at {lines:?}");
            wrong += 1;
        }
    }
    assert_eq!(right.len(), STILL_RIGHT.len(), "refused, though right");
    assert!(wrong > 1_500, "only {wrong}");
}
