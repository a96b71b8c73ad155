//! Names of every sort survive writing and reading: with spaces, quotes, backslashes and marks, words
//! of the language, numbers, letters of any script, and as long as a name may be.

use compare::Tally;
use made::events::{any, SMALL, WHOLE};
use made::plan::Plan;
use made::random::Random;
use review::event::Event;
use review::input::{self, MOST_BYTES};
use review::names::{MARKS, MOST_NAME, RESERVED};
use review::text;
use std::collections::BTreeSet;

/// What names are made of, beside the words of the language.
const PARTS: [&str; 38] = [
    " ",
    " ",
    "- -",
    "\"",
    "\"",
    "\\",
    "\\",
    "\\\\",
    "\\\"",
    "\\n",
    ",",
    ",",
    ":",
    "#",
    "'",
    "`",
    "-",
    "-5",
    "0",
    "2147483648",
    "/",
    "<b>",
    "&amp;",
    "{}",
    "%s",
    "$(x)",
    "gps",
    "Live",
    "Zürich",
    "e\u{301}",
    "ß",
    "İ",
    "漢字",
    "👟",
    "👩\u{200d}👧",
    "שלום",
    "مرحبا",
    "Ж",
];

/// A name of some parts, which may be of white space alone, or empty.
fn parts(random: &mut Random) -> String {
    let number = 1 + random.below(7);
    let part = |_| match random.chance(1, 3) {
        true => random.pick(&RESERVED),
        false => random.pick(&PARTS),
    };
    (0..number).map(part).collect()
}

/// A name, in some cases as long as a name may be.
fn name(random: &mut Random) -> String {
    let mut name = parts(random);
    while random.chance(1, 8) || name.trim().is_empty() {
        name = (0..40).map(|_| parts(random)).collect();
        name = name.trim_start().chars().take(MOST_NAME).collect();
    }
    let words: Vec<&str> = name.split_whitespace().collect();
    words.join(" ")
}

/// So many names of one sort, no two the same.
fn names(random: &mut Random, number: usize) -> Vec<String> {
    let mut names: Vec<String> = Vec::new();
    while names.len() < number {
        let name = name(random);
        if !names.contains(&name) {
            names.push(name);
        }
    }
    names
}

/// The event of a plan, with names.
fn named(random: &mut Random, plan: &Plan) -> Event {
    let mut event = input::event(&plan.table()).unwrap();
    event.variables = names(random, event.variables.len());
    event.plug_ins = names(random, event.plug_ins.len());
    event.name = random.chance(2, 3).then(|| name(random));
    for row in &mut event.rows {
        let is_budget = matches!(row.row.condition, hainscope::Condition::Linear { .. });
        row.budget = (is_budget && random.chance(2, 3)).then(|| name(random));
    }
    event
}

/// Counts what sort of name each of an event is.
fn count(event: &Event, tally: &mut Tally) {
    let budgets = event.rows.iter().filter_map(|row| row.budget.as_ref());
    let all = event.variables.iter().chain(&event.plug_ins);
    for name in all.chain(&event.name).chain(budgets) {
        let mut sorts = BTreeSet::new();
        let has = |letters: &[char]| name.contains(letters);
        sorts.extend(has(&MARKS).then_some("marks"));
        sorts.extend(has(&['\\']).then_some("backslash"));
        sorts.extend(has(&[' ']).then_some("space"));
        sorts.extend(name.ends_with('\\').then_some("backslash at the end"));
        sorts.extend(name.ends_with('"').then_some("quote at the end"));
        sorts.extend(RESERVED.contains(&name.as_str()).then_some("reserved"));
        sorts.extend(name.parse::<i64>().is_ok().then_some("number"));
        sorts.extend((name.chars().count() == MOST_NAME).then_some("longest"));
        sorts.extend((!name.is_ascii()).then_some("beyond ASCII"));
        sorts.into_iter().for_each(|sort| tally.add(sort));
    }
}

#[test]
fn hostile_names_survive_writing_and_reading() {
    let mut tally = Tally::new();
    for seed in 0..1_500 {
        let mut random = Random::new(seed);
        let sizes = random.pick(&[SMALL, SMALL, SMALL, WHOLE]);
        let plan = any(&mut random, sizes);
        let event = named(&mut random, &plan);
        count(&event, &mut tally);
        let written = text::write(&event);
        let again = text::read(written.as_bytes());
        assert_eq!(again.as_ref(), Ok(&event), "seed {seed}:\n{written}");
        assert_eq!(event.table(), plan.table(), "seed {seed}");
    }
    tally.print("hostile names");
    for (times, sort) in [
        (2_000, "marks"),
        (2_000, "backslash"),
        (2_000, "space"),
        (200, "backslash at the end"),
        (200, "quote at the end"),
        (200, "reserved"),
        (100, "number"),
        (200, "longest"),
        (2_000, "beyond ASCII"),
    ] {
        tally.at_least(times, sort);
    }
}

#[test]
fn the_longest_text_of_an_event_is_shorter_than_what_is_read() {
    let longest = |number: u32| {
        let last = char::from_u32(0x1F300 + number).unwrap();
        let mut name = "\u{1F45F} ".repeat(MOST_NAME / 2 - 1);
        name.extend(['\u{1F45F}', last]);
        name
    };
    let literals = vec![1; 64];
    let plan = (0..243).fold(Plan::empty(20, 64), |plan, _| plan.clause(64, &literals));
    assert!((32_600..=32_768).contains(&plan.table().len()));
    let mut event = input::event(&plan.table()).unwrap();
    event.variables = (0..20).map(longest).collect();
    event.plug_ins = (0..64).map(longest).collect();
    event.name = Some(longest(0));
    let written = text::write(&event);
    assert!(written.len() > 3_000_000, "{}", written.len());
    assert!((written.len() as u64) < MOST_BYTES / 2, "{}", written.len());
    assert_eq!(text::read(written.as_bytes()), Ok(event));
}

#[test]
fn a_name_may_have_80_characters_of_any_length_in_bytes_and_no_more() {
    for letter in ["x", "\\", "\"", "ü", "漢", "👟", "ش"] {
        for (length, right) in [(1, true), (80, true), (81, false)] {
            let name = letter.repeat(length);
            let event = Event {
                variables: vec![name.clone()],
                ..Event::default()
            };
            let again = text::read(text::write(&event).as_bytes());
            assert_eq!(again == Ok(event), right, "{length} of {letter}: {again:?}");
        }
    }
}
