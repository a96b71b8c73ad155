//! What the program prints as JSON is JSON, whatever the names are, and says what it must.

mod strict;

use hainscope::Status;
use made::edges::edges;
use made::events::{any, SMALL};
use made::random::Random;
use review::answer::Answer;
use review::event::Event;
use review::input;
use review::json;
use review::progress::Progress;
use std::fs;
use std::path::Path;
use strict::{value, Value};

/// The JSON of an event's answer.
fn explained(event: &Event) -> String {
    json::explain(event, &Answer::to(event, &Progress::hidden()).unwrap())
}

/// The JSON of bytes that are no event.
fn refused(bytes: &[u8]) -> String {
    json::no_event(&input::event(bytes).unwrap_err())
}

/// The one value of what was printed, which ends with its line.
fn printed(json: &str) -> Value {
    let line = json.strip_suffix('\n').unwrap();
    assert!(!line.contains('\n'), "{line}");
    value(line).unwrap_or_else(|wrong| panic!("{wrong}: {line}"))
}

/// The bytes of a sample.
fn sample(name: &str) -> Vec<u8> {
    let samples = Path::new(env!("CARGO_MANIFEST_DIR")).join("../../samples");
    fs::read(samples.join(name)).unwrap()
}

#[test]
fn the_accident_is_explained_in_exactly_these_words() {
    let event = input::event(&sample("events/accident.event")).unwrap();
    let tracking = r#"{"request": 1, "name": "Live tracking"}"#;
    let splits = r#"{"request": 2, "name": "Split times"}"#;
    let photos = r#"{"request": 3, "name": "Finish photos"}"#;
    let expected = format!(
        "{{\"event\": \"Spring run\", \"answered\": true, \
         \"order\": [{tracking}, {splits}, {photos}], \
         \"conflict\": {{\"status\": 1, \"questions\": 6, \"plug_ins\": [{tracking}, {splits}, {photos}]}}, \
         \"relaxation\": {{\"status\": 1, \"questions\": 4, \"plug_ins\": [{tracking}, {splits}], \
         \"left_out\": [{photos}]}}}}\n"
    );
    assert_eq!(explained(&event), expected);
}

#[test]
fn a_refused_table_and_a_text_with_mistakes_are_told_in_exactly_these_words() {
    assert_eq!(
        refused(&sample("h-damaged.table")),
        "{\"answered\": false, \"refusal\": {\"number\": 9, \"place\": 86, \"record\": 7, \"reason\": \
         \"the words from the start of the table to the end of CHECK do not add to zero\"}}\n"
    );
    assert_eq!(
        refused(b"variables \"a b\", \"c\\\\d\"\nhost requires \"c\\\\\" on\nhost requires e on\n"),
        "{\"answered\": false, \"mistakes\": [\
         {\"line\": 2, \"column\": 15, \"words\": \"no variable is named c\\\\; the nearest is c\\\\d\"}, \
         {\"line\": 3, \"column\": 15, \"words\": \"no variable is named e; known are \\\"a b\\\" and c\\\\d\"}], \"more\": false}\n"
    );
}

#[test]
fn an_event_without_plug_ins_or_that_cannot_stand_is_told() {
    let nothing = Event::default();
    let none = "\"plug_ins\": []";
    assert_eq!(
        explained(&nothing),
        format!(
            "{{\"event\": null, \"answered\": true, \"order\": [], \
             \"conflict\": {{\"status\": 0, \"questions\": 1, {none}}}, \
             \"relaxation\": {{\"status\": 0, \"questions\": 1, {none}, \"left_out\": []}}}}\n"
        )
    );
    let impossible = input::event(b"plug-in a\nhost requires the impossible\n").unwrap();
    let said = printed(&explained(&impossible));
    assert_eq!(said.field("conflict").field("status"), &Value::Number(2));
    assert_eq!(said.field("relaxation").field("left_out").list().len(), 1);
}

/// Names that JSON has to write in another way, or that look as if it had.
const NAMES: [&str; 14] = [
    "\"",
    "\\",
    "\\\"",
    "\\n",
    "\\u0041",
    "a\"b\\c/d",
    "</script>",
    "\u{a0}x\u{3000}",
    "שלום",
    "é\u{301}",
    "👩\u{200d}👧",
    "\u{1}\u{7f}\u{9b}\t\r\n",
    "\u{2028}\u{2029}\u{feff}",
    "\u{10ffff}\u{fffd}",
];

/// The number of an answer's status.
fn status(answer: &Answer) -> usize {
    match answer.status() {
        Status::AllCanStand => 0,
        Status::Conflict => 1,
        Status::HostCannotStand => 2,
    }
}

#[test]
fn hostile_names_come_back_from_the_json() {
    let mut statuses = [0; 3];
    for seed in 0..600 {
        let mut random = Random::new(seed);
        let mut event = input::event(&any(&mut random, SMALL).table()).unwrap();
        for (number, name) in (seed as usize..).zip(&mut event.plug_ins) {
            *name += NAMES[number % NAMES.len()];
        }
        event.name = Some(random.pick(&NAMES).to_string());
        let answer = Answer::to(&event, &Progress::hidden()).unwrap();
        let said = printed(&json::explain(&event, &answer));
        assert_eq!(said.field("event").text(), event.name.as_ref().unwrap());
        let plug_in = |request: &u16| (u64::from(*request), event.plug_in(*request).to_string());
        let expected = |requests: &[u16]| requests.iter().map(plug_in).collect::<Vec<_>>();
        let told = |list: &Value| list.list().iter().map(Value::plug_in).collect::<Vec<_>>();
        let (conflict, relaxation) = (said.field("conflict"), said.field("relaxation"));
        assert_eq!(told(said.field("order")), expected(&event.order));
        assert_eq!(
            told(conflict.field("plug_ins")),
            expected(&answer.conflict.requests)
        );
        assert_eq!(
            told(relaxation.field("plug_ins")),
            expected(&answer.relaxation.requests)
        );
        assert_eq!(
            told(relaxation.field("left_out")),
            expected(&answer.left_out)
        );
        let status = status(&answer);
        statuses[status] += 1;
        for report in [conflict, relaxation] {
            assert_eq!(report.field("status"), &Value::Number(status as u64));
        }
    }
    assert!(statuses.iter().all(|times| *times > 50), "{statuses:?}");
}

#[test]
fn every_refusal_is_json_with_the_librarys_number_and_place() {
    let mut refusals = 0;
    for edge in edges().iter().filter(|edge| edge.number != 0) {
        let said = printed(&refused(&edge.table));
        assert_eq!(said.field("answered"), &Value::False, "{}", edge.name);
        let refusal = said.field("refusal");
        assert_eq!(
            refusal.field("number"),
            &Value::Number(u64::from(edge.number))
        );
        assert_eq!(refusal.field("place"), &Value::Number(edge.place as u64));
        assert!(!refusal.field("reason").text().is_empty());
        refusals += 1;
    }
    assert!(refusals > 30, "{refusals}");
}

#[test]
fn every_mistake_is_json_with_its_line_column_and_words() {
    for text in [
        "\" \\\\",
        "a\\ \"\\\"",
        "variables \"\u{202e}\"",
        "event x \u{7}",
        "event \"\t\"",
        "\u{9b}31m",
        "\\u0000 \u{fffd}\n,",
    ] {
        let said = printed(&refused(text.as_bytes()));
        let Err(input::NoEvent::Mistaken(mistakes)) = input::event(text.as_bytes()) else {
            panic!("{text}");
        };
        let told = said.field("mistakes").list();
        assert_eq!(told.len(), mistakes.told().len());
        for (said, mistake) in told.iter().zip(mistakes.told()) {
            assert_eq!(said.field("line"), &Value::Number(mistake.line as u64));
            assert_eq!(said.field("column"), &Value::Number(mistake.column as u64));
            assert_eq!(said.field("words").text(), &mistake.words);
        }
    }
}
