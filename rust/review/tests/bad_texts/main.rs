//! Wrong texts: each gets a message with its place, and none a panic, a long wait or a wrong meaning.

mod broken;
mod encoding;
mod limits;
mod messages;
mod noise;

use review::event::Event;
use review::text::{self, Mistake, MOST_MISTAKES};

/// The mistakes of a text, which has some. Each stands at a place of the text, and its words are one
/// short line.
fn mistakes(bytes: &[u8]) -> Vec<Mistake> {
    let name = || String::from_utf8_lossy(&bytes[..bytes.len().min(300)]).into_owned();
    let mistakes = match text::read(bytes) {
        Ok(event) => panic!("accepted as {event:?}: {}", name()),
        Err(mistakes) => mistakes.told().to_vec(),
    };
    let number = mistakes.len();
    assert!(
        (1..=MOST_MISTAKES).contains(&number),
        "{number}: {}",
        name()
    );
    let text = String::from_utf8_lossy(bytes);
    let mut lines: Vec<&str> = text.split('\n').collect();
    lines[0] = lines[0].trim_start_matches('\u{feff}');
    for mistake in &mistakes {
        let Mistake {
            line,
            column,
            words,
        } = mistake;
        let length = lines[line - 1].chars().count();
        assert!((1..=length + 1).contains(column), "{mistake}: {}", name());
        assert!(words.chars().count() < 800, "{mistake}: {}", name());
        assert!(!words.contains(char::is_control), "{mistake}: {}", name());
    }
    mistakes
}

/// The mistakes of a text as they are shown.
fn shown(text: &str) -> Vec<String> {
    let shown = |mistake: &Mistake| mistake.to_string();
    mistakes(text.as_bytes()).iter().map(shown).collect()
}

/// The event of a text without mistakes, whose table the library accepts.
fn accepted(text: &str) -> Event {
    let event = text::read(text.as_bytes());
    let event = event.unwrap_or_else(|mistakes| panic!("{mistakes:?} in {text}"));
    let table = event.table();
    let read = hainscope::Table::read(&table);
    assert!(read.is_ok(), "{:?}: {text}", read.err());
    event
}
