//! The bytes of an event, from a file or standard input, and telling a text from a table.

use crate::event::{read_table, Event};
use crate::names::may_stand_in_a_name;
use crate::text::{self, Mistakes};
use hainscope::Refusal;
use std::fs::File;
use std::io::{self, Read};
use std::path::PathBuf;

/// The most bytes that are read: more than the longest text of the longest table has.
pub const MOST_BYTES: u64 = 16 * 1024 * 1024;

/// Where an event stands.
#[derive(Clone, Debug, PartialEq, Eq)]
pub enum Source {
    /// In a file.
    File(PathBuf),
    /// In what standard input gives.
    StandardInput,
}

impl Source {
    /// Its name in a message. A file may be named by somebody else than who reads that: what a terminal
    /// would obey, or nobody would see, becomes the mark for what cannot be shown.
    pub fn name(&self) -> String {
        let hidden = |letter: char| !may_stand_in_a_name(letter);
        match self {
            Source::File(path) => path.display().to_string().replace(hidden, "\u{fffd}"),
            Source::StandardInput => "standard input".to_string(),
        }
    }

    /// Its bytes.
    ///
    /// # Errors
    ///
    /// Where it cannot be read, or has more than [`MOST_BYTES`].
    pub fn bytes(&self) -> io::Result<Vec<u8>> {
        let mut bytes = Vec::new();
        match self {
            Source::File(path) => File::open(path)?
                .take(MOST_BYTES + 1)
                .read_to_end(&mut bytes)?,
            Source::StandardInput => io::stdin().take(MOST_BYTES + 1).read_to_end(&mut bytes)?,
        };
        match bytes.len() as u64 > MOST_BYTES {
            true => Err(io::Error::other("more than 16 MiB, which no event has")),
            false => Ok(bytes),
        }
    }
}

/// Why some bytes are no event.
#[derive(Clone, Debug, PartialEq, Eq)]
pub enum NoEvent {
    /// They are a table, and the library refuses it; the number is that of the record at the place.
    Refused(Refusal, usize),
    /// They are a text with mistakes.
    Mistaken(Mistakes),
}

/// Reads bytes as a table or as a text, by what they are.
///
/// # Errors
///
/// Why they are no event.
pub fn event(bytes: &[u8]) -> Result<Event, NoEvent> {
    if is_table(bytes) {
        read_table(bytes).map_err(|refusal| NoEvent::Refused(refusal, refusal.record(bytes)))
    } else {
        text::read(bytes).map_err(NoEvent::Mistaken)
    }
}

/// Whether bytes are meant as a table: one of the first four, where a table has the length and the
/// kind of HEAD, is one that no text begins with, or there are none. A text in UTF-16 has such bytes
/// too, and is told by its byte order mark.
pub fn is_table(bytes: &[u8]) -> bool {
    let no_letter = |byte: &u8| byte.is_ascii_control() && !byte.is_ascii_whitespace();
    let begins_as_one = || bytes.iter().take(4).any(no_letter) && !text::is_utf_16(bytes);
    bytes.is_empty() || begins_as_one()
}

#[cfg(test)]
mod tests {
    use super::Source;

    #[test]
    fn a_message_tells_no_more_of_a_file_s_name_than_can_be_shown() {
        for (name, told) in [
            ("my events/Zürich 5.event", "my events/Zürich 5.event"),
            (
                "a\u{1b}[2J\u{9b}31m\nb\r.event",
                "a\u{fffd}[2J\u{fffd}31m\u{fffd}b\u{fffd}.event",
            ),
            ("tneve\u{202e}.txt", "tneve\u{fffd}.txt"),
        ] {
            assert_eq!(Source::File(name.into()).name(), told);
        }
    }
}
