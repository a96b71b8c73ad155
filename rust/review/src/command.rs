//! What was asked for on the command line.

use crate::input::Source;
use std::ffi::OsString;

/// What is printed for wrong usage.
pub const USAGE: &str = include_str!("usage.txt");

/// What is printed for --help.
pub const HELP: &str = include_str!("help.txt");

/// What was asked for.
#[derive(Clone, Debug, PartialEq, Eq)]
pub enum Command {
    /// How the program is used.
    Help,
    /// To do something with an event.
    Do(Task, Source),
}

/// What is to be done with an event.
#[derive(Clone, Copy, Debug, PartialEq, Eq)]
pub enum Task {
    /// Tell the answer in words, or as JSON.
    Explain {
        /// As JSON.
        json: bool,
    },
    /// Make its page.
    Page {
        /// Only what a publisher may see.
        for_publisher: bool,
    },
    /// Write it as a table.
    Table,
    /// Write it as a text.
    Text,
}

/// The command of some arguments, the program's own name left out, if they are right.
pub fn command(arguments: &[OsString]) -> Option<Command> {
    let (first, others) = arguments.split_first()?;
    if first == "--help" && others.is_empty() {
        return Some(Command::Help);
    }
    let (mut options, mut sources, mut only_sources) = (Vec::new(), Vec::new(), false);
    for argument in others {
        let option =
            !only_sources && argument != "-" && argument.to_string_lossy().starts_with('-');
        match option {
            true if argument == "--" => only_sources = true,
            true => options.push(argument.to_str()?),
            false => sources.push(argument),
        }
    }
    let task = match (first.to_str()?, options.as_slice()) {
        ("explain", []) => Task::Explain { json: false },
        ("explain", ["--json"]) => Task::Explain { json: true },
        ("page", []) => Task::Page {
            for_publisher: false,
        },
        ("page", ["--for-publisher"]) => Task::Page {
            for_publisher: true,
        },
        ("table", []) => Task::Table,
        ("text", []) => Task::Text,
        _ => return None,
    };
    match sources.as_slice() {
        [source] if *source == "-" && !only_sources => {
            Some(Command::Do(task, Source::StandardInput))
        }
        [source] if !source.is_empty() => Some(Command::Do(task, Source::File(source.into()))),
        _ => None,
    }
}

#[cfg(test)]
mod tests {
    use super::*;

    fn asked(words: &[&str]) -> Option<Command> {
        let words: Vec<OsString> = words.iter().map(OsString::from).collect();
        command(&words)
    }

    #[test]
    fn right_usage_is_understood() {
        let file = |name: &str| Source::File(name.into());
        let json = Task::Explain { json: true };
        let page = Task::Page {
            for_publisher: true,
        };
        for (words, task, source) in [
            (
                &["explain", "a"][..],
                Task::Explain { json: false },
                file("a"),
            ),
            (&["explain", "--json", "a"], json, file("a")),
            (&["explain", "a", "--json"], json, file("a")),
            (
                &["page", "--for-publisher", "-"],
                page,
                Source::StandardInput,
            ),
            (&["table", "--", "-"], Task::Table, file("-")),
            (&["table", "--", "--json"], Task::Table, file("--json")),
            (&["text", "a b"], Task::Text, file("a b")),
        ] {
            assert_eq!(asked(words), Some(Command::Do(task, source)), "{words:?}");
        }
        assert_eq!(asked(&["--help"]), Some(Command::Help));
    }

    #[test]
    fn wrong_usage_is_seen() {
        for words in [
            &[][..],
            &["explain"],
            &["explain", ""],
            &["explain", "a", "b"],
            &["explain", "--for-publisher", "a"],
            &["explain", "--json", "--json", "a"],
            &["page", "--json", "a"],
            &["table", "--json", "a"],
            &["show", "a"],
            &["a"],
            &["--help", "a"],
            &["--version"],
        ] {
            assert_eq!(asked(words), None, "{words:?}");
        }
    }
}
