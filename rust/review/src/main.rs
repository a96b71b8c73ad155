//! The program `hainscope-review`: what an event's answer is, in words, as JSON and as a page, and
//! events from text to table and back.
#![forbid(unsafe_code)]

use review::answer::Answer;
use review::command::{command, Command, Task, HELP, USAGE};
use review::event::Event;
use review::input::{self, NoEvent, Source};
use review::progress::Progress;
use review::{json, page, text, words};
use std::env;
use std::ffi::OsString;
use std::io::{self, IsTerminal, Write};
use std::process::ExitCode;

/// Why the program ends without what it was asked for.
enum Stopped {
    /// The event is refused; what is printed and what is said of it.
    Refused { printed: String, said: Vec<String> },
    /// Wrong usage, or an input or an output that fails.
    Failed(String),
}

fn main() -> ExitCode {
    let arguments: Vec<OsString> = env::args_os().skip(1).collect();
    let result = match command(&arguments) {
        None => Err(Stopped::Failed(USAGE.trim_end().to_string())),
        Some(Command::Help) => print(HELP.as_bytes()),
        Some(Command::Do(task, source)) => run(task, &source).and_then(|made| print(&made)),
    };
    let (status, said) = match result {
        Ok(()) => (0, Vec::new()),
        Err(Stopped::Failed(words)) => (2, vec![words]),
        Err(Stopped::Refused { printed, said }) => match print(printed.as_bytes()) {
            Err(Stopped::Failed(words)) => (2, vec![words]),
            _ => (1, said),
        },
    };
    for line in said {
        let _ = writeln!(io::stderr(), "hainscope-review: {line}");
    }
    ExitCode::from(status)
}

/// What is to be printed.
fn run(task: Task, source: &Source) -> Result<Vec<u8>, Stopped> {
    if task == Task::Table && io::stdout().is_terminal() {
        let words = "a table is bytes, and no text: send it to a file";
        return Err(Stopped::Failed(words.to_string()));
    }
    let bytes = source
        .bytes()
        .map_err(|error| Stopped::Failed(format!("{} cannot be read: {error}", source.name())))?;
    let event = input::event(&bytes).map_err(|wrong| refused(task, source, &wrong))?;
    let answer = || answer(task, source, &event);
    Ok(match task {
        Task::Explain { json: false } => words::explain(&event, &answer()?).into_bytes(),
        Task::Explain { json: true } => json::explain(&event, &answer()?).into_bytes(),
        Task::Page {
            for_publisher: false,
        } => page::page(&event, &answer()?).into_bytes(),
        Task::Page {
            for_publisher: true,
        } => page::publisher_page(&event, &answer()?).into_bytes(),
        Task::Table => event.table(),
        Task::Text => text::write(&event).into_bytes(),
    })
}

/// The library's answer to an event.
fn answer(task: Task, source: &Source, event: &Event) -> Result<Answer, Stopped> {
    Answer::to(event, &Progress::on_terminal()).map_err(|refusal| {
        let record = refusal.record(&event.table());
        refused(task, source, &NoEvent::Refused(refusal, record))
    })
}

/// What becomes of an event that is refused.
fn refused(task: Task, source: &Source, wrong: &NoEvent) -> Stopped {
    let printed = match task {
        Task::Explain { json: true } => json::no_event(wrong),
        _ => String::new(),
    };
    let said = words::no_event(&source.name(), wrong);
    Stopped::Refused { printed, said }
}

/// Prints something, all of it.
fn print(bytes: &[u8]) -> Result<(), Stopped> {
    let mut out = io::stdout();
    let written = out.write_all(bytes).and_then(|()| out.flush());
    written.map_err(|error| Stopped::Failed(format!("the output cannot be written: {error}")))
}
