//! The reviewer's tool: an event in words, and its answer in words, as JSON and as a page.
//! No answer is found here: every set and every count is the proved library's.
//!
//! * `event` is what a table states, with names; `text` reads and writes it as a text
//!   (docs/EVENT.md), `names` says how a name stands in one, and `row_words` what a row asks.
//! * `answer` asks the library for both reports; `progress` shows that long work goes on.
//! * `words`, `json` and `page` tell the answer; `sentences` are those that they share.
//! * `command` is what was asked for on the command line, `input` the bytes of an event.
#![forbid(unsafe_code)]

pub mod answer;
pub mod command;
pub mod event;
pub mod input;
pub mod json;
pub mod names;
pub mod page;
pub mod progress;
pub mod row_words;
pub mod sentences;
pub mod text;
pub mod words;
