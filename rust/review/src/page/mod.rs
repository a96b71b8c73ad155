//! The answer to an event as a page: one file that fetches nothing and runs nothing. A reviewer's page
//! shows the rows and budgets as well; a publisher's page shows what the reports tell, and no more.
//!
//! * `html` makes pieces of a page and escapes every text (`escape`); `document` frames them, `table`
//!   sets tables.
//! * `told` is what both pages may show; `verdict`, `sets` and `plug_in_table` are made from it alone.
//! * `claims` adds up who requests how much of a budget; `budgets`, `budget_words` and `bar` show it.
//! * `rows` tells every row in words.

mod bar;
mod budget_words;
mod budgets;
pub mod claims;
mod document;
mod escape;
mod html;
mod plug_in_table;
mod rows;
mod sets;
mod table;
mod told;
mod verdict;

use crate::answer::Answer;
use crate::event::Event;
use document::{paragraph, Document};
use html::Html;
use told::Told;

/// The style of every page.
const STYLE: &str = include_str!("style.css");
/// The style of what only a reviewer sees.
const REVIEW_STYLE: &str = include_str!("review.css");

/// How to read what both pages have.
const READING: &str = "The most important plug-in has rank 1. The conflict is reduced to what causes the failure, and \
    blames the most important plug-ins that it can; the best set gives up nothing important for something less important. \
    A question asks whether some plug-ins can stand together. Both sets, and the numbers of questions asked for them, come \
    from Hainscope's proved library.";
/// How to read the bars.
const READING_BARS: &str = "A bar shows who requests how much of a budget outright: from the left the host, and then the \
    plug-ins in the order of importance. The number in a segment is a rank, and what lies beyond the limit is hatched \
    across. A bar adds up and does not decide: what can stand is the library's answer alone.";

/// The reviewer's page of an event.
pub fn page(event: &Event, answer: &Answer) -> String {
    let told = Told::of(event, answer);
    let main = told_parts(&told)
        .and(budgets::budgets(event, &told))
        .and(rows::host_rows(event))
        .and(rows::plug_in_rows(event, &told));
    let footer = reading(READING).and(reading(READING_BARS));
    file(&told, &[STYLE, REVIEW_STYLE], main, footer)
}

/// The page of an event that its publishers may see: what the reports tell, and nothing of the rows.
pub fn publisher_page(event: &Event, answer: &Answer) -> String {
    publisher_file(&Told::of(event, answer))
}

/// The publisher's page is made from what is told, and can show nothing else.
fn publisher_file(told: &Told) -> String {
    file(told, &[STYLE], told_parts(told), reading(READING))
}

/// What both pages have.
fn told_parts(told: &Told) -> Html {
    verdict::header(told)
        .and(sets::sets(told))
        .and(plug_in_table::plug_in_table(told))
}

/// A paragraph on how to read the page.
fn reading(words: &str) -> Html {
    paragraph(Html::text(words))
}

/// The file of a page.
fn file(told: &Told, styles: &'static [&'static str], main: Html, footer: Html) -> String {
    let title = format!("{}: the conflict and the best set", told.title());
    Document {
        title: &title,
        styles,
        main,
        footer,
    }
    .file()
}
