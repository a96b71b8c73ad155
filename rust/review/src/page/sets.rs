//! The two sets of an answer: the conflict and the best set, each with what it means and how many
//! questions were asked for it.

use crate::names::counted;
use crate::page::document::{paragraph, section};
use crate::page::html::Html;
use crate::page::told::Told;
use crate::sentences::needed;
use hainscope::{Report, Status};

/// More plug-ins than these stand in columns.
const FEW: usize = 8;

/// The conflict and the best set.
pub fn sets(told: &Told) -> Html {
    let class = [("class", "sets")];
    Html::element("div", &class, conflict(told).and(best_set(told)))
}

/// The conflict: who cannot stand together, and that each is needed for it.
fn conflict(told: &Told) -> Html {
    let content = match told.status() {
        Status::AllCanStand => words("There is none: everything that is requested can be granted."),
        Status::HostCannotStand => words(
            "There is none among the plug-ins: the host's rows fail by themselves, whoever requests what.",
        ),
        Status::Conflict => {
            let conflict = &told.conflict.requests;
            list(told, conflict).and(words(needed(conflict.len())))
        }
    };
    let content = content.and(questions(told.conflict));
    section("conflict", "The conflict", content)
}

/// The best set: who can stand together, and who is left out.
fn best_set(told: &Told) -> Html {
    let content = match told.status() {
        Status::HostCannotStand => words("There is none: no set of plug-ins can stand."),
        _ if told.plug_ins.is_empty() => words("It is empty, since there are no plug-ins."),
        _ if told.relaxation.requests.is_empty() => {
            words("It is empty: no plug-in can stand, not even alone.").and(left_out(told))
        }
        _ => list(told, &told.relaxation.requests).and(left_out(told)),
    };
    let content = content.and(questions(told.relaxation));
    section("best-set", "The best set", content)
}

/// What the best set leaves out.
fn left_out(told: &Told) -> Html {
    let left_out = told.those_of(told.left_out);
    if left_out.is_empty() {
        return words("Nothing is left out.");
    }
    let names = left_out.iter().map(|plug_in| Html::name(plug_in.name));
    let names = Html::listed(names.collect());
    paragraph(Html::text("Left out: ").and(names).say("."))
}

/// The plug-ins of some requests, each with its rank.
fn list(told: &Told, requests: &[u16]) -> Html {
    let plug_ins = told.those_of(requests).into_iter();
    let items = plug_ins.map(|plug_in| Html::element("li", &[], plug_in.ranked()));
    let class = match requests.len() {
        0..=FEW => "set",
        _ => "set many",
    };
    let attributes = [("class", class), ("role", "list")]; // which a list without marks may lose
    Html::element("ul", &attributes, items.collect())
}

/// How many questions were asked for a report.
fn questions(report: &Report) -> Html {
    let number = usize::try_from(report.count).unwrap_or(usize::MAX);
    let asked = format!("{} asked.", counted(number, "question"));
    Html::element("p", &[("class", "quiet")], Html::text(&asked))
}

/// A paragraph of words.
fn words(words: &str) -> Html {
    paragraph(Html::text(words))
}
