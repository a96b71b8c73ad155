//! The head of a page: the event's name, and in one sentence how it stands with it.

use crate::page::html::Html;
use crate::page::told::Told;
use crate::sentences::{all_can_stand, HOST_CANNOT_STAND};
use hainscope::Status;

/// So many names are told in the sentence; more stand only in the list of the conflict.
const MOST_NAMES: usize = 6;

/// The heading and the verdict.
pub fn header(told: &Told) -> Html {
    let heading = Html::element("h1", &[], Html::name(told.title()));
    let class = match told.status() {
        Status::AllCanStand => "verdict stands",
        Status::Conflict | Status::HostCannotStand => "verdict fails",
    };
    let verdict = Html::element("p", &[("class", class)], verdict(told));
    Html::element("header", &[], heading.and(verdict))
}

/// How it stands with the event.
fn verdict(told: &Told) -> Html {
    match told.status() {
        Status::AllCanStand => Html::text(&all_can_stand(told.plug_ins.len())),
        Status::Conflict => conflict(told),
        Status::HostCannotStand => Html::text(HOST_CANNOT_STAND),
    }
}

/// Some plug-ins cannot.
fn conflict(told: &Told) -> Html {
    let members = told.those_of(&told.conflict.requests);
    let names = members.iter().map(|plug_in| Html::name(plug_in.name));
    let names = Html::listed(names.collect());
    match members.len() {
        1 => Html::text("The plug-in ")
            .and(names)
            .say(" cannot stand, even alone."),
        2..=MOST_NAMES => Html::text("The plug-ins ")
            .and(names)
            .say(" cannot stand together."),
        number => Html::text(&format!(
            "{number} of the {} plug-ins cannot stand together.",
            told.plug_ins.len()
        )),
    }
}
