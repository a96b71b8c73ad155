//! What an answer tells, and nothing else: the plug-ins' names and order, and the two reports.
//! A publisher may see all of it. It has no rows and no variables, so that no part that is made from
//! it can show any.

use crate::answer::Answer;
use crate::event::Event;
use crate::page::html::Html;
use hainscope::{Report, Status};

/// What an answer tells.
#[derive(Clone, Debug, PartialEq, Eq)]
pub struct Told<'a> {
    /// The event's own name, if it has one.
    pub name: Option<&'a str>,
    /// The plug-ins, most important first.
    pub plug_ins: Vec<PlugIn<'a>>,
    /// The report on the conflict.
    pub conflict: &'a Report,
    /// The report on the best set.
    pub relaxation: &'a Report,
    /// The requests that the best set leaves out, most important first.
    pub left_out: &'a [u16],
}

/// A plug-in as an answer tells it.
#[derive(Clone, Debug, PartialEq, Eq)]
pub struct PlugIn<'a> {
    /// The number of its request.
    pub request: u16,
    /// Its place in the order: 1 is the most important one.
    pub rank: usize,
    /// Its name.
    pub name: &'a str,
}

impl PlugIn<'_> {
    /// Its rank and its name, as they stand in a list.
    pub fn ranked(&self) -> Html {
        let rank = Html::text(&self.rank.to_string());
        let rank = Html::element("span", &[("class", "rank")], rank);
        rank.say(" ").and(Html::name(self.name))
    }
}

impl<'a> Told<'a> {
    /// What the answer to an event tells.
    pub fn of(event: &'a Event, answer: &'a Answer) -> Told<'a> {
        let plug_in = |(place, request): (usize, &u16)| PlugIn {
            request: *request,
            rank: place + 1,
            name: event.plug_in(*request),
        };
        Told {
            name: event.name.as_deref(),
            plug_ins: event.order.iter().enumerate().map(plug_in).collect(),
            conflict: &answer.conflict,
            relaxation: &answer.relaxation,
            left_out: &answer.left_out,
        }
    }

    /// How it stands with the event.
    pub fn status(&self) -> Status {
        self.conflict.status
    }

    /// The event's name, or words for it.
    pub fn title(&self) -> &'a str {
        self.name.unwrap_or("An event")
    }

    /// The plug-ins of some requests, most important first.
    pub fn those_of(&self, requests: &[u16]) -> Vec<&PlugIn<'a>> {
        let within = |plug_in: &&PlugIn<'_>| requests.contains(&plug_in.request);
        self.plug_ins.iter().filter(within).collect()
    }
}
