//! The budgets of the host: for each the bars, who claims how much of it, and what is not counted.

use crate::event::{Budget, Event};
use crate::page::bar::{Bar, Segment};
use crate::page::budget_words as words;
use crate::page::claims::{wishes, Claim, Claimant, Claims, Wish};
use crate::page::document::{paragraph, section};
use crate::page::html::Html;
use crate::page::table::{row, scrolling, Cell};
use crate::page::told::Told;
use crate::row_words::on_or_off;
use hainscope::Status;

/// The patterns of the segments, once in a page.
const PATTERNS: &str = include_str!("patterns.svg");

/// The section of all budgets.
pub fn budgets(event: &Event, told: &Told) -> Html {
    let budgets: Vec<Budget> = event.host_budgets().collect();
    if budgets.is_empty() {
        let none = paragraph(Html::text("The host states no budget."));
        return section("budgets", "The budgets", none);
    }
    let shown = Shown {
        event,
        told,
        of_all: wishes(event, &event.order),
        of_best_set: match told.status() {
            Status::Conflict => Some(wishes(event, &told.relaxation.requests)),
            Status::AllCanStand | Status::HostCannotStand => None,
        },
    };
    let each = budgets.iter().zip(1..);
    let each = each.map(|(budget, number)| shown.budget(budget, number));
    let content = Html::as_it_is(PATTERNS).and(each.collect());
    section("budgets", "The budgets", content)
}

/// What all budgets are shown from.
struct Shown<'a> {
    event: &'a Event,
    told: &'a Told<'a>,
    of_all: Vec<Wish>,
    of_best_set: Option<Vec<Wish>>,
}

impl Shown<'_> {
    /// A budget: its name, its bars, its claims, and what has to be said to them.
    fn budget(&self, budget: &Budget, number: usize) -> Html {
        let name = match budget.name {
            Some(name) => name.to_string(),
            None => format!("Budget {number}"),
        };
        let all = Claims::on(budget, &self.of_all);
        let identifier = format!("budget-{number}");
        let heading = Html::element("h3", &[("id", &identifier)], Html::name(&name));
        let mut content = heading.and(self.bar(&name, "all plug-ins", &identifier, &all, &all));
        if let Some(wishes) = &self.of_best_set {
            let best = Claims::on(budget, wishes);
            let identifier = format!("{identifier}-best");
            content = content.and(self.bar(&name, "the best set only", &identifier, &best, &all));
        }
        content = content
            .and(self.table(&name, &identifier, &all))
            .and(words::unclaimed(self.event, &all))
            .and(words::given(self.event, budget, &all));
        let attributes = [("class", "budget"), ("aria-labelledby", &identifier)];
        Html::element("section", &attributes, content)
    }

    /// A bar with its words. All bars of a budget have the scale of that of all plug-ins.
    fn bar(&self, name: &str, whose: &str, identifier: &str, drawn: &Claims, all: &Claims) -> Html {
        let sum = words::sum(drawn);
        let segment = |claim: &Claim| Segment {
            key: self.key(claim.claimant),
            amount: claim.taking.amount,
            pattern: pattern(claim, all),
        };
        let bar = Bar {
            identifier: &format!("{identifier}-bar"),
            title: &format!("{name}, {whose}"),
            description: &format!("{sum}. {}", self.description(drawn)),
            room: drawn.room,
            segments: drawn.counted().map(segment).collect(),
            most: all.total(),
        };
        let class = match drawn.total() > drawn.room {
            true => "sum beyond",
            false => "sum",
        };
        let sum = Html::element("strong", &[("class", class)], Html::text(&sum));
        let whose = Html::text(&format!("{}: ", words::capitalised(whose)));
        let caption = Html::element("figcaption", &[], whose.and(sum));
        Html::element("figure", &[], caption.and(bar.picture()))
    }

    /// What a bar shows, for those who do not see it.
    fn description(&self, claims: &Claims) -> String {
        let part = |claim: &Claim| {
            let name = self.name(claim.claimant);
            format!("{name} {}", claim.taking.amount)
        };
        let parts: Vec<String> = claims.counted().map(part).collect();
        match parts.is_empty() {
            true => words::NOBODY.to_string(),
            false => format!("From the left: {}.", parts.join(", ")),
        }
    }

    /// Who requests what, and how much that takes.
    fn table(&self, name: &str, identifier: &str, claims: &Claims) -> Html {
        match (claims.claims.is_empty(), claims.unclaimed.is_empty()) {
            (true, true) => return paragraph(Html::text(words::NOBODY)),
            (true, false) => return Html::nothing(), // what is not counted says it
            (false, _) => {}
        }
        let rows = claims.claims.iter().map(|claim| self.claim(claim));
        let caption = Html::text("Who requests how much of ").and(Html::name(name));
        let titles = ["Rank", "Plug-in", "Requests", "Takes"];
        let identifier = format!("{identifier}-table");
        scrolling(&identifier, caption, &titles, rows.collect())
    }

    /// A claim as a row of the table.
    fn claim(&self, claim: &Claim) -> Html {
        let state = claim.taking.state;
        let variable = self.event.variable(state.variable);
        let requested = Html::name(variable).say(&format!(" {}", on_or_off(state.on)));
        let takes = match claim.shared_with {
            None => Html::text(&claim.taking.amount.to_string()),
            Some(other) => Html::text(&format!("shared with {}", self.sharer(other))),
        };
        let (rank, claimant) = match claim.claimant {
            Claimant::Host => ("–".to_string(), Html::text("the host")),
            plug_in => (self.key(plug_in), Html::name(self.name(plug_in))),
        };
        row(vec![
            Cell::classed("number", Html::text(&rank)),
            Cell::heading(claimant),
            Cell::classed("named", requested),
            Cell::classed("number", takes),
        ])
    }

    /// Who has claimed the same before.
    fn sharer(&self, claimant: Claimant) -> String {
        match claimant {
            Claimant::Host => "the host".to_string(),
            plug_in => format!("rank {}", self.key(plug_in)),
        }
    }

    /// What stands for a claimant in a bar: a plug-in's rank.
    fn key(&self, claimant: Claimant) -> String {
        let Claimant::PlugIn(request) = claimant else {
            return "host".to_string();
        };
        let ranked = self.told.those_of(&[request]);
        ranked
            .first()
            .map_or(String::new(), |plug_in| plug_in.rank.to_string())
    }

    /// The name of a claimant.
    fn name(&self, claimant: Claimant) -> &str {
        match claimant {
            Claimant::Host => "the host",
            Claimant::PlugIn(request) => self.event.plug_in(request),
        }
    }
}

/// The pattern of a claim: its place among the claims of all plug-ins that count, so that what is
/// claimed has one pattern in both bars.
fn pattern(claim: &Claim, all: &Claims) -> usize {
    let mut counted = all.counted();
    counted
        .position(|other| other.taking == claim.taking)
        .unwrap_or(0)
}
