//! The table of all plug-ins, most important first, with a column for each set that they are or are
//! not in.

use crate::page::document::{paragraph, section};
use crate::page::html::Html;
use crate::page::table::{row, scrolling, Cell};
use crate::page::told::{PlugIn, Told};
use hainscope::Status;

/// A column: a set of requests, and what is said of a plug-in within and without it.
struct Column<'a> {
    title: &'a str,
    requests: &'a [u16],
    within: &'a str,
    without: &'a str,
}

impl Column<'_> {
    /// The cell of a plug-in.
    fn cell(&self, plug_in: &PlugIn) -> Cell {
        match self.requests.contains(&plug_in.request) {
            true => Cell::classed("within", Html::text(self.within)),
            false => Cell::classed("without", Html::text(self.without)),
        }
    }
}

/// The section of the table.
pub fn plug_in_table(told: &Told) -> Html {
    let content = match told.plug_ins.is_empty() {
        true => paragraph(Html::text("There are none.")),
        false => table(told, &columns(told)),
    };
    section("plug-ins", "All plug-ins", content)
}

/// A column for each set. Where the host's rows cannot stand there is no set to be left out of.
fn columns<'a>(told: &'a Told) -> Vec<Column<'a>> {
    let conflict = Column {
        title: "The conflict",
        requests: &told.conflict.requests,
        within: "in the conflict",
        without: "–",
    };
    let best_set = Column {
        title: "The best set",
        requests: &told.relaxation.requests,
        within: "in the best set",
        without: match told.status() {
            Status::HostCannotStand => "–",
            Status::AllCanStand | Status::Conflict => "left out",
        },
    };
    vec![conflict, best_set]
}

/// The table itself.
fn table(told: &Told, columns: &[Column]) -> Html {
    let mut titles = vec!["Rank", "Plug-in"];
    titles.extend(columns.iter().map(|column| column.title));
    let rows = told.plug_ins.iter().map(|plug_in| {
        let mut cells = vec![
            Cell::classed("number", Html::text(&plug_in.rank.to_string())),
            Cell::heading(Html::name(plug_in.name)),
        ];
        cells.extend(columns.iter().map(|column| column.cell(plug_in)));
        row(cells)
    });
    let caption = Html::text("In the order of importance, the most important first");
    scrolling("plug-in-table", caption, &titles, rows.collect())
}
