//! Tables of a page: a caption, titles of columns, and rows; one that is too wide scrolls by itself.

use crate::page::html::Html;

/// A cell of a table.
pub struct Cell {
    class: &'static str,
    is_heading: bool,
    content: Html,
}

impl Cell {
    /// A cell, with the class that styles it.
    pub fn classed(class: &'static str, content: Html) -> Cell {
        Cell {
            class,
            is_heading: false,
            content,
        }
    }

    /// The cell that says what its row is about.
    pub fn heading(content: Html) -> Cell {
        Cell {
            class: "named",
            is_heading: true,
            content,
        }
    }

    /// The cell as it is written.
    fn html(self) -> Html {
        match self.is_heading {
            true => Html::element(
                "th",
                &[("scope", "row"), ("class", self.class)],
                self.content,
            ),
            false => Html::element("td", &[("class", self.class)], self.content),
        }
    }
}

/// A row of cells.
pub fn row(cells: Vec<Cell>) -> Html {
    Html::element("tr", &[], cells.into_iter().map(Cell::html).collect())
}

/// A table in a box of its own, which scrolls where the page is too narrow. The identifier stands once
/// in a page.
pub fn scrolling(identifier: &str, caption: Html, titles: &[&str], rows: Html) -> Html {
    let title = |title: &&str| Html::element("th", &[("scope", "col")], Html::text(title));
    let titles = Html::element("tr", &[], titles.iter().map(title).collect());
    let table = Html::element("caption", &[("id", identifier)], caption)
        .and(Html::element("thead", &[], titles))
        .and(Html::element("tbody", &[], rows));
    let table = Html::element("table", &[], table);
    let of_the_box = [
        ("class", "scrolling"),
        ("role", "group"),
        ("aria-labelledby", identifier),
        ("tabindex", "0"),
    ];
    Html::element("div", &of_the_box, table)
}
