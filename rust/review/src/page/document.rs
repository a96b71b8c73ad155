//! The frame of a page: its head, its style and its parts. The page fetches nothing and runs nothing,
//! and says so to the browser.

use crate::page::html::Html;

/// All that a head has beside title and style.
const HEAD: &str = r#"<meta charset="utf-8">
<meta http-equiv="Content-Security-Policy" content="default-src 'none'; style-src 'unsafe-inline'">
<meta name="viewport" content="width=device-width, initial-scale=1">
<meta name="color-scheme" content="light dark">
"#;

/// The parts of a page.
pub struct Document<'a> {
    /// What the browser shows as the page's title.
    pub title: &'a str,
    /// The style sheets, one after the other.
    pub styles: &'static [&'static str],
    /// What the page is about.
    pub main: Html,
    /// How to read it.
    pub footer: Html,
}

impl Document<'_> {
    /// The whole file.
    pub fn file(self) -> String {
        let styles: Html = self.styles.iter().map(|css| Html::as_it_is(css)).collect();
        let title = Html::element("title", &[], Html::text(self.title));
        let style = Html::element("style", &[], styles);
        let head = Html::as_it_is(HEAD).and(title).and(style);
        let main = Html::element("main", &[], self.main);
        let footer = Html::element("footer", &[], self.footer);
        let body = Html::element("body", &[], main.and(footer));
        let head = Html::element("head", &[], head);
        let html = Html::element("html", &[("lang", "en")], head.and(body));
        format!("<!DOCTYPE html>\n{html}")
    }
}

/// A section with a heading that names it. The identifier stands once in a page.
pub fn section(identifier: &str, heading: &str, content: Html) -> Html {
    let heading = Html::element("h2", &[("id", identifier)], Html::text(heading));
    Html::element(
        "section",
        &[("aria-labelledby", identifier)],
        heading.and(content),
    )
}

/// A paragraph.
pub fn paragraph(content: Html) -> Html {
    Html::element("p", &[], content)
}
