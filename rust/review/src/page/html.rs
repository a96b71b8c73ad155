//! Pieces of a page. Whatever text comes in is escaped, and each element closes what it opens, so that
//! a page is well formed whatever its names are; only words of the program itself go in as they are.

use crate::names::before;
use crate::page::escape::escaped;
use std::fmt;

/// The elements after which a new line begins, for whoever reads the page's source.
const ENDS_A_LINE: [&str; 25] = [
    "caption",
    "dd",
    "dl",
    "dt",
    "figcaption",
    "figure",
    "footer",
    "h1",
    "h2",
    "h3",
    "head",
    "header",
    "html",
    "li",
    "main",
    "p",
    "section",
    "style",
    "svg",
    "table",
    "tbody",
    "thead",
    "title",
    "tr",
    "ul",
];

/// A piece of a page.
#[derive(Clone, Debug, Default, PartialEq, Eq)]
pub struct Html {
    written: String,
}

impl Html {
    /// Nothing at all.
    pub fn nothing() -> Html {
        Html::default()
    }

    /// Any text, escaped.
    pub fn text(words: &str) -> Html {
        Html {
            written: escaped(words),
        }
    }

    /// A name that somebody wrote: escaped, and kept from turning the direction of what is around it.
    pub fn name(name: &str) -> Html {
        Html::element("bdi", &[], Html::text(name))
    }

    /// Words of the program itself, which may hold tags. No text that is made while it runs fits in.
    pub fn as_it_is(markup: &'static str) -> Html {
        Html {
            written: markup.to_string(),
        }
    }

    /// An element with its attributes, whose values are escaped, and what stands in it.
    pub fn element(tag: &'static str, attributes: &[(&'static str, &str)], content: Html) -> Html {
        let attribute = |(name, value): &(&str, &str)| format!(" {name}=\"{}\"", escaped(value));
        let attributes: String = attributes.iter().map(attribute).collect();
        let end = if ENDS_A_LINE.contains(&tag) { "\n" } else { "" };
        Html {
            written: format!("<{tag}{attributes}>{}</{tag}>{end}", content.written),
        }
    }

    /// This piece and then another.
    pub fn and(mut self, other: Html) -> Html {
        self.written.push_str(&other.written);
        self
    }

    /// This piece and then some text.
    pub fn say(self, words: &str) -> Html {
        self.and(Html::text(words))
    }

    /// Several pieces in a sentence: "a", "a and b", "a, b and c".
    pub fn listed(pieces: Vec<Html>) -> Html {
        let number = pieces.len();
        let mut listed = Html::nothing();
        for (place, piece) in pieces.into_iter().enumerate() {
            listed = listed.say(before(place, number)).and(piece);
        }
        listed
    }
}

/// Several pieces, one after the other.
impl FromIterator<Html> for Html {
    fn from_iter<I: IntoIterator<Item = Html>>(pieces: I) -> Html {
        pieces.into_iter().fold(Html::nothing(), Html::and)
    }
}

/// The piece as it is written to a file.
impl fmt::Display for Html {
    fn fmt(&self, out: &mut fmt::Formatter) -> fmt::Result {
        out.write_str(&self.written)
    }
}

#[cfg(test)]
mod tests {
    use super::Html;

    #[test]
    fn text_and_attributes_are_escaped() {
        let piece = Html::element("p", &[("title", "\"<")], Html::text("<b>").say("&"));
        assert_eq!(
            piece.to_string(),
            "<p title=\"&quot;&lt;\">&lt;b&gt;&amp;</p>\n"
        );
    }

    #[test]
    fn names_are_isolated() {
        assert_eq!(Html::name("a<b").to_string(), "<bdi>a&lt;b</bdi>");
    }

    #[test]
    fn pieces_are_listed_as_in_a_sentence() {
        let listed = |words: &[&str]| {
            let pieces = words.iter().map(|word| Html::text(word)).collect();
            Html::listed(pieces).to_string()
        };
        assert_eq!(listed(&[]), "");
        assert_eq!(listed(&["a"]), "a");
        assert_eq!(listed(&["a", "b"]), "a and b");
        assert_eq!(listed(&["a", "b", "c"]), "a, b and c");
    }
}
