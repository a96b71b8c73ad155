//! A small reader of pages, which is strict where a browser is not: every tag that is opened is closed
//! and nests, every mark in a text is escaped, and no tag and no attribute is one that pages do not have.
#![allow(dead_code)] // each test uses some of it

use std::collections::HashSet;

/// The tags that a page may have.
const TAGS: [&str; 41] = [
    "bdi",
    "body",
    "caption",
    "circle",
    "dd",
    "defs",
    "desc",
    "div",
    "dl",
    "dt",
    "figcaption",
    "figure",
    "footer",
    "h1",
    "h2",
    "h3",
    "head",
    "header",
    "html",
    "li",
    "line",
    "main",
    "meta",
    "p",
    "path",
    "pattern",
    "rect",
    "section",
    "span",
    "strong",
    "style",
    "svg",
    "table",
    "tbody",
    "td",
    "text",
    "th",
    "thead",
    "title",
    "tr",
    "ul",
];

/// What follows a mark of escaping.
const ESCAPED: [&str; 5] = ["&amp;", "&lt;", "&gt;", "&quot;", "&#39;"];

/// An element: its tag, its attributes, and the text within it.
#[derive(Clone, Debug, Default)]
pub struct Element {
    pub tag: String,
    pub attributes: Vec<(String, String)>,
    pub text: String,
}

impl Element {
    /// The value of an attribute, or nothing.
    pub fn attribute(&self, name: &str) -> &str {
        let found = self.attributes.iter().find(|(named, _)| named == name);
        found.map_or("", |(_, value)| value)
    }
}

/// The elements of a page in the sequence of their ends, or what is wrong with it.
pub fn elements(page: &str) -> Result<Vec<Element>, String> {
    let start = "<!DOCTYPE html>\n";
    let mut rest = page.strip_prefix(start).ok_or("no document type")?;
    let (mut open, mut closed): (Vec<Element>, Vec<Element>) = (Vec::new(), Vec::new());
    while !rest.is_empty() {
        let styled = open.last().is_some_and(|element| element.tag == "style");
        let (text, tag) = text_and_tag(rest, styled)?;
        open.iter_mut().for_each(|element| element.text += &text);
        if tag.is_empty() {
            break;
        }
        let (inner, after) = tag[1..].split_once('>').ok_or("a tag without its end")?;
        rest = after;
        match inner.strip_prefix('/') {
            None if inner.starts_with("meta ") => closed.push(opened(inner)?),
            None => open.push(opened(inner)?),
            Some(tag) => match open.pop() {
                Some(element) if element.tag == tag => closed.push(element),
                other => return Err(format!("</{tag}> closes {other:?}")),
            },
        }
    }
    match open.is_empty() {
        true => identified(closed),
        false => Err(format!("not closed: {open:?}")),
    }
}

/// The text before the next tag, and what is left from that tag on. A style sheet is no text.
fn text_and_tag(rest: &str, styled: bool) -> Result<(String, &str), String> {
    let end = if styled { "</style" } else { "<" };
    let (text, tag) = rest.split_at(rest.find(end).unwrap_or(rest.len()));
    let text = if styled {
        String::new()
    } else {
        unescaped(text)?
    };
    Ok((text, tag))
}

/// The elements, if each identifier stands once and each one that is cited stands.
fn identified(elements: Vec<Element>) -> Result<Vec<Element>, String> {
    let mut identifiers = HashSet::new();
    for element in &elements {
        let identifier = element.attribute("id");
        if !identifier.is_empty() && !identifiers.insert(identifier.to_string()) {
            return Err(format!("twice the identifier {identifier}"));
        }
    }
    for element in &elements {
        for cited in element.attribute("aria-labelledby").split_whitespace() {
            if !identifiers.contains(cited) {
                return Err(format!("no identifier {cited}"));
            }
        }
    }
    Ok(elements)
}

/// The element of an opening tag.
fn opened(inner: &str) -> Result<Element, String> {
    let (tag, mut rest) = inner.split_at(inner.find(' ').unwrap_or(inner.len()));
    if !TAGS.contains(&tag) {
        return Err(format!("the tag {tag}"));
    }
    let mut attributes = Vec::new();
    while !rest.is_empty() {
        let wrong = || format!("the attributes {inner}");
        let (name, value) = rest.split_once("=\"").ok_or_else(wrong)?;
        let (value, after) = value.split_once('"').ok_or_else(wrong)?;
        let name = name.strip_prefix(' ').ok_or_else(wrong)?;
        let letters = |letter: char| letter.is_ascii_alphanumeric() || letter == '-';
        if name.is_empty() || !name.chars().all(letters) || name.starts_with("on") {
            return Err(wrong());
        }
        attributes.push((name.to_string(), unescaped(value)?));
        rest = after;
    }
    Ok(Element {
        tag: tag.to_string(),
        attributes,
        text: String::new(),
    })
}

/// A text as it was before it was escaped.
fn unescaped(text: &str) -> Result<String, String> {
    if text.contains(['<', '>', '"']) {
        return Err(format!("a mark that is not escaped: {text}"));
    }
    for (place, _) in text.match_indices('&') {
        if !ESCAPED.iter().any(|mark| text[place..].starts_with(mark)) {
            return Err(format!("a mark that is not escaped: {}", &text[place..]));
        }
    }
    let marks = [
        ("&lt;", "<"),
        ("&gt;", ">"),
        ("&quot;", "\""),
        ("&#39;", "'"),
    ];
    let text = marks.iter().fold(text.to_string(), |text, (mark, letter)| {
        text.replace(mark, letter)
    });
    Ok(text.replace("&amp;", "&"))
}

/// The texts of all elements of a tag.
pub fn texts(elements: &[Element], tag: &str) -> Vec<String> {
    let of_tag = |element: &&Element| element.tag == tag;
    elements
        .iter()
        .filter(of_tag)
        .map(|element| element.text.clone())
        .collect()
}

/// The texts of all elements of a class.
pub fn classed(elements: &[Element], class: &str) -> Vec<String> {
    let has = |element: &&Element| {
        element
            .attribute("class")
            .split(' ')
            .any(|one| one == class)
    };
    elements
        .iter()
        .filter(has)
        .map(|element| element.text.clone())
        .collect()
}

/// A page in words: the texts of its body, white space as one space.
pub fn words(elements: &[Element]) -> String {
    let body = texts(elements, "body").join(" ");
    body.split_whitespace().collect::<Vec<&str>>().join(" ")
}
