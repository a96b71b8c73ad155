//! The words of a line: bare words, names in quotes, commas and colons. White space parts them, and
//! a `#` outside of quotes begins a comment.

use super::mistake::Mistake;
use super::places::Place;
use super::MOST_WORDS;
use crate::names::{may_stand_in_a_name, ordinal, MARKS};

/// What stands at a place of a line.
#[derive(Clone, Debug, PartialEq, Eq)]
pub(super) enum Token {
    /// A word without quotes: a word of the language, a name or a number.
    Bare(String),
    /// A name in quotes.
    Quoted(String),
    Comma,
    Colon,
}

/// The words of a line, each with its place, and the place after the last.
#[derive(Clone, Debug)]
pub(super) struct Line {
    pub tokens: Vec<(Token, Place)>,
    pub end: Place,
}

/// The words of a line.
pub(super) fn tokens(line: usize, text: &str) -> Result<Line, Mistake> {
    let letters: Vec<char> = text.chars().collect();
    let place = |index| Place {
        line,
        column: index + 1,
    };
    let hidden = |letter: &char| *letter != '\t' && !may_stand_in_a_name(*letter);
    if let Some(index) = letters.iter().position(hidden) {
        let code = u32::from(letters[index]);
        let words = format!("the character U+{code:04X} cannot stand in a text");
        return Err(place(index).mistake(words));
    }
    let (mut tokens, mut end, mut index) = (Vec::new(), 0, 0);
    while index < letters.len() && letters[index] != '#' {
        if letters[index].is_whitespace() {
            index += 1;
            continue;
        }
        if tokens.len() == MOST_WORDS {
            let number = ordinal(MOST_WORDS + 1);
            let words = format!("the {number} word of a line, at most {MOST_WORDS}");
            return Err(place(index).mistake(words));
        }
        let (token, length) = token(&letters[index..], place(index))?;
        tokens.push((token, place(index)));
        index += length;
        end = index;
    }
    let end = place(end);
    Ok(Line { tokens, end })
}

/// The first word of some letters, of which the first is no white space, and how many it takes.
fn token(letters: &[char], place: Place) -> Result<(Token, usize), Mistake> {
    match letters[0] {
        ',' => Ok((Token::Comma, 1)),
        ':' => Ok((Token::Colon, 1)),
        '"' => quoted(letters, place),
        _ => {
            let ends = |letter: &char| letter.is_whitespace() || MARKS.contains(letter);
            let length = letters.iter().position(ends).unwrap_or(letters.len());
            Ok((Token::Bare(letters[..length].iter().collect()), length))
        }
    }
}

/// A name in quotes, the first letter being the quote.
fn quoted(letters: &[char], place: Place) -> Result<(Token, usize), Mistake> {
    let mut name = String::new();
    let mut index = 1;
    while let Some(letter) = letters.get(index) {
        let escaped = *letter == '\\';
        match (letter, letters.get(index + 1)) {
            ('"', _) if name.trim() != name || name.is_empty() => {
                return Err(place.mistake(no_name()))
            }
            ('"', _) => return Ok((Token::Quoted(name), index + 1)),
            ('\\', Some(marked @ ('"' | '\\'))) => name.push(*marked),
            ('\\', Some(_)) => return Err(place.after(index).mistake(no_mark())),
            (letter, _) if is_second_space(&name, *letter) => {
                return Err(place.after(index).mistake(one_space()))
            }
            _ => name.push(*letter),
        }
        index += 1 + usize::from(escaped);
    }
    Err(place.mistake("expected a quote that ends the name, found the end of the line".to_string()))
}

fn no_name() -> String {
    "expected a name in the quotes, which neither is empty nor begins or ends with a space"
        .to_string()
}

fn no_mark() -> String {
    "a backslash in quotes stands before a quote or another backslash: \\\" or \\\\".to_string()
}

/// Whether a letter after a part of a name is white space that nobody tells from one space.
fn is_second_space(name: &str, letter: char) -> bool {
    letter.is_whitespace() && (letter != ' ' || name.ends_with(' '))
}

fn one_space() -> String {
    "between the words of a name stands one space, and no other white space".to_string()
}
