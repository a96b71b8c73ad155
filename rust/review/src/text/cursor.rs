//! A line's words, taken one after the other, and what is said where another was expected.

use super::mistake::Mistake;
use super::nearest::meant;
use super::places::{shown, Name, Number, Place};
use super::statement::Statement;
use super::tokens::{Line, Token};
use crate::names::{is_joiner, quoted, MOST_NAME, RESERVED};

/// What is said where a name seems to have several words.
const SEVERAL_WORDS: &str = "a name of several words stands in quotes, \"like this\"";

/// What is said where a statement seems to go on with the next line.
const ONE_LINE: &str = "a statement stands on one line";

/// How many words after the first are looked at for one that tells what a line is meant as.
const WORDS_LOOKED_AT: usize = 8;

/// The words of a line from some place on.
pub(super) struct Cursor<'a> {
    line: &'a Line,
    next: usize,
}

impl<'a> Cursor<'a> {
    /// All words of a line.
    pub fn new(line: &'a Line) -> Cursor<'a> {
        Cursor { line, next: 0 }
    }

    /// Where the next word stands, or the line's end.
    pub fn place(&self) -> Place {
        let next = self.line.tokens.get(self.next);
        next.map_or(self.line.end, |(_, place)| *place)
    }

    /// The next word, if it has no quotes.
    pub fn bare(&self) -> Option<&'a str> {
        bare(self.line.tokens.get(self.next))
    }

    /// Whether the word after the next is this one without quotes.
    pub fn has_second(&self, word: &str) -> bool {
        bare(self.line.tokens.get(self.next + 1)) == Some(word)
    }

    /// Whether one of the words after the next is meant as this one.
    pub fn has_later(&self, word: &str) -> bool {
        let later = self.line.tokens.iter().skip(self.next + 1);
        let mut later = later.take(WORDS_LOOKED_AT).map(|token| bare(Some(token)));
        later.any(|later| later.is_some_and(|later| meant(later, &[word]).is_some()))
    }

    /// Goes on to the word after the next.
    pub fn skip(&mut self) -> &mut Cursor<'a> {
        self.next += 1;
        self
    }

    /// Takes this word, which was expected.
    pub fn word(&mut self, word: &str, expected: &str) -> Result<(), Mistake> {
        if self.bare() != Some(word) {
            return Err(self.expected(expected));
        }
        self.next += 1;
        Ok(())
    }

    /// Takes this word, which was expected after a name.
    pub fn word_after_name(&mut self, word: &str, expected: &str) -> Result<(), Mistake> {
        let taken = self.word(word, expected);
        taken.map_err(|_| self.expected_after_name(expected, &[word]))
    }

    /// Takes a colon, which was expected.
    pub fn colon(&mut self, expected: &str) -> Result<(), Mistake> {
        if self.token() != Some(&Token::Colon) {
            return Err(self.expected(expected));
        }
        self.next += 1;
        Ok(())
    }

    /// Takes a comma, if there is one.
    pub fn comma(&mut self) -> bool {
        let comma = self.token() == Some(&Token::Comma);
        self.next += usize::from(comma);
        comma
    }

    /// Takes a name, which was expected.
    pub fn name(&mut self, expected: &str) -> Result<Name, Mistake> {
        let place = self.place();
        let name = match self.token() {
            Some(Token::Quoted(name)) => name,
            Some(Token::Bare(word)) if RESERVED.contains(&word.as_str()) => {
                let words = format!("expected {expected}, found {word}, a word of the language: as a name it stands in quotes");
                return Err(place.mistake(words));
            }
            Some(Token::Bare(word)) => word,
            _ => return Err(self.expected(expected)),
        };
        if let Some(wrong) = no_name(name) {
            return Err(place.mistake(wrong));
        }
        self.next += 1;
        let name = name.clone();
        Ok(Name { name, place })
    }

    /// Takes names with commas between them.
    pub fn names(&mut self, expected: &str) -> Result<Vec<Name>, Mistake> {
        let mut names = vec![self.name(expected)?];
        while self.comma() {
            names.push(self.name(expected)?);
        }
        Ok(names)
    }

    /// Takes a whole number, which was expected: digits, and a minus before them where it is negative.
    pub fn number(&mut self, expected: &str) -> Result<Number, Mistake> {
        let place = self.place();
        let Some(word) = self.bare() else {
            return Err(self.expected(expected));
        };
        let digits = word.strip_prefix('-').unwrap_or(word);
        if digits.is_empty() || !digits.bytes().all(|digit| digit.is_ascii_digit()) {
            let mistake = self.expected(&format!("{expected}, a whole number"));
            return Err(match word.starts_with(['\u{2212}', '\u{2013}']) {
                true => mistake.with("a minus is written -"),
                false => mistake,
            });
        }
        self.next += 1;
        Ok(Number {
            value: word.parse().unwrap_or(i64::MAX),
            written: word.to_string(),
            place,
        })
    }

    /// The end of the line, which was expected after a statement.
    pub fn end(&self, stated: &Statement) -> Result<(), Mistake> {
        if self.token().is_none() {
            return Ok(());
        }
        Err(match stated {
            Statement::Event(_) => self.expected_after_name("the end of the line", &[""]),
            Statement::Row(row) => self.expected(row.condition.expected_after()),
            _ => self.expected_after_name(
                "a comma and a further name, or the end of the line",
                &[",", ""],
            ),
        })
    }

    /// The mistake that something else was expected here.
    pub fn expected(&self, expected: &str) -> Mistake {
        let found = match self.token() {
            None => "the end of the line".to_string(),
            Some(Token::Comma) => "a comma".to_string(),
            Some(Token::Colon) => "a colon".to_string(),
            Some(Token::Bare(word)) => shown("word", word, word.clone()),
            Some(Token::Quoted(name)) => shown("name", name, quoted(name)),
        };
        let words = format!("expected {expected}, found {found}");
        let mistake = self.place().mistake(words);
        match self.ends_too_soon() {
            true => mistake.with(ONE_LINE),
            false => mistake,
        }
    }

    /// Whether the line has ended after a mark or a word that promises more.
    fn ends_too_soon(&self) -> bool {
        let last = self.line.tokens.last().map(|(token, _)| token);
        let promises = match last {
            Some(Token::Comma | Token::Colon) => true,
            Some(Token::Bare(word)) => word == "or",
            _ => false,
        };
        self.token().is_none() && promises
    }

    /// The mistake that something else was expected after a name. Where words stand here, and then one
    /// of these ("," being a comma, ":" a colon, "" the end of the line), they may be more of the name.
    pub fn expected_after_name(&self, expected: &str, ends: &[&str]) -> Mistake {
        let mistake = self.expected(expected);
        let more = self.line.tokens.iter().skip(self.next);
        let more = more.map_while(|token| bare(Some(token)));
        let more = more.take_while(|word| is_like_a_name(word)).count();
        let end = match self.line.tokens.get(self.next + more) {
            None => "",
            Some((Token::Comma, _)) => ",",
            Some((Token::Colon, _)) => ":",
            Some((Token::Bare(word), _)) => word,
            Some((Token::Quoted(_), _)) => "\"",
        };
        match ends.contains(&end) {
            true => mistake.with(SEVERAL_WORDS),
            false => mistake,
        }
    }

    /// The mistake that a word is none of those that may stand here, if one of them is near.
    pub fn misspelt(&self, word: &str, known: &[&str]) -> Option<Mistake> {
        let nearest = meant(word, known)?;
        let words = format!("no statement begins with {word}; the nearest word is {nearest}");
        Some(self.place().mistake(words))
    }

    fn token(&self) -> Option<&'a Token> {
        self.line.tokens.get(self.next).map(|(token, _)| token)
    }
}

/// Whether a word may be one of several that are meant as a name.
fn is_like_a_name(word: &str) -> bool {
    word.contains(char::is_alphanumeric) && !RESERVED.contains(&word)
}

/// Why a word is no name, if it is none.
fn no_name(word: &str) -> Option<String> {
    let length = word.chars().count();
    if length > MOST_NAME {
        return Some(format!(
            "a name of {length} characters, at most {MOST_NAME}"
        ));
    }
    let seen = word
        .chars()
        .any(|letter| !is_joiner(letter) && !letter.is_whitespace());
    (!seen).then(|| "expected a name, found characters that nobody sees".to_string())
}

fn bare(token: Option<&(Token, Place)>) -> Option<&str> {
    match token {
        Some((Token::Bare(word), _)) => Some(word),
        _ => None,
    }
}
