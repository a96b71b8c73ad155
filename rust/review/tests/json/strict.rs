//! A strict reader of the JSON that the program may print: whole numbers only, no field twice, and
//! nothing that RFC 8259 does not allow.

use std::collections::BTreeSet;
use std::iter::Peekable;
use std::str::Chars;

/// A value.
#[derive(Debug, PartialEq)]
pub enum Value {
    Null,
    True,
    False,
    Number(u64),
    Text(String),
    List(Vec<Value>),
    Object(Vec<(String, Value)>),
}

impl Value {
    /// A field of an object.
    pub fn field(&self, name: &str) -> &Value {
        let Value::Object(fields) = self else {
            panic!("no object: {self:?}");
        };
        let found = fields.iter().find(|(field, _)| field == name);
        &found.unwrap_or_else(|| panic!("no {name}: {self:?}")).1
    }

    /// The values of a list.
    pub fn list(&self) -> &[Value] {
        match self {
            Value::List(values) => values,
            _ => panic!("no list: {self:?}"),
        }
    }

    /// A text.
    pub fn text(&self) -> &String {
        match self {
            Value::Text(text) => text,
            _ => panic!("no text: {self:?}"),
        }
    }

    /// A plug-in: its request number and its name.
    pub fn plug_in(&self) -> (u64, String) {
        match self.field("request") {
            Value::Number(request) => (*request, self.field("name").text().clone()),
            other => panic!("no number: {other:?}"),
        }
    }
}

type Letters<'a> = Peekable<Chars<'a>>;

/// The value of a text, which has nothing else.
pub fn value(text: &str) -> Result<Value, String> {
    let mut letters = text.chars().peekable();
    let value = next_value(&mut letters)?;
    match letters.next() {
        None => Ok(value),
        Some(letter) => Err(format!("{letter:?} after the value")),
    }
}

fn next_value(letters: &mut Letters) -> Result<Value, String> {
    match letters.peek() {
        Some('{') => object(letters),
        Some('[') => Ok(Value::List(all(letters, '[', ']', next_value)?)),
        Some('"') => Ok(Value::Text(text(letters)?)),
        Some('0'..='9') => number(letters),
        Some('n') => word(letters, "null", Value::Null),
        Some('t') => word(letters, "true", Value::True),
        Some('f') => word(letters, "false", Value::False),
        other => Err(format!("expected a value, found {other:?}")),
    }
}

fn word(letters: &mut Letters, word: &str, value: Value) -> Result<Value, String> {
    word.chars().try_for_each(|letter| take(letters, letter))?;
    Ok(value)
}

fn take(letters: &mut Letters, expected: char) -> Result<(), String> {
    match letters.next() {
        Some(letter) if letter == expected => Ok(()),
        other => Err(format!("expected {expected:?}, found {other:?}")),
    }
}

/// What stands between two marks, with a comma and a space between each and the next.
fn all<T>(
    letters: &mut Letters,
    begin: char,
    end: char,
    next: fn(&mut Letters) -> Result<T, String>,
) -> Result<Vec<T>, String> {
    take(letters, begin)?;
    let mut values = Vec::new();
    while letters.peek() != Some(&end) {
        if !values.is_empty() {
            word(letters, ", ", Value::Null)?;
        }
        values.push(next(letters)?);
    }
    take(letters, end)?;
    Ok(values)
}

fn object(letters: &mut Letters) -> Result<Value, String> {
    let field = |letters: &mut Letters| {
        let name = text(letters)?;
        word(letters, ": ", Value::Null)?;
        Ok((name, next_value(letters)?))
    };
    let fields = all(letters, '{', '}', field)?;
    let names: BTreeSet<&String> = fields.iter().map(|(name, _)| name).collect();
    match names.len() == fields.len() {
        true => Ok(Value::Object(fields)),
        false => Err("a field twice".to_string()),
    }
}

fn number(letters: &mut Letters) -> Result<Value, String> {
    let mut digits = String::new();
    while let Some(digit) = letters.next_if(char::is_ascii_digit) {
        digits.push(digit);
    }
    match digits.len() > 1 && digits.starts_with('0') {
        true => Err(format!("a number that begins with 0: {digits}")),
        false => digits
            .parse()
            .map(Value::Number)
            .map_err(|error| error.to_string()),
    }
}

fn text(letters: &mut Letters) -> Result<String, String> {
    take(letters, '"')?;
    let mut text = String::new();
    loop {
        match letters.next() {
            None => return Err("a text without an end".to_string()),
            Some('"') => return Ok(text),
            Some('\\') => text.push(escaped(letters)?),
            Some(letter) if letter < ' ' => return Err(format!("{letter:?} in a text")),
            Some(letter) => text.push(letter),
        }
    }
}

fn escaped(letters: &mut Letters) -> Result<char, String> {
    match letters.next() {
        Some(letter @ ('"' | '\\' | '/')) => Ok(letter),
        Some('b') => Ok('\u{8}'),
        Some('f') => Ok('\u{c}'),
        Some('n') => Ok('\n'),
        Some('r') => Ok('\r'),
        Some('t') => Ok('\t'),
        Some('u') => {
            let digits: String = letters.by_ref().take(4).collect();
            let right = digits.len() == 4 && digits.bytes().all(|digit| digit.is_ascii_hexdigit());
            let code = right
                .then(|| u32::from_str_radix(&digits, 16).ok())
                .flatten();
            let letter = code.and_then(char::from_u32);
            letter.ok_or_else(|| format!("no character: {digits}"))
        }
        other => Err(format!("{other:?} after a backslash")),
    }
}

#[test]
fn only_json_is_read() {
    for right in [
        "{}",
        "[]",
        "null",
        "[1, 20, true]",
        "{\"a\": \"\\\"\\\\\\u00e9\"}",
    ] {
        assert!(value(right).is_ok(), "{right}");
    }
    for wrong in [
        "",
        "{",
        "[1,]",
        "[1, ]",
        "01",
        "-",
        "nul",
        "{} ",
        "\"a",
        "\"\\x\"",
        "\"\\u12\"",
        "\"\\ud800\"",
        "\"\n\"",
        "{\"a\": 1, \"a\": 1}",
        "{a: 1}",
        "[1 2]",
        "\"a\"\"b\"",
    ] {
        assert!(value(wrong).is_err(), "{wrong}");
    }
}
