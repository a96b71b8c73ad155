//! Names: how one stands in a text, bare or in quotes, and how several are told in a sentence; and
//! numbers in words.

/// The most characters of a name.
pub const MOST_NAME: usize = 80;

/// The words of the language: each is a name only in quotes.
pub const RESERVED: [&str; 22] = [
    "event",
    "variable",
    "variables",
    "plug-in",
    "plug-ins",
    "host",
    "allows",
    "requires",
    "requests",
    "at",
    "most",
    "of",
    "takes",
    "on",
    "off",
    "or",
    "the",
    "impossible",
    "nothing",
    "important",
    "first",
    "then",
];

/// The characters that end a bare word, beside white space.
pub const MARKS: [char; 4] = [',', ':', '"', '#'];

/// A name as it stands in a text: bare where that is read back as the same name, else in quotes.
pub fn written(name: &str) -> String {
    let ends_a_word = |letter: char| letter.is_whitespace() || MARKS.contains(&letter);
    let bare = !name.is_empty() && !name.contains(ends_a_word) && !RESERVED.contains(&name);
    match bare {
        true => name.to_string(),
        false => quoted(name),
    }
}

/// A name in quotes.
pub fn quoted(name: &str) -> String {
    format!("\"{}\"", name.replace('\\', "\\\\").replace('"', "\\\""))
}

/// Several things in a sentence: "a", "a and b", "a, b and c".
pub fn listed(names: &[String]) -> String {
    let with_mark = |(place, name)| format!("{}{name}", before(place, names.len()));
    names.iter().enumerate().map(with_mark).collect()
}

/// What stands before the thing at a place, the first being 0, where so many are listed in a sentence.
pub fn before(place: usize, number: usize) -> &'static str {
    match place {
        0 => "",
        _ if place + 1 == number => " and ",
        _ => ", ",
    }
}

/// A number of things: "1 question", "8 questions".
pub fn counted(number: usize, thing: &str) -> String {
    match number {
        1 => format!("1 {thing}"),
        _ => format!("{number} {thing}s"),
    }
}

/// A number that tells a place in a row of things: 1st, 2nd, 3rd, 4th, 11th, 65th.
pub fn ordinal(number: usize) -> String {
    let ending = match (number % 100, number % 10) {
        (11..=13, _) => "th",
        (_, 1) => "st",
        (_, 2) => "nd",
        (_, 3) => "rd",
        _ => "th",
    };
    format!("{number}{ending}")
}

/// Whether a name may have a character: one that is seen, and that does not turn what stands around it.
pub fn may_stand_in_a_name(letter: char) -> bool {
    !letter.is_control() && !is_invisible(letter)
}

/// Characters that change or join those beside them, and are nothing by themselves: some scripts need
/// them, so that they may stand in a name, but no name is made of them alone.
pub fn is_joiner(letter: char) -> bool {
    matches!(
        letter,
        '\u{180b}'..='\u{180d}' | '\u{180f}' | '\u{200c}' | '\u{200d}' | '\u{fe00}'..='\u{fe0f}' | '\u{e0100}'..='\u{e01ef}'
    )
}

/// Marks of direction, fillers and separators that nobody sees.
fn is_invisible(letter: char) -> bool {
    matches!(
        letter,
        '\u{ad}' | '\u{34f}' | '\u{61c}' | '\u{115f}' | '\u{1160}' | '\u{17b4}' | '\u{17b5}' | '\u{180e}' | '\u{200b}'
            | '\u{200e}' | '\u{200f}' | '\u{2028}'..='\u{202e}' | '\u{2060}'..='\u{206f}' | '\u{2800}' | '\u{3164}'
            | '\u{feff}' | '\u{ffa0}' | '\u{fff0}'..='\u{fffb}' | '\u{1bca0}'..='\u{1bca3}'
            | '\u{1d173}'..='\u{1d17a}' | '\u{e0000}'..='\u{e00ff}' | '\u{e01f0}'..='\u{e0fff}'
    )
}
