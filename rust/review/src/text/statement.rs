//! Statements: what the words of one line say, by the grammar of docs/EVENT.md.
//! Names are not looked up yet, and no number is held to its limits.

use super::cursor::Cursor;
use super::mistake::Mistake;
use super::places::{Name, Number, Place};
use super::tokens::Line;
use crate::names::written;

/// What a line states.
#[derive(Clone, Debug)]
pub(super) enum Statement {
    /// The event's name.
    Event(Name),
    /// Variables, in the sequence of their numbers.
    Variables(Vec<Name>),
    /// Plug-ins, in the sequence of their requests.
    PlugIns(Vec<Name>),
    /// A row.
    Row(StatedRow),
    /// The order of importance, from its beginning on.
    Order(Place, Vec<Name>),
    /// More of the order.
    Then(Place, Vec<Name>),
}

/// A row, with names.
#[derive(Clone, Debug)]
pub(super) struct StatedRow {
    pub place: Place,
    /// Whose it is; none: the host.
    pub plug_in: Option<Name>,
    pub condition: StatedCondition,
}

/// What a row asks, with names.
#[derive(Clone, Debug)]
pub(super) enum StatedCondition {
    /// Variables that are to be on (true) or off.
    Clause(Vec<(Name, bool)>),
    Budget {
        bound: Number,
        name: Option<Name>,
        terms: Vec<(Name, Number)>,
    },
}

impl StatedCondition {
    /// What may follow it on its line.
    pub fn expected_after(&self) -> &'static str {
        match self {
            StatedCondition::Clause(literals) if literals.is_empty() => "the end of the line",
            StatedCondition::Clause(_) => {
                "\"or\", or the end of the line (a further row has a line of its own)"
            }
            StatedCondition::Budget { terms, .. } if terms.is_empty() => "the end of the line",
            StatedCondition::Budget { .. } => {
                "a comma and what a further variable takes, or the end of the line"
            }
        }
    }
}

/// The words that a statement begins with, where that is no name.
const BEGINNINGS: [&str; 8] = [
    "event",
    "variables",
    "plug-ins",
    "host",
    "most",
    "then",
    "variable",
    "plug-in",
];

/// What is said where a number seems to be written with commas.
const NO_COMMAS: &str = "a number is written without commas";

/// The statement of a line, if it has one.
pub(super) fn statement(line: &Line) -> Result<Option<Statement>, Mistake> {
    if line.tokens.is_empty() {
        return Ok(None);
    }
    let mut words = Cursor::new(line);
    let place = words.place();
    let stated = match words.bare() {
        Some("event") => Statement::Event(words.skip().name("the event's name")?),
        Some("variable" | "variables") => {
            Statement::Variables(words.skip().names("a variable's name")?)
        }
        Some("plug-in" | "plug-ins") => Statement::PlugIns(words.skip().names("a plug-in's name")?),
        Some("host") => Statement::Row(row_of_host(words.skip(), place)?),
        Some("most") => {
            words.skip().word("important", "\"important first:\"")?;
            words.word("first", "\"first:\"")?;
            words.colon("a colon after \"most important first\"")?;
            Statement::Order(place, words.names("a plug-in's name")?)
        }
        Some("then") => {
            words.skip().colon("a colon after \"then\"")?;
            Statement::Then(place, words.names("a plug-in's name")?)
        }
        _ => Statement::Row(row_of_plug_in(&mut words, place)?),
    };
    words.end(&stated)?;
    Ok(Some(stated))
}

/// What stands after "host".
fn row_of_host(words: &mut Cursor, place: Place) -> Result<StatedRow, Mistake> {
    let condition = match words.bare() {
        Some("allows") => {
            words.skip();
            let expected =
                "\"at most\" after \"host allows\" (\"host requires\" says what is on or off)";
            words.word("at", expected)?;
            budget(words)?
        }
        Some("requires") => {
            if words.skip().bare() == Some("at") {
                let expected = "a variable's name (\"host allows at most\" begins a budget)";
                return Err(words.expected(expected));
            }
            clause(words, "a variable's name or \"the impossible\"")?
        }
        _ => return Err(words.expected("\"allows\" or \"requires\" after \"host\"")),
    };
    Ok(StatedRow {
        place,
        plug_in: None,
        condition,
    })
}

/// What begins with the name of a plug-in.
fn row_of_plug_in(words: &mut Cursor, place: Place) -> Result<StatedRow, Mistake> {
    if let (Some(word), false) = (words.bare(), words.has_later("requests")) {
        if let Some(mistake) = words.misspelt(word, &BEGINNINGS) {
            return Err(mistake);
        }
    }
    let name = words.name("a statement: event, variables, plug-ins, host, most important first, then, or a plug-in's name before \"requests\"")?;
    let taken = written(&name.name);
    let expected = format!("\"requests\" after {taken}, taken for the name of a plug-in");
    words.word_after_name("requests", &expected)?;
    let condition = match words.bare() {
        Some("at") => budget(words.skip())?,
        _ => clause(
            words,
            "a variable's name, \"at most\" or \"the impossible\"",
        )?,
    };
    Ok(StatedRow {
        place,
        plug_in: Some(name),
        condition,
    })
}

/// A budget, from "most" on.
fn budget(words: &mut Cursor) -> Result<StatedCondition, Mistake> {
    words.word("most", "\"most\" after \"at\"")?;
    let bound = words.number("the number that is allowed")?;
    let name = match words.bare() {
        Some("of") => Some(words.skip().name("what the budget is of")?),
        _ => None,
    };
    colon(words, name.is_some())?;
    let mut terms = Vec::new();
    if words.bare() == Some("nothing") {
        words.skip();
        return Ok(StatedCondition::Budget { bound, name, terms });
    }
    terms.push(term(words, "a variable's name, or \"nothing\"")?);
    while words.comma() {
        terms.push(further_term(words)?);
    }
    Ok(StatedCondition::Budget { bound, name, terms })
}

/// The colon of a budget, which may have a name before it.
fn colon(words: &mut Cursor, named: bool) -> Result<(), Mistake> {
    let expected = match named {
        true => "a colon, and what each variable takes",
        false => "\"of\" and a name, or a colon, and what each variable takes",
    };
    match (words.colon(expected), named) {
        (Ok(()), _) => Ok(()),
        (Err(_), true) => Err(words.expected_after_name(expected, &[":"])),
        (Err(mistake), false) if words.comma() => Err(mistake.with(NO_COMMAS)),
        (Err(mistake), false) => Err(mistake),
    }
}

/// What a variable takes of a budget.
fn term(words: &mut Cursor, expected: &str) -> Result<(Name, Number), Mistake> {
    let variable = words.name(expected)?;
    words.word_after_name("takes", "\"takes\" after a variable's name")?;
    Ok((variable, words.number("how much it takes")?))
}

/// What a further variable takes, after a comma; digits alone may be the rest of a number.
fn further_term(words: &mut Cursor) -> Result<(Name, Number), Mistake> {
    let digits = |word: &str| word.bytes().all(|digit| digit.is_ascii_digit());
    let rest_of_a_number = words.bare().is_some_and(digits) && !words.has_second("takes");
    let term = term(words, "a variable's name");
    term.map_err(|mistake| match rest_of_a_number {
        true => mistake.with(NO_COMMAS),
        false => mistake,
    })
}

/// A clause, of which something is expected first.
fn clause(words: &mut Cursor, first: &str) -> Result<StatedCondition, Mistake> {
    if words.bare() == Some("the") {
        words
            .skip()
            .word("impossible", "\"impossible\" after \"the\"")?;
        return Ok(StatedCondition::Clause(Vec::new()));
    }
    let mut literals = vec![literal(words, first)?];
    while words.bare() == Some("or") {
        literals.push(literal(words.skip(), "a variable's name")?);
    }
    Ok(StatedCondition::Clause(literals))
}

/// A variable that is to be on (true) or off.
fn literal(words: &mut Cursor, expected: &str) -> Result<(Name, bool), Mistake> {
    let variable = words.name(expected)?;
    let on = match words.bare() {
        Some("on") => true,
        Some("off") => false,
        _ => {
            let expected = "\"on\" or \"off\" after a variable's name";
            return Err(words.expected_after_name(expected, &["on", "off"]));
        }
    };
    words.skip();
    Ok((variable, on))
}
