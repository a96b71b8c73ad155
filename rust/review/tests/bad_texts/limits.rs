//! Both sides of every limit: on the right side the library accepts the table, on the other side the
//! mistake tells the limit and where it is passed.

use crate::{accepted, shown};
use hainscope::{Condition, MOST_TABLE_BYTES};
use review::event::Event;

/// So many names with commas between them: v1, v2 and so on.
fn names(letter: char, number: usize) -> String {
    let names = (1..=number).map(|name| format!("{letter}{name}"));
    names.collect::<Vec<String>>().join(", ")
}

/// So many words with something between them.
fn times(word: &str, between: &str, number: usize) -> String {
    vec![word; number].join(between)
}

/// The bound and the terms of an event's only row.
fn budget(event: &Event) -> (i32, &[(u16, i32)]) {
    match &event.rows[0].row.condition {
        Condition::Linear { bound, terms } => (*bound, terms),
        Condition::Clause(_) => panic!("no budget"),
    }
}

#[test]
fn there_are_at_most_20_variables() {
    let text = |number| format!("variables {}", names('v', number));
    assert_eq!(accepted(&text(20)).variables.len(), 20);
    assert_eq!(
        shown(&text(21)),
        ["line 1, column 102: 21 variables, at most 20"]
    );
    let lines = format!("{}\nvariable a\nvariable b", text(20));
    assert_eq!(
        shown(&lines),
        ["line 2, column 10: 22 variables, at most 20"]
    );
}

#[test]
fn there_are_at_most_64_plug_ins() {
    let text = |number| format!("plug-ins {}", names('p', number));
    assert_eq!(accepted(&text(64)).plug_ins.len(), 64);
    assert_eq!(
        shown(&text(65)),
        ["line 1, column 321: 65 plug-ins, at most 64"]
    );
}

#[test]
fn a_clause_has_at_most_64_literals() {
    let of_host = |number| {
        format!(
            "variable v\nhost requires {}",
            times("v on", " or ", number)
        )
    };
    assert_eq!(accepted(&of_host(64)).rows.len(), 1);
    let expected = "line 2, column 527: the 65th literal of the host, at most 64 in a row";
    assert_eq!(shown(&of_host(65)), [expected]);
    let literals = |number| times("v off", " or ", number);
    let text = |number| format!("variable v\nplug-in p\np requests {}", literals(number));
    assert_eq!(accepted(&text(64)).rows.len(), 1);
    let expected = "line 3, column 588: the 65th literal of p, at most 64 in a row";
    assert_eq!(shown(&text(65)), [expected]);
}

#[test]
fn a_budget_has_at_most_20_terms() {
    let terms = |number| times("v takes 1", ", ", number);
    let of_host = |number| format!("variable v\nhost allows at most 1: {}", terms(number));
    assert_eq!(budget(&accepted(&of_host(20))).1, [(0, 1); 20]);
    let expected = "line 2, column 244: the 21st term of the host, at most 20 in a row";
    assert_eq!(shown(&of_host(21)), [expected]);
    let declared = "variable v\nplug-in \"p q\"\n\"p q\" requests at most 1:";
    let text = |number| format!("{declared} {}", terms(number));
    assert_eq!(budget(&accepted(&text(20))).1.len(), 20);
    let expected = "line 3, column 247: the 21st term of \"p q\", at most 20 in a row";
    assert_eq!(shown(&text(21)), [expected]);
}

#[test]
fn there_are_at_most_512_rows() {
    let rows = |number| "host requires v on\n".repeat(number) + "variable v";
    assert_eq!(accepted(&rows(512)).rows.len(), 512);
    let expected = "line 513, column 1: the 513th row, at most 512";
    assert_eq!(shown(&rows(513)), [expected]);
}

#[test]
fn a_variable_takes_at_most_a_million_of_either_sign() {
    let text = |weight: &str| format!("variable v\nhost allows at most 1: v takes {weight}");
    for weight in [1_000_000, -1_000_000, 0] {
        assert_eq!(
            budget(&accepted(&text(&weight.to_string()))).1,
            [(0, weight)]
        );
    }
    let rule = "is out of range: what a variable takes is -1000000 to 1000000";
    for weight in ["1000001", "-1000001", "4294967297", "9223372036854775808"] {
        let expected = format!("line 2, column 32: {weight} {rule}");
        assert_eq!(shown(&text(weight)), [expected]);
    }
}

#[test]
fn the_number_of_a_budget_is_any_of_32_bits() {
    let text = |bound: &str| format!("  host allows at most {bound}: nothing");
    for bound in [i32::MIN, i32::MAX, 0] {
        assert_eq!(budget(&accepted(&text(&bound.to_string()))).0, bound);
    }
    let rule = "is out of range: the number of a budget is -2147483648 to 2147483647";
    for bound in ["2147483648", "-2147483649", "-9223372036854775809"] {
        let expected = format!("line 1, column 23: {bound} {rule}");
        assert_eq!(shown(&text(bound)), [expected]);
    }
}

#[test]
fn a_number_may_have_any_number_of_digits() {
    let text = |number: &str| format!("variable v\nhost allows at most {number}: v takes {number}");
    for (number, value) in [("007", 7), ("-0", 0), ("-000012", -12)] {
        assert_eq!(budget(&accepted(&text(number))), (value, &[(0, value)][..]));
    }
    let zeros = "0".repeat(100_000) + "5";
    assert_eq!(budget(&accepted(&text(&zeros))), (5, &[(0, 5)][..]));
    let rule = "is out of range: the number of a budget is -2147483648 to 2147483647";
    for (number, characters) in [
        ("9".repeat(100), 100),
        ("-".to_string() + &zeros + "0000000000", 100_012),
    ] {
        let expected = format!("line 2, column 21: a number of {characters} characters {rule}");
        assert_eq!(shown(&text(&number)), [expected]);
    }
    let eighty = "9".repeat(80);
    let expected = format!("line 2, column 21: {eighty} {rule}");
    assert_eq!(shown(&text(&eighty)), [expected]);
}

#[test]
fn a_name_has_at_most_80_characters() {
    for letter in ["x", "7", "ü", "\u{1F45F}"] {
        let name = |length| letter.repeat(length);
        for quote in ["", "\""] {
            let text = |length| format!("event a\nvariables v, {quote}{}{quote}", name(length));
            assert_eq!(accepted(&text(80)).variables[1], name(80));
            for length in [81, 10_000] {
                let expected =
                    format!("line 2, column 14: a name of {length} characters, at most 80");
                assert_eq!(shown(&text(length)), [expected]);
            }
        }
    }
    let escaped = |length| format!("event \"{}\"", "\\\\".repeat(length));
    assert_eq!(accepted(&escaped(80)).name, Some("\\".repeat(80)));
    let expected = "line 1, column 7: a name of 81 characters, at most 80";
    assert_eq!(shown(&escaped(81)), [expected]);
}

#[test]
fn what_is_too_long_is_told_by_its_length_where_it_has_no_place() {
    let long = "x".repeat(81);
    let after = "expected \"requests\" after a, taken for the name of a plug-in";
    let expected = format!("line 1, column 3: {after}, found a word of 81 characters");
    assert_eq!(shown(&format!("a {long}")), [expected]);
    let expected = format!("line 1, column 3: {after}, found a name of 81 characters");
    assert_eq!(shown(&format!("a \"{long}\"")), [expected]);
}

/// A text whose table has 4 + 4 (HEAD), 4 + 2 (ORDER), 4 + 2 (CHECK) and 244 times 4 + 2 + 2 * 64
/// bytes, and then one clause with so many literals.
fn long_table(literals: usize) -> String {
    let clause = |number| format!("a requests {}\n", times("v on", " or ", number));
    let declared = "variable v\nplug-in a\n";
    format!("{declared}{}{}", clause(64).repeat(244), clause(literals))
}

#[test]
fn a_table_has_at_most_32768_bytes() {
    let most = (MOST_TABLE_BYTES - 20 - 244 * 134 - 6) / 2;
    assert_eq!(most, 23);
    assert_eq!(accepted(&long_table(most)).table().len(), MOST_TABLE_BYTES);
    let expected = "line 247, column 1: the 245th row takes the event to 32770 bytes as a table, at most 32768";
    assert_eq!(shown(&long_table(most + 1)), [expected]);
    let longer = long_table(most + 1) + "a requests v on\nhost requires v off\n";
    assert_eq!(shown(&longer), [expected]);
}

#[test]
fn a_line_has_at_most_1000_words_and_a_text_at_most_1000_statements() {
    let names = |number: usize| format!("event a\n  variables {}", times("x", ",", number));
    assert_eq!(shown(&names(500)).len(), 20);
    let expected = "line 2, column 1012: the 1001st word of a line, at most 1000";
    assert_eq!(shown(&names(501)), [expected]);
    assert_eq!(shown(&names(90_000)), [expected]);
    let rows = |number: usize| "\nhost requires x on".repeat(number);
    assert_eq!(shown(&rows(1000)).len(), 20);
    let expected = "line 1002, column 1: the 1001st statement, at most 1000";
    assert_eq!(shown(&rows(1001)), [expected]);
    assert_eq!(shown(&rows(90_000)), [expected]);
}

#[test]
fn an_event_may_have_as_many_statements_as_its_parts() {
    let one_each = |word: &str, names: String| {
        let lines: Vec<String> = names
            .split(", ")
            .map(|name| format!("{word} {name}\n"))
            .collect();
        lines.concat()
    };
    let order = one_each("then:", names('p', 64)).replacen("then", "most important first", 1);
    let rows = "p64 requests v20 on\n".repeat(512);
    let declared = one_each("variable", names('v', 20)) + &one_each("plug-in", names('p', 64));
    let text = format!("event e\n{declared}{rows}{order}");
    assert_eq!(text.lines().count(), 661);
    assert_eq!(accepted(&text).rows.len(), 512);
}
