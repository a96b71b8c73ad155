//! Texts that are noise, a megabyte of it: each gets a mistake, and nothing panics.

use crate::mistakes;
use made::random::Random;
use review::names::RESERVED;

/// How much noise there is, in bytes or a little more.
const LENGTH: usize = 1_000_000;

/// Noise gets a mistake.
fn assert_mistaken(name: &str, noise: impl AsRef<[u8]>) {
    let noise = noise.as_ref();
    let found = mistakes(noise);
    println!("{name}: {} bytes: {}", noise.len(), found[0]);
}

/// Text of made parts, until it is long enough.
fn made(seed: u64, part: impl Fn(&mut Random) -> String) -> String {
    let mut random = Random::new(seed);
    let mut text = String::new();
    while text.len() < LENGTH {
        text += &part(&mut random);
    }
    text
}

/// Any word of the language, a mark, a name, a number or the end of a line.
fn word(random: &mut Random) -> String {
    let others = [
        "gps",
        "\"Split times\"",
        ",",
        ":",
        "\n",
        "-5",
        "\"",
        "#",
        "4000",
        "\\",
    ];
    let word = match random.chance(1, 2) {
        true => random.pick(&RESERVED),
        false => random.pick(&others),
    };
    format!("{word} ")
}

#[test]
fn random_bytes_letters_and_words() {
    for seed in 0..4 {
        assert_mistaken("bytes", Random::new(seed).bytes(LENGTH));
        let ascii = |random: &mut Random| char::from(32 + random.below(95) as u8).to_string();
        assert_mistaken("printable ASCII on one line", made(seed, ascii));
        let lines = |random: &mut Random| match random.chance(1, 40) {
            true => "\n".to_string(),
            false => ascii(random),
        };
        assert_mistaken("printable ASCII on lines", made(seed, lines));
        let unicode = |random: &mut Random| {
            let letter = char::from_u32(random.below(0x11_0000) as u32);
            letter.unwrap_or('\n').to_string()
        };
        assert_mistaken("Unicode", made(seed, unicode));
        assert_mistaken("words of the language", made(seed, word));
    }
}

/// What is repeated: what it is, what stands before it, and what is said again and again.
const REPEATED: &[(&str, &str, &str)] = &[
    ("one word", "", "x"),
    ("one number", "host allows at most ", "9"),
    ("digits for a name", "variables ", "9"),
    ("digits for a statement", "", "9"),
    ("one line of words", "", "x "),
    ("one open quote", "variables \"", "x"),
    ("a quote a letter", "variables ", "\"x\""),
    ("quotes", "", "\""),
    ("backslashes", "", "\\"),
    ("backslashes after a quote", "\"", "\\"),
    ("escaped quotes", "variables \"", "\\\""),
    ("quotes in quotes", "\"", "\\\"\" \""),
    ("commas", "", ","),
    ("commas after a word", "variables ", ","),
    ("colons", "most important first", ":"),
    ("one variable", "variables ", "x, "),
    (
        "one plug-in in the order",
        "plug-in x\nmost important first: x, ",
        "x, ",
    ),
    ("literals", "variable x\nhost requires x on", " or x on"),
    (
        "terms",
        "variable x\nhost allows at most 1: x takes 1",
        ", x takes 1",
    ),
    ("rows", "variable x\n", "host requires x on\n"),
    ("events", "", "event x\n"),
    ("orders", "plug-in x\n", "most important first: x\n"),
    ("thens", "plug-in x\nmost important first: x\n", "then: x\n"),
    ("words that are near a beginning", "", "hsot\n"),
    ("words that may be more of a name", "variables x", " y"),
    ("byte order marks", "\u{feff}", "\u{feff}"),
    ("carriage returns", "\r", "\r"),
];

#[test]
fn one_thing_a_million_times() {
    for (name, begin, part) in REPEATED {
        let repeated = part.repeat(LENGTH / part.len());
        assert_mistaken(name, format!("{begin}{repeated}"));
    }
}

#[test]
fn a_megabyte_of_names_that_are_unknown() {
    let known = (10..74).map(|number| format!("{number}{}", "x".repeat(78)));
    let known = known.collect::<Vec<String>>().join(", ");
    let declared = format!("plug-ins {known}\n");
    let unknown = "y".repeat(80);
    let names = vec![unknown.as_str(); 400].join(", ");
    let then = format!("then: {names}\n").repeat(LENGTH / names.len());
    let order = format!("{declared}most important first: {names}\n{then}");
    assert_mistaken("in the order", order);
    let literals = vec![format!("{unknown} on"); 60].join(" or ");
    let row = format!("{} requests {literals}\n", &known[..80]);
    assert_mistaken("in rows", declared + &row.repeat(LENGTH / row.len()));
}

#[test]
fn empty_lines_and_comments_say_nothing_however_many_there_are() {
    for nothing in [
        "\n",
        "\r\n",
        " \t\n",
        "#\n",
        "# \"\n",
        "\u{a0}",
        "\u{3000}\n",
    ] {
        let text = nothing.repeat(LENGTH / nothing.len());
        let event = crate::accepted(&text);
        assert_eq!(event, review::event::Event::default());
        let wrong = mistakes((text.clone() + "\n,").as_bytes());
        assert_eq!(wrong[0].line, 2 + text.matches('\n').count());
    }
}
