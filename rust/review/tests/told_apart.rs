//! A text or a table: an input is taken for what it is, whatever it is called.

use made::edges::edges;
use made::random::Random;
use made::sheet::h;
use made::stream::made;
use review::input::{event, is_table, NoEvent};
use review::text;
use std::fs;
use std::path::{Path, PathBuf};

/// The files of a folder of the samples with an ending.
fn samples(folder: &str, ending: &str) -> Vec<PathBuf> {
    let folder = Path::new(env!("CARGO_MANIFEST_DIR"))
        .join("../../samples")
        .join(folder);
    let paths = fs::read_dir(folder)
        .unwrap()
        .map(|file| file.unwrap().path());
    paths
        .filter(|path| path.extension().is_some_and(|found| found == ending))
        .collect()
}

/// Whether bytes are refused as a table, with this number and place.
fn refused(bytes: &[u8], number: u32, place: usize) -> bool {
    match event(bytes) {
        Err(NoEvent::Refused(refusal, _)) => (refusal.number, refusal.place) == (number, place),
        _ => false,
    }
}

#[test]
fn sample_tables_are_taken_for_tables_and_sample_events_for_texts() {
    let (tables, texts) = (samples("", "table"), samples("events", "event"));
    assert!(tables.len() >= 16 && texts.len() >= 3);
    for path in tables {
        let bytes = fs::read(&path).unwrap();
        assert!(is_table(&bytes), "{path:?}");
        assert!(
            !matches!(event(&bytes), Err(NoEvent::Mistaken(_))),
            "{path:?}"
        );
    }
    for path in texts {
        let bytes = fs::read(&path).unwrap();
        assert!(!is_table(&bytes), "{path:?}");
        assert_eq!(event(&bytes).ok(), text::read(&bytes).ok());
        assert!(event(&bytes).is_ok(), "{path:?}");
    }
}

#[test]
fn made_tables_are_taken_for_tables_however_they_are_damaged() {
    for seed in 0..3_000 {
        assert!(is_table(&made(seed).table), "seed {seed}");
    }
    for edge in edges() {
        assert!(is_table(&edge.table), "{}", edge.name);
    }
}

#[test]
fn a_table_with_one_of_its_first_bytes_changed_is_still_taken_for_one() {
    for place in 0..4 {
        for byte in 0..=255 {
            let mut table = h();
            table[place] = byte;
            assert!(is_table(&table), "{byte:#04X} at {place}");
            let mistaken = matches!(event(&table), Err(NoEvent::Mistaken(_)));
            assert!(!mistaken, "{byte:#04X} at {place}");
        }
    }
}

#[test]
fn a_table_whose_first_four_bytes_are_letters_is_taken_for_a_text() {
    for first in [*b"HEAD", *b"\n\n\n\n", [0xFF; 4], [0xFF, 0xFE, 1, 0]] {
        let mut table = h();
        table[..4].copy_from_slice(&first);
        assert!(!is_table(&table), "{first:?}");
        assert!(
            matches!(event(&table), Err(NoEvent::Mistaken(_))),
            "{first:?}"
        );
    }
}

#[test]
fn no_bytes_are_an_empty_table_and_no_text() {
    assert!(is_table(b""));
    assert!(refused(b"", 3, 0));
    assert!(text::read(b"").is_ok());
}

#[test]
fn a_text_may_begin_with_anything_but_a_control_character() {
    for begin in [
        " ",
        "\t",
        "\n",
        "\r\n",
        "#",
        "\u{feff}",
        "\u{feff}\n",
        "ü",
        "漢",
        "👟",
        "\t\t\n \n",
        "\n\n\n\n",
    ] {
        let text = format!("{begin}#\nevent a\n");
        let right = begin
            .chars()
            .all(|letter| "#\u{feff}".contains(letter) || letter.is_whitespace());
        assert!(!is_table(text.as_bytes()), "{begin:?}");
        assert_eq!(event(text.as_bytes()).is_ok(), right, "{begin:?}");
    }
    for short in ["\n", " ", "#", "#a", "#ab", "\r\n", "\u{feff}"] {
        assert!(event(short.as_bytes()).is_ok(), "{short:?}");
    }
    for short in ["x", "xy", "xyz", ",", "\"", "\r\r\r\n"] {
        assert!(
            matches!(event(short.as_bytes()), Err(NoEvent::Mistaken(_))),
            "{short:?}"
        );
    }
}

#[test]
fn a_control_character_among_the_first_four_bytes_makes_a_table_and_later_a_mistake() {
    for place in 0..8 {
        for byte in 0..=255u8 {
            let mut text = b"# comment\n".to_vec();
            text[place] = byte;
            let control = byte < 32 || byte == 127;
            let space = [b' ', b'\t', b'\n', 12, b'\r'].contains(&byte);
            let table = place < 4 && control && !space;
            assert_eq!(is_table(&text), table, "{byte:#04X} at {place}");
            let refused = matches!(event(&text), Err(NoEvent::Refused(_, _)));
            assert_eq!(refused, table, "{byte:#04X} at {place}");
            if control && byte != b'\t' {
                assert!(event(&text).is_err(), "{byte:#04X} at {place}");
            }
        }
    }
}

#[test]
fn what_is_accepted_as_a_text_is_never_a_table() {
    let mut random = Random::new(5);
    let letters = ["\n", "#", " ", "\t", "a", "\0", "\u{1}", "\u{4}", "\r\n"];
    let mut right = 0;
    for _ in 0..20_000 {
        let text: String = (0..5).map(|_| random.pick(&letters)).collect();
        if text::read(text.as_bytes()).is_ok() {
            assert!(!is_table(text.as_bytes()), "{text:?}");
            right += 1;
        }
    }
    assert!(right > 500, "{right}");
}
