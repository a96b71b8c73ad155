//! The nearest of some known words: the one that fewest slips of the pen make of another.

/// The name that is nearest to another, if one is near: at most half of its letters are slips.
pub(super) fn near<'a>(name: &str, known: &[&'a str]) -> Option<&'a str> {
    nearest(name, known, 2)
}

/// The word of the language that another is meant for, if one is near: at most a third of its letters
/// are slips. What is farther from it is rather a name.
pub(super) fn meant<'a>(word: &str, known: &[&'a str]) -> Option<&'a str> {
    nearest(word, known, 3)
}

/// The nearest word, the first of those that are equally far, if at most this part of it is slips.
/// Words of very different lengths are not compared: the difference alone is too many slips.
fn nearest<'a>(word: &str, known: &[&'a str], part: usize) -> Option<&'a str> {
    let length = word.chars().count();
    let within = |slips: usize, other: &str| part * slips <= length.max(other.chars().count());
    let similar = |other: &&&str| within(length.abs_diff(other.chars().count()), other);
    let distances = known.iter().filter(similar);
    let distances = distances.map(|other| (slips(word, other), *other));
    let (distance, nearest) = distances.min_by_key(|(distance, _)| *distance)?;
    within(distance, nearest).then_some(nearest)
}

/// How many letters must be put in, left out, changed or exchanged with the next to make one word of
/// another, whether they are capitals or not.
fn slips(one: &str, other: &str) -> usize {
    let one: Vec<char> = one.to_lowercase().chars().collect();
    let other: Vec<char> = other.to_lowercase().chars().collect();
    let mut before: Vec<usize> = Vec::new();
    let mut above: Vec<usize> = (0..=other.len()).collect();
    for row in 1..=one.len() {
        let mut here = vec![row];
        for column in 1..=other.len() {
            let changed = usize::from(one[row - 1] != other[column - 1]);
            let mut least =
                (above[column - 1] + changed).min(above[column].min(here[column - 1]) + 1);
            let exchanged = row > 1
                && column > 1
                && one[row - 1] == other[column - 2]
                && one[row - 2] == other[column - 1];
            if exchanged {
                least = least.min(before[column - 2] + 1);
            }
            here.push(least);
        }
        before = above;
        above = here;
    }
    above[other.len()]
}

#[cfg(test)]
mod tests {
    use super::*;

    #[test]
    fn slips_are_counted() {
        for (one, other, expected) in [
            ("", "", 0),
            ("", "gps", 3),
            ("gps", "GPS", 0),
            ("gsp", "gps", 1),
            ("trakcing", "tracking", 1),
            ("tracking", "trackng", 1),
            ("splits", "split", 1),
            ("abc", "xyz", 3),
            ("chip reader", "chip raeders", 2),
        ] {
            assert_eq!(slips(one, other), expected, "{one} {other}");
            assert_eq!(slips(other, one), expected, "{other} {one}");
        }
    }

    #[test]
    fn only_what_is_near_is_told() {
        assert_eq!(near("trakcing", &["splits", "tracking"]), Some("tracking"));
        assert_eq!(near("camera", &["gps", "wifi"]), None);
        assert_eq!(near("gps", &[]), None);
        assert_eq!(near("track", &["tracking"]), Some("tracking"));
        assert_eq!(near(&"7".repeat(1_000_000), &["7"]), None);
    }

    #[test]
    fn a_word_of_the_language_is_meant_only_by_one_that_is_close_to_it() {
        assert_eq!(meant("Hots", &["then", "host"]), Some("host"));
        assert_eq!(meant("reqest", &["requests"]), Some("requests"));
        assert_eq!(meant("requires", &["requests"]), None);
        assert_eq!(meant("coast", &["host"]), None);
    }
}
