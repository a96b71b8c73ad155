//! A budget as a bar: a segment for each claim, a line at the limit, and what lies beyond the limit
//! hatched across. Places are parts of the width, so that a bar is as wide as its page.

use crate::page::html::Html;

/// How many patterns tell segments apart; patterns.svg has them.
const NUMBER_OF_PATTERNS: usize = 6;
/// The bar's edges, in hundredths of the width: their lines stay within the picture.
const LEFT: f64 = 0.4;
const RIGHT: f64 = 99.6;
/// From here on a number has room beside that of a limit at the left edge.
const LEAST_APART: f64 = 60.0;
/// A narrower segment has no gap beside it, which would hide it.
const LEAST_GAPPED: f64 = 1.0;

/// A segment of a bar.
pub struct Segment {
    /// What stands in it where there is room.
    pub key: String,
    /// How long it is.
    pub amount: i64,
    /// Which pattern it has; the same claim has the same one in every bar.
    pub pattern: usize,
}

/// A bar.
pub struct Bar<'a> {
    /// It stands once in a page.
    pub identifier: &'a str,
    /// What the bar is of.
    pub title: &'a str,
    /// What is seen in it, in words.
    pub description: &'a str,
    /// Where the limit is.
    pub room: i64,
    /// The claims.
    pub segments: Vec<Segment>,
    /// The highest number that the picture shows, for bars that are to be compared.
    pub most: i64,
}

impl Bar<'_> {
    /// The picture.
    pub fn picture(&self) -> Html {
        let title = format!("{}-title", self.identifier);
        let description = format!("{}-description", self.identifier);
        let attributes = [
            ("class", "bar"),
            ("role", "img"),
            ("aria-labelledby", &format!("{title} {description}")),
            ("width", "100%"),
            ("height", "4.5em"),
        ];
        let words = Html::element("title", &[("id", &title)], Html::text(self.title));
        let seen = Html::text(self.description);
        let words = words.and(Html::element("desc", &[("id", &description)], seen));
        let drawn = [
            self.frame(),
            self.segments(),
            self.beyond(),
            self.gaps(),
            self.nothing(),
            self.limit(),
            self.keys(),
        ];
        let drawn: Html = drawn.into_iter().collect();
        Html::element("svg", &attributes, words.and(drawn))
    }

    /// How much is claimed in all.
    fn total(&self) -> i64 {
        self.segments.iter().map(|segment| segment.amount).sum()
    }

    /// The lowest and the highest number of the picture, which are never the same.
    fn span(&self) -> (i64, i64) {
        let lowest = self.room.min(0);
        let highest = self.most.max(self.total()).max(self.room).max(lowest + 1);
        (lowest, highest)
    }

    /// Where a number lies, in hundredths of the width.
    fn place(&self, number: i64) -> f64 {
        let (lowest, highest) = self.span();
        let part = (number - lowest) as f64 / (highest - lowest) as f64;
        LEFT + part * (RIGHT - LEFT)
    }

    /// Where each segment begins and ends.
    fn places(&self) -> Vec<(f64, f64, &Segment)> {
        let mut begun = 0;
        let mut places = Vec::new();
        for segment in &self.segments {
            let end = begun + segment.amount;
            places.push((self.place(begun), self.place(end), segment));
            begun = end;
        }
        places
    }

    /// The room that there is.
    fn frame(&self) -> Html {
        block("room", self.place(0), self.place(self.room.max(0)))
    }

    /// The claims.
    fn segments(&self) -> Html {
        let segment = |(from, to, segment): (f64, f64, &Segment)| {
            let class = format!(
                "segment pattern-{}",
                segment.pattern % NUMBER_OF_PATTERNS + 1
            );
            block(&class, from, to)
        };
        self.places().into_iter().map(segment).collect()
    }

    /// What is beyond the limit. Where the room is less than nothing, that begins before any claim.
    fn beyond(&self) -> Html {
        match self.total() > self.room {
            true => block("beyond", self.place(self.room), self.place(self.total())),
            false => Html::nothing(),
        }
    }

    /// The gaps between segments.
    fn gaps(&self) -> Html {
        let places = self.places();
        let wide = |(from, to, _): &(f64, f64, &Segment)| to - from >= LEAST_GAPPED;
        let gap = |pair: &[(f64, f64, &Segment)]| match pair {
            [before, after] if wide(before) && wide(after) => line("gap", after.0, "1.5em", "4em"),
            _ => Html::nothing(),
        };
        places.windows(2).map(gap).collect()
    }

    /// Where the claims begin, if the limit is below that; its number only far from the limit's own.
    fn nothing(&self) -> Html {
        if self.room >= 0 {
            return Html::nothing();
        }
        let place = self.place(0);
        let number = match place > LEAST_APART {
            true => label("nothing", place, "0.95em", "0"),
            false => Html::nothing(),
        };
        line("nothing", place, "1.25em", "4.25em").and(number)
    }

    /// The line at the limit, and its number above it.
    fn limit(&self) -> Html {
        let place = self.place(self.room);
        let words = format!("limit {}", self.room);
        line("limit", place, "1.25em", "4.25em").and(label("limit", place, "0.95em", &words))
    }

    /// The keys of those segments that are wide enough for theirs.
    fn keys(&self) -> Html {
        let key = |(from, to, segment): (f64, f64, &Segment)| {
            let (from, to) = self.wider_part(from, to);
            let needed = 3.0 + 2.5 * segment.key.chars().count() as f64;
            match to - from >= needed {
                true => written("key", (from + to) / 2.0, "3.57em", "middle", &segment.key),
                false => Html::nothing(),
            }
        };
        self.places().into_iter().map(key).collect()
    }

    /// The wider part of a stretch that the limit cuts in two, so that no key stands on the line.
    fn wider_part(&self, from: f64, to: f64) -> (f64, f64) {
        let limit = self.place(self.room);
        match limit {
            limit if limit <= from || limit >= to => (from, to),
            limit if limit - from >= to - limit => (from, limit),
            limit => (limit, to),
        }
    }
}

/// A stretch of the bar.
fn block(class: &str, from: f64, to: f64) -> Html {
    let (x, width) = (percent(from), percent(to - from));
    let attributes = [
        ("class", class),
        ("x", &x),
        ("y", "1.5em"),
        ("width", &width),
        ("height", "2.5em"),
    ];
    Html::element("rect", &attributes, Html::nothing())
}

/// A line across the bar.
fn line(class: &str, place: f64, top: &str, bottom: &str) -> Html {
    let x = percent(place);
    let attributes = [
        ("class", class),
        ("x1", &x),
        ("x2", &x),
        ("y1", top),
        ("y2", bottom),
    ];
    Html::element("line", &attributes, Html::nothing())
}

/// Words at a place, set so that they stay within the picture.
fn label(class: &str, place: f64, height: &str, words: &str) -> Html {
    let anchor = match place {
        place if place < 25.0 => "start",
        place if place > 75.0 => "end",
        _ => "middle",
    };
    written(class, place, height, anchor, words)
}

/// Words at a place.
fn written(class: &str, place: f64, height: &str, anchor: &str, words: &str) -> Html {
    let x = percent(place);
    let attributes = [
        ("class", class),
        ("x", &x),
        ("y", height),
        ("text-anchor", anchor),
    ];
    Html::element("text", &attributes, Html::text(words))
}

/// A part of the width.
fn percent(hundredths: f64) -> String {
    format!("{hundredths:.3}%")
}
