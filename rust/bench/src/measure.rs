//! Medians of times, all sides taken in turn so that they see the same computer, and the line that
//! shows them.

use std::iter::Sum;
use std::time::{Duration, Instant};

/// The times of one thing: by the library, by plain Rust with the same search, and by the naive
/// search, where that ends soon enough.
pub struct Times {
    /// The library.
    pub library: Duration,
    /// Plain Rust with the same search.
    pub plain: Duration,
    /// The naive search.
    pub naive: Option<Duration>,
}

impl Times {
    /// Runs the library and plain Rust in turn and takes medians; runs the naive search once. It
    /// says whether it came to an end.
    pub fn of(
        runs: usize,
        library: &mut dyn FnMut(),
        plain: &mut dyn FnMut(),
        naive: &mut dyn FnMut() -> bool,
    ) -> Times {
        let mut ended = false;
        let by_naive = time(&mut || ended = naive());
        let both = (0..runs).map(|_| (time(library), time(plain)));
        let (library, plain) = both.unzip();
        Times {
            library: median(library),
            plain: median(plain),
            naive: ended.then_some(by_naive),
        }
    }

    /// Prints the times and how often the library's time holds the others'.
    pub fn print(&self, name: &str) {
        let Times { library, plain, .. } = self;
        let ratio = |other: Duration| library.as_secs_f64() / other.as_secs_f64();
        let naive = match self.naive {
            Some(naive) => format!("{naive:>10.1?}   ratio {:>8.4}", ratio(naive)),
            None => "too long".into(),
        };
        let plain = format!("{plain:>10.1?}   ratio {:>5.2}", ratio(*plain));
        println!("{name:<45} library {library:>10.1?}   plain {plain}   naive {naive}");
    }
}

impl Sum for Times {
    /// The times of several things together.
    fn sum<I: Iterator<Item = Times>>(times: I) -> Times {
        let none = Times {
            library: Duration::ZERO,
            plain: Duration::ZERO,
            naive: Some(Duration::ZERO),
        };
        times.fold(none, |all, one| Times {
            library: all.library + one.library,
            plain: all.plain + one.plain,
            naive: all.naive.zip(one.naive).map(|(all, one)| all + one),
        })
    }
}

/// The time of one call.
fn time(call: &mut dyn FnMut()) -> Duration {
    let start = Instant::now();
    call();
    start.elapsed()
}

/// The middle one of some times.
fn median(mut times: Vec<Duration>) -> Duration {
    times.sort_unstable();
    times[times.len() / 2]
}
