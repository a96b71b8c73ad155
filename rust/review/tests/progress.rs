//! Progress is shown of long work alone, and gone when the work is done.

use review::progress::Progress;
use std::io::{self, Write};
use std::sync::{Arc, Mutex};
use std::thread;
use std::time::Duration;

/// Something to write to that others can look at.
#[derive(Clone, Default)]
struct Shown(Arc<Mutex<Vec<u8>>>);

impl Write for Shown {
    fn write(&mut self, bytes: &[u8]) -> io::Result<usize> {
        self.0.lock().expect("nobody panics").write(bytes)
    }

    fn flush(&mut self) -> io::Result<()> {
        Ok(())
    }
}

impl Shown {
    fn words(&self) -> String {
        let bytes = self.0.lock().expect("nobody panics").clone();
        String::from_utf8(bytes).expect("words")
    }
}

#[test]
fn short_work_shows_nothing() {
    let shown = Shown::default();
    let progress = Progress::on(Box::new(shown.clone()), Duration::from_secs(600));
    assert_eq!(progress.during("thinking", || 7), 7);
    assert_eq!(shown.words(), "");
}

#[test]
fn long_work_shows_a_line_that_goes() {
    let shown = Shown::default();
    let progress = Progress::on(Box::new(shown.clone()), Duration::from_millis(1));
    let seen = shown.clone();
    let until_shown = || {
        let looks = (0..60_000).take_while(|_| seen.words().is_empty());
        looks.for_each(|_| thread::sleep(Duration::from_millis(1)));
        8
    };
    assert_eq!(progress.during("thinking", until_shown), 8);
    let words = shown.words();
    assert!(words.starts_with("\rthinking, "), "{words}");
    assert!(words.ends_with(" s\r\x1b[K"), "{words}");
}

#[test]
fn hidden_progress_does_the_work() {
    assert_eq!(Progress::hidden().during("thinking", || 9), 9);
}
