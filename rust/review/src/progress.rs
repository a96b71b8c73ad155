//! Long work shows that it goes on: after two seconds a line on standard error tells what is being
//! done and for how long, and goes when it is done. Only where a person is there to see it.

use std::io::{self, IsTerminal, Write};
use std::panic::resume_unwind;
use std::sync::mpsc::{self, RecvTimeoutError};
use std::sync::Mutex;
use std::thread;
use std::time::{Duration, Instant};

/// How often the line is written anew; work that is done before the second time shows none.
const STEP: Duration = Duration::from_secs(1);

/// Where progress is shown, if it is.
pub struct Progress {
    shown_on: Option<Mutex<Box<dyn Write + Send>>>,
    step: Duration,
}

impl Progress {
    /// Nowhere.
    pub fn hidden() -> Progress {
        Progress {
            shown_on: None,
            step: STEP,
        }
    }

    /// On standard error, where that is a terminal.
    pub fn on_terminal() -> Progress {
        match io::stderr().is_terminal() {
            true => Progress::on(Box::new(io::stderr()), STEP),
            false => Progress::hidden(),
        }
    }

    /// On anything that can be written to, a line each step.
    pub fn on(out: Box<dyn Write + Send>, step: Duration) -> Progress {
        Progress {
            shown_on: Some(Mutex::new(out)),
            step,
        }
    }

    /// Does some work, and shows meanwhile what is being done.
    pub fn during<T: Send>(&self, words: &str, work: impl FnOnce() -> T + Send) -> T {
        let Some(out) = &self.shown_on else {
            return work();
        };
        let begun = Instant::now();
        thread::scope(|scope| {
            let (ends, ended) = mpsc::channel();
            let worker = scope.spawn(move || {
                let _ends = ends; // with the work, also where it panics
                work()
            });
            let mut shown = false;
            while ended.recv_timeout(self.step) == Err::<(), _>(RecvTimeoutError::Timeout) {
                if begun.elapsed() >= 2 * self.step {
                    show(out, &format!("\r{words}, {} s", begun.elapsed().as_secs()));
                    shown = true;
                }
            }
            if shown {
                show(out, "\r\x1b[K");
            }
            worker.join().unwrap_or_else(|panic| resume_unwind(panic))
        })
    }
}

/// Writes the line. Where that fails there is nobody to tell.
fn show(out: &Mutex<Box<dyn Write + Send>>, line: &str) {
    if let Ok(mut out) = out.lock() {
        let _ = out.write_all(line.as_bytes());
        let _ = out.flush();
    }
}
