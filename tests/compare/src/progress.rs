//! One line of progress, rewritten in place on standard error while something long
//! goes on, and erased at its end. Where standard error is no terminal there is none.

use std::io::{stderr, IsTerminal, Write};
use std::time::{Duration, Instant};

/// The line is rewritten no more often than this.
const PAUSE: Duration = Duration::from_millis(200);

/// The line is erased when this is dropped.
pub struct Progress {
    on_a_terminal: bool,
    began: Instant,
    rewritten: Instant,
    /// So many characters of a line stand there.
    shown: usize,
}

impl Progress {
    pub fn begin() -> Progress {
        let began = Instant::now();
        Progress { on_a_terminal: stderr().is_terminal(), began, rewritten: began, shown: 0 }
    }

    /// The time since it began.
    pub fn gone(&self) -> Duration {
        self.began.elapsed()
    }

    /// Shows a line, made with the time that is gone, in place of the last; but not so
    /// soon after that one.
    pub fn show_now_and_then(&mut self, line: impl FnOnce(Duration) -> String) {
        if self.on_a_terminal && self.rewritten.elapsed() >= PAUSE {
            self.show(&line(self.gone()));
        }
    }

    /// Shows a line in place of the last.
    pub fn show(&mut self, line: &str) {
        if self.on_a_terminal {
            self.rewritten = Instant::now();
            let width = self.shown;
            self.shown = line.chars().count();
            tell(&format!("\r{line:<width$}"));
        }
    }

    /// Leaves an empty line, with the next character at its beginning.
    pub fn erase(&mut self) {
        if self.shown > 0 {
            tell(&format!("\r{:width$}\r", "", width = self.shown));
            self.shown = 0;
        }
    }
}

impl Drop for Progress {
    fn drop(&mut self) {
        self.erase();
    }
}

/// A terminal that is gone is no fault of what goes on.
fn tell(text: &str) {
    let mut errors = stderr().lock();
    let _ = errors.write_all(text.as_bytes()).and_then(|()| errors.flush());
}

/// So many of so many are done in this time: `30 of 90 images, 5 s gone, 10 s left`.
pub fn of_all(done: u64, all: u64, what: &str, gone: Duration) -> String {
    let left = gone.mul_f64((all - done) as f64 / done.max(1) as f64);
    format!("{done} of {all} {what}, {} gone, {} left", in_words(gone), in_words(left))
}

/// A time to the second, or to the minute: `7 s`, `2 min 5 s`, `1 h 2 min`.
pub fn in_words(time: Duration) -> String {
    let seconds = time.as_secs();
    match (seconds / 3_600, seconds / 60 % 60, seconds % 60) {
        (0, 0, seconds) => format!("{seconds} s"),
        (0, minutes, seconds) => format!("{minutes} min {seconds} s"),
        (hours, minutes, _) => format!("{hours} h {minutes} min"),
    }
}
