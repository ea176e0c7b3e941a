//! A bar on standard error, where that is a terminal.

use std::io::{stderr, stdout, IsTerminal, Write};
use std::time::{Duration, Instant};

const WIDTH: usize = 30;
const OFTEN: Duration = Duration::from_millis(100);

pub struct Bar {
    shown: bool,
    /// The report goes to a terminal too, most likely the same: lines and bar must not run into each other.
    beside_lines: bool,
    what: &'static str,
    began: Instant,
    drawn: Option<Instant>,
}

impl Bar {
    pub fn new(what: &'static str, wanted: bool) -> Bar {
        let shown = wanted && stderr().is_terminal();
        Bar { shown, beside_lines: stdout().is_terminal(), what, began: Instant::now(), drawn: None }
    }

    /// Before lines are written.
    pub fn make_room(&mut self) {
        if self.shown && self.beside_lines {
            self.wipe();
        }
    }

    /// Whether lines must be seen before the bar is drawn again.
    pub fn follows_lines(&self) -> bool {
        self.shown && self.beside_lines
    }

    pub fn draw(&mut self, done: usize, all: usize, pairs: u64) {
        let lately = self.drawn.is_some_and(|drawn| drawn.elapsed() < OFTEN);
        if !self.shown || (lately && done < all) {
            return;
        }
        self.drawn = Some(Instant::now());
        let line = bar(self.what, done, all, pairs, self.began.elapsed());
        // a bar that cannot be drawn is no reason to stop
        let _ = write!(stderr(), "\r\x1b[K{line}").and_then(|()| stderr().flush());
    }

    fn wipe(&mut self) {
        if self.drawn.take().is_some() {
            let _ = write!(stderr(), "\r\x1b[K").and_then(|()| stderr().flush());
        }
    }
}

/// However the work ends, the next line begins at the margin.
impl Drop for Bar {
    fn drop(&mut self) {
        if self.shown {
            self.wipe();
        }
    }
}

fn bar(what: &str, done: usize, all: usize, pairs: u64, taken: Duration) -> String {
    let share = done as f64 / all.max(1) as f64;
    let full = (share * WIDTH as f64) as usize;
    let left = if done == 0 { "-".to_string() } else { format!("{:.0}", taken.as_secs_f64() * (1.0 - share) / share) };
    let (hashes, dots) = ("#".repeat(full), ".".repeat(WIDTH - full));
    format!("{what} [{hashes}{dots}] {:3.0}%  {pairs} pairs, {left} s left", 100.0 * share)
}
