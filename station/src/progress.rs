//! A progress line on the terminal, for many sets.

use std::io::{self, IsTerminal};
use std::mem;
use std::time::{Duration, Instant};

use crate::output::{say, Output, Trouble};

/// From so many sets on.
const MANY: usize = 100;

/// How often the line changes.
const INTERVAL: Duration = Duration::from_millis(100);

/// Prints the text of each set. Where the line is shown, texts wait for its next change, so that none is printed into
/// it.
pub struct Progress {
    total: usize,
    done: usize,
    active: bool,
    changed: Instant,
    /// The length of the line that stands on the terminal now.
    drawn: usize,
    waiting: String,
}

impl Progress {
    pub fn new(total: usize) -> Progress {
        Progress {
            total,
            done: 0,
            active: total >= MANY && io::stderr().is_terminal(),
            changed: Instant::now(),
            drawn: 0,
            waiting: String::new(),
        }
    }

    /// One more set is done, with this text.
    pub fn print(&mut self, text: &str, out: &mut Output) -> Result<(), Trouble> {
        self.done += 1;
        if !self.active {
            return out.text(text);
        }
        self.waiting += text;
        if self.changed.elapsed() >= INTERVAL {
            self.end(out)?;
            self.draw();
        }
        Ok(())
    }

    /// Takes the line away and prints what waits.
    pub fn end(&mut self, out: &mut Output) -> Result<(), Trouble> {
        if self.drawn > 0 {
            say(&format!("\r{:width$}\r", "", width = self.drawn));
            self.drawn = 0;
        }
        out.text(&mem::take(&mut self.waiting))?;
        out.finish()
    }

    fn draw(&mut self) {
        let line = format!("judged {} of {} sets", self.done, self.total);
        say(&line);
        self.drawn = line.len();
        self.changed = Instant::now();
    }
}
