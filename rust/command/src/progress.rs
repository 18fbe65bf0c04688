//! How far a long piece of work has come, on a line of the error output that is written over again and wiped at the end.

use std::io::{self, IsTerminal, Write};
use std::time::{Duration, Instant};

/// The work that is done without a word.
const QUIET: Duration = Duration::from_secs(1);

/// The least time between two such lines.
const BETWEEN: Duration = Duration::from_millis(500);

/// Asks for the line where it is 1, even if the error output is no terminal.
const ASKED: &str = "DOVETRELLIS_PROGRESS";

/// A line that tells how far work has come, if anybody is there to see it.
pub struct Line {
    /// The word of the command that works.
    work: &'static str,
    /// Somebody may look at it.
    is_seen: bool,
    /// When it may be written next.
    due: Instant,
    /// How many characters of it stand there now.
    written: usize,
}

impl Line {
    /// A line for work that begins now: it is seen where the environment asks for it, or where the error output is a terminal and the
    /// answer goes elsewhere, so that the two do not mix.
    pub fn new(work: &'static str) -> Line {
        let is_asked = std::env::var_os(ASKED).is_some_and(|value| value == "1");
        let is_free = io::stderr().is_terminal() && !io::stdout().is_terminal();
        Line {
            work,
            is_seen: is_asked || is_free,
            due: Instant::now() + QUIET,
            written: 0,
        }
    }

    /// Somebody may look at the line, so that it is worth counting for it.
    pub fn is_seen(&self) -> bool {
        self.is_seen
    }

    /// It is time to write the line again; the next time is then put off.
    fn is_due(&mut self) -> bool {
        let now = Instant::now();
        let is_due = self.is_seen && now >= self.due;
        if is_due {
            self.due = now + BETWEEN;
        }
        is_due
    }

    /// Writes over what stands there; where that fails nothing is lost but the line.
    fn put(&mut self, words: &str) {
        let blanks = " ".repeat(self.written.saturating_sub(words.chars().count()));
        let mut to = io::stderr().lock();
        let _ = write!(to, "\r{words}{blanks}").and_then(|()| to.flush());
        self.written = words.chars().count();
    }

    /// Tells in words how far the work has come, if it is time to.
    pub fn tell(&mut self, words: impl FnOnce() -> String) {
        if self.is_due() {
            let words = format!("{}: {}", self.work, words());
            self.put(&words);
        }
    }

    /// Tells how many are done of so many things, if it is time to.
    pub fn at(&mut self, done: u64, of: u64, things: &str) {
        self.tell(|| format!("{} of {} {things}", grouped(done), grouped(of)));
    }
}

impl Drop for Line {
    /// Wipes the line.
    fn drop(&mut self) {
        if self.written > 0 {
            self.put("");
            // the blanks are written now, and what comes next begins where the line did
            self.put("");
        }
    }
}

/// A number with commas between its thousands.
pub fn grouped(number: u64) -> String {
    let digits = number.to_string();
    let mut grouped = String::new();
    for (at, digit) in digits.chars().enumerate() {
        if at > 0 && (digits.len() - at) % 3 == 0 {
            grouped.push(',');
        }
        grouped.push(digit);
    }
    grouped
}
