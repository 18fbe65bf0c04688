//! Why a command ends without its answer, what is said then, and the exit status.

use std::io::{self, Write};

use wire::Refusal;

use crate::errors::{put, say};
use crate::files::plain;
use crate::help::HELP;
use crate::next;

/// A refusal in words: what its number means, and what its place is.
#[derive(Clone, Debug, PartialEq, Eq)]
pub struct Told {
    pub refusal: Refusal,
    pub what: String,
    pub place: String,
}

impl Told {
    /// The line that answers in place of anything else: number and place, and for 11 and 12 the condition.
    pub fn line(&self) -> String {
        self.refusal.to_string()
    }

    /// The two lines that say what it means and where it is.
    pub fn words(&self) -> String {
        format!("  what: {}\n  where: {}", self.what, self.place)
    }
}

/// Why a command ends without its answer.
#[derive(Debug)]
pub enum Stop {
    /// The library refused the table or the run.
    Refused(Told),
    /// The library or a program refused the table, and the output is a file's, so that nothing but the answer may go there.
    Withheld(Told),
    /// A text cannot be turned into records, or is for another table; the lines say where and why.
    Text(String),
    /// The words of the command are wrong.
    Use(String),
    /// There is no word that asks for anything.
    Unasked,
    /// Something that is needed could not be read, written, built or asked.
    Failed(String),
    /// The answer that was written says already what is refused.
    Answered,
    /// The reader of the answer is gone before all of it was written; only in the next version is that said, and a failure.
    Unread,
}

/// What is said where the reader is gone: what it has may be cut anywhere.
const UNREAD: &str = "the output was closed before all was written";

/// What a command comes to.
pub type Stopped<T> = Result<T, Stop>;

impl Stop {
    /// Says what happened: a refusal's one line goes to the output unless that is a file's, everything else to the error output.
    pub fn tell(&self, out: &mut impl Write) {
        match self {
            Stop::Refused(told) => {
                // where nobody reads the line there is nothing left to say it to
                let _ = writeln!(out, "{}", told.line()).and_then(|()| out.flush());
                put(told.words() + "\n");
            }
            Stop::Withheld(told) => put(format!("{}\n{}\n", told.line(), told.words())),
            Stop::Text(lines) => lines.lines().for_each(say),
            Stop::Failed(line) => say(line),
            Stop::Use(line) => say(format!("{line}\n'dovetrellis help' tells the commands")),
            Stop::Unasked => put(HELP),
            Stop::Unread if next::is_asked() => say(UNREAD),
            Stop::Unread => {}
            Stop::Answered => {}
        }
    }

    /// The exit status.
    pub fn status(&self) -> u8 {
        match self {
            Stop::Refused(_) | Stop::Withheld(_) | Stop::Text(_) | Stop::Answered => 1,
            Stop::Unread if !next::is_asked() => 0,
            Stop::Use(_) | Stop::Unasked | Stop::Failed(_) | Stop::Unread => 2,
        }
    }
}

impl From<io::Error> for Stop {
    fn from(error: io::Error) -> Stop {
        match error.kind() {
            io::ErrorKind::BrokenPipe => Stop::Unread,
            _ => Stop::Failed(format!("the answer cannot be written: {}", plain(&error))),
        }
    }
}
