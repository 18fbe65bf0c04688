//! The error output.

use std::fmt::Display;
use std::io::{self, Write};

/// Writes text to the error output; where that cannot be written, what is answered and the exit status stay what they are.
pub fn put(text: impl Display) {
    let mut to = io::stderr().lock();
    let _ = write!(to, "{text}").and_then(|()| to.flush());
}

/// Writes a line to the error output that begins with the command's name.
pub fn say(line: impl Display) {
    put(format!("dovetrellis: {line}\n"));
}
