//! Tables and runs as text that people write and read; docs/TEXT.md describes the notation.

mod alike;
mod digest;
mod first;
mod grammar;
mod log;
mod meaning;
mod names;
mod near;
mod records;
mod show;
mod stated;
mod table;
mod tokens;
mod trouble;
mod words;

pub use alike::{look_alikes, LookAlike};
pub use digest::digest;
pub use log::{log_digest, read_log};
pub use meaning::{read, read_all};
pub use near::nearest;
pub use records::{persistent_preconditions, steps_of, Part};
pub use show::{list_text, set_text};
pub use table::{Condition, Event, Listed, Log, Run, Table, OLD, PAPER};
pub use trouble::{lines, quoted, Place, Trouble};
pub use words::{read_event, read_set};

/// Where a byte is a control character other than a tab and the ends of lines, and other than the one that deletes.
pub fn control_at(bytes: &[u8]) -> Option<usize> {
    let control = |byte: &u8| *byte < 0x20 && !matches!(byte, b'\t' | b'\n' | b'\r');
    bytes.iter().position(control)
}

/// The bytes are taken as text: there are some, and none is a control character other than a tab and the ends of lines.
/// Every accepted table has a byte 0, the second byte of its first record's kind, so none is taken as text.
pub fn is_text(bytes: &[u8]) -> bool {
    !bytes.is_empty() && control_at(bytes).is_none()
}
