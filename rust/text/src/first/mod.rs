//! The reader that stops at the first trouble of a text: what is no piece of the notation comes before what is no statement, and that before
//! names. It says what keeps a text from being a table wherever one trouble alone is told; what a text states is told by the reader that
//! goes on after a trouble, and is the same by both.

mod grammar;
mod meaning;
mod tokens;

pub use meaning::read;
