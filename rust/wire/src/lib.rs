//! Calls of the proved library over pipes: a program asks the C driver, which calls the archive.
//!
//! [`Driver`] has one method for each call of `include/dovetrellis.h`, with the arguments of that call. The archive is for x86-64;
//! the driver is a program of its own, so that whoever asks it need not be linked with it.

mod calls;
mod driver;
mod request;

pub use calls::{whole, ConditionOrigin, Copy, Counts, EventOrigin};
pub use driver::Driver;
pub use request::{Call, Reply, Request};

use std::fmt;

/// The marker that says that a condition held at the start; any other marker is an event's number.
pub const START: u32 = u32::MAX;

/// A refusal: its number and its place, and with 11 and 12 alone the condition that stopped the step.
#[derive(Clone, Copy, Debug, PartialEq, Eq)]
pub struct Refusal {
    pub number: u64,
    pub place: u64,
    /// A condition of the table, or an unfolded one where unfolded events are fired.
    pub by: Option<u64>,
}

impl fmt::Display for Refusal {
    fn fmt(&self, f: &mut fmt::Formatter) -> fmt::Result {
        write!(f, "refused {} at {}", self.number, self.place)?;
        match self.by {
            Some(condition) => write!(f, " by {condition}"),
            None => Ok(()),
        }
    }
}

/// Why a call gave no answer.
#[derive(Clone, Debug, PartialEq, Eq)]
pub enum Failure {
    /// The library refused it.
    Refused(Refusal),
    /// The driver could not be started or broke off; the text says what happened.
    Lost(String),
}

/// What a call answers: its value, or why there is none.
pub type Answer<T> = Result<T, Failure>;

impl fmt::Display for Failure {
    fn fmt(&self, f: &mut fmt::Formatter) -> fmt::Result {
        match self {
            Failure::Refused(refusal) => refusal.fmt(f),
            Failure::Lost(what) => write!(f, "{what}"),
        }
    }
}

impl std::error::Error for Failure {}

impl From<std::io::Error> for Failure {
    fn from(error: std::io::Error) -> Failure {
        Failure::Lost(error.to_string())
    }
}
