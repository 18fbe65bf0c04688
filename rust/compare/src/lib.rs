//! The comparison of every call of the proved library with the second implementation, on generated cases.

pub mod case;
pub mod elements;
pub mod expected;
pub mod nets;
pub mod rules;
pub mod tally;
