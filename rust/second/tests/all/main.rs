//! The tests of the second implementation, by subject.

mod common;
mod export;
mod limits;
mod lines;
mod listing;
mod losses;
mod nets;
mod plain;
mod properties;
mod reader;
mod reading_back;
mod readings;
mod records;
mod refusals;
mod rules;
mod stops;
mod written;
