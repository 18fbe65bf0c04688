//! A table with its runs, as a text states it: numbers, and the names and places that the text gives them.

use crate::trouble::Place;

/// A condition, with the place where the text states it.
#[derive(Clone, Debug, Default, PartialEq, Eq)]
pub struct Condition {
    pub name: Option<String>,
    pub persistent: bool,
    pub place: Place,
}

/// An element of a list in braces as the text has it: the first and the last condition that it stands for, and its place.
#[derive(Clone, Copy, Debug, PartialEq, Eq)]
pub struct Listed {
    pub first: u16,
    pub last: u16,
    pub place: Place,
}

/// An event with its two lists, each ascending and each condition once, and the elements of both in the order of the text.
#[derive(Clone, Debug, Default, PartialEq, Eq)]
pub struct Event {
    pub name: Option<String>,
    pub preconditions: Vec<u16>,
    pub postconditions: Vec<u16>,
    pub listed: Vec<Listed>,
    pub place: Place,
}

/// A run, with the place of each step.
#[derive(Clone, Debug, Default, PartialEq, Eq)]
pub struct Run {
    pub name: Option<String>,
    pub steps: Vec<u16>,
    pub places: Vec<Place>,
    pub place: Place,
}

/// The byte of the paper's rule, and that of the old one.
pub const PAPER: u8 = 0;
pub const OLD: u8 = 1;

/// A table and the runs that stand with it.
#[derive(Clone, Debug, Default, PartialEq, Eq)]
pub struct Table {
    /// The byte of the rule that is stated, if one is.
    pub rule: Option<u8>,
    pub rule_place: Place,
    /// The digest that the text states for the table, in small letters, and where.
    pub digest: Option<(String, Place)>,
    pub conditions: Vec<Condition>,
    pub events: Vec<Event>,
    pub start: Vec<u16>,
    /// The elements of the start in the order of the text.
    pub start_listed: Vec<Listed>,
    pub start_place: Place,
    pub runs: Vec<Run>,
}

/// The runs of a text that is no table, and the digest of the table that it states to be for, in small letters, with its place.
#[derive(Clone, Debug, Default, PartialEq, Eq)]
pub struct Log {
    pub runs: Vec<Run>,
    pub digest: Option<(String, Place)>,
}

/// A name where there is one, else the number.
fn named(name: Option<&Option<String>>, number: u16) -> String {
    match name {
        Some(Some(name)) => name.clone(),
        _ => number.to_string(),
    }
}

/// What one of several runs is called: its name, or its place among them, counted from 0.
fn run_name(runs: &[Run], index: usize) -> String {
    let name = runs.get(index).and_then(|run| run.name.clone());
    name.unwrap_or_else(|| index.to_string())
}

impl Log {
    /// What a run is called: its name, or its place among the runs, counted from 0.
    pub fn run_name(&self, index: usize) -> String {
        run_name(&self.runs, index)
    }
}

impl Table {
    /// The table follows the old rule.
    pub fn is_old(&self) -> bool {
        self.rule == Some(OLD)
    }

    /// What a condition is called: its name, or its number where it has none.
    pub fn condition_name(&self, number: u16) -> String {
        let condition = self.conditions.get(usize::from(number));
        named(condition.map(|c| &c.name), number)
    }

    /// A condition that the table has is persistent.
    pub fn is_persistent(&self, number: u16) -> bool {
        let condition = self.conditions.get(usize::from(number));
        condition.is_some_and(|c| c.persistent)
    }

    /// What an event is called: its name, or its number where it has none.
    pub fn event_name(&self, number: u16) -> String {
        let event = self.events.get(usize::from(number));
        named(event.map(|e| &e.name), number)
    }

    /// What a run is called: its name, or its place among the runs, counted from 0.
    pub fn run_name(&self, index: usize) -> String {
        run_name(&self.runs, index)
    }

    /// The place among the runs of the one that is called so.
    pub fn run_called(&self, name: &str) -> Option<usize> {
        (0..self.runs.len()).find(|index| self.run_name(*index) == name)
    }

    /// The place among the runs of the one that is called so, or has that number; no name is a number.
    pub fn run_meant(&self, word: &str) -> Option<usize> {
        let is_meant = |index: &usize| self.run_name(*index) == word || index.to_string() == word;
        (0..self.runs.len()).find(is_meant)
    }
}
