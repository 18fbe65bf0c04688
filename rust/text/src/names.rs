//! The names that a text gives, and looking them up.

use std::collections::{BTreeMap, BTreeSet};

use crate::alike::alike;
use crate::grammar::{Element, List, Written};
use crate::near::nearest;
use crate::records::MOST_LIST;
use crate::table::{Run, Table};
use crate::trouble::{quoted, trouble, Place, Trouble, Troubles};

/// The names of conditions, of events or of runs, each with its number and place.
pub struct Names {
    of: &'static str,
    known: BTreeMap<String, (u16, Place)>,
    /// Why a name may be none, where there are no names at all.
    nameless: &'static str,
    /// Names that a statement in error may state; nothing is told of them.
    doubtful: BTreeSet<String>,
    /// Every name is known, or else among the doubtful.
    pub are_all: bool,
}

/// The name of a run and its place, where it has one.
pub type Label = Option<(String, Place)>;

impl Names {
    /// No names yet, of such things.
    pub fn none(of: &'static str) -> Names {
        Names {
            of,
            known: BTreeMap::new(),
            nameless: "",
            doubtful: BTreeSet::new(),
            are_all: true,
        }
    }

    /// No names yet, of such things; some are in doubt, and whether others may be stated that cannot be told.
    pub fn doubted(of: &'static str, doubtful: BTreeSet<String>, are_all: bool) -> Names {
        Names {
            doubtful,
            are_all,
            ..Names::none(of)
        }
    }

    /// The names of a table's events.
    pub fn of_events(table: &Table) -> Names {
        let numbered = (0..=u16::MAX).zip(&table.events);
        let named = numbered.filter_map(|(number, event)| {
            let name = event.name.clone()?;
            Some((name, (number, event.place)))
        });
        let known: BTreeMap<_, _> = named.collect();
        let nameless = match known.is_empty() && !table.events.is_empty() {
            true => ", as the table's events have numbers and no names",
            false => "",
        };
        Names {
            known,
            nameless,
            ..Names::none("event")
        }
    }

    /// Gives a name to a number; the first that has a name keeps it.
    pub fn give(&mut self, name: &str, number: u16, place: Place) -> Result<(), Trouble> {
        if let Some((_, other)) = self.known.get(name) {
            let expected = format!("a name that no other {} has", self.of);
            let found = format!("{}, which stands at {other} already", quoted(name));
            return trouble(place, expected, found);
        }
        self.known.insert(name.to_string(), (number, place));
        Ok(())
    }

    /// What is told of a name that is none: by which letter it is not the one that looks the same, or else which one is likely meant.
    fn unknown(&self, name: &str) -> String {
        let known = || self.known.keys().map(String::as_str);
        if let Some(difference) = alike(name, known()) {
            return format!(", whose {difference}");
        }
        let none = format!(", which is none{}", self.nameless);
        match nearest(name, known()) {
            Some(near) => format!("{none} (is `{near}` meant?)"),
            None => none,
        }
    }

    /// The number that a name stands for; a name that is none is noted, unless it is in doubt.
    pub fn number(&self, name: &str, place: Place, troubles: &mut Troubles) -> Option<u16> {
        let known = self.known.get(name);
        if known.is_some() || !self.are_all || self.doubtful.contains(name) {
            return known.map(|(number, _)| *number);
        }
        let told = match troubles.may_guess() {
            true => self.unknown(name),
            false => ", which is none".to_string(),
        };
        let expected = format!("the name or number of {} {}", article(self.of), self.of);
        troubles.noted(trouble(place, expected, quoted(name) + &told))
    }

    /// The run of such steps of events, as far as they are known.
    pub fn run(&self, place: Place, label: &Label, list: &List, troubles: &mut Troubles) -> Run {
        let mut step = |element: &Element| match &element.written {
            Written::Name(name) => self.number(name, element.place, troubles),
            Written::Number(number) | Written::Range(number, _) => Some(*number),
        };
        let steps: Vec<u16> = list.elements.iter().filter_map(&mut step).collect();
        troubles.noted(fits(list.elements.len(), MOST_LIST, "steps", list.place));
        Run {
            name: label.as_ref().map(|(name, _)| name.clone()),
            steps,
            places: list.elements.iter().map(|e| e.place).collect(),
            place,
        }
    }
}

/// The article before a word.
fn article(word: &str) -> &'static str {
    if word.starts_with('e') {
        "an"
    } else {
        "a"
    }
}

/// A list fits its record.
pub fn fits(count: usize, most: usize, of: &str, place: Place) -> Result<(), Trouble> {
    if count <= most {
        return Ok(());
    }
    trouble(
        place,
        format!("at most {most} {of}, which fill a record"),
        format!("{count}"),
    )
}
