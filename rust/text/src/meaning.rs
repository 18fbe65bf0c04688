//! From statements to a table: names are looked up, numbers given and lists sorted.

use std::collections::BTreeSet;
use std::ops::RangeInclusive;

use crate::first;
use crate::grammar::{Element, List, Statement, Written};
use crate::names::{fits, Label, Names};
use crate::records::{MOST_EVENT_LISTS, MOST_LIST, MOST_NUMBERED};
use crate::stated::{statements, Stated};
use crate::table::{Condition, Event, Listed, Table};
use crate::trouble::{quoted, trouble, Place, Trouble, Troubles};

/// The number of the next of so many things; that records have no room for it is told of the first such.
fn next_number(count: usize, of: &str, place: Place) -> Result<u16, Trouble> {
    if count == MOST_NUMBERED {
        return trouble(place, format!("at most {MOST_NUMBERED} {of}s"), "one more");
    }
    Ok(u16::try_from(count).unwrap_or(u16::MAX))
}

/// The trouble that a number does not stand at its own place.
fn misplaced(of: &str, due: usize, number: u16, place: Place) -> Result<(), Trouble> {
    let expected = format!("{due}, the number of the {of} that stands here, or a name");
    trouble(place, expected, format!("`{number}`"))
}

/// A text that is being turned into a table.
struct Meaning {
    table: Table,
    conditions: Names,
    events: Names,
    runs: Names,
    /// The numbers of conditions, and those of events, are sure so far, so that one out of place is told.
    is_numbered: [bool; 2],
    /// A condition's number was out of place, so that names and numbers of conditions may not fit.
    is_shifted: bool,
    troubles: Troubles,
}

impl Meaning {
    /// States one condition.
    fn state(&mut self, name: Option<String>, element: &Element) {
        let place = element.place;
        let number = next_number(self.table.conditions.len(), "condition", place);
        let number = self.troubles.noted(number).unwrap_or_default();
        if let Some(name) = &name {
            self.troubles
                .noted(self.conditions.give(name, number, place));
        }
        self.table.conditions.push(Condition {
            name,
            persistent: element.persistent,
            place,
        });
    }

    /// States the conditions of one element; of numbers that do not stand at their own places the first is told, and none is stated.
    fn state_element(&mut self, element: &Element) {
        let due = self.table.conditions.len();
        let (first, last) = match &element.written {
            Written::Name(name) => return self.state(Some(name.clone()), element),
            Written::Number(number) => (*number, *number),
            Written::Range(first, last) => (*first, *last),
        };
        if usize::from(first) == due && !self.is_shifted {
            (first..=last).for_each(|_| self.state(None, element));
            return;
        }
        if self.is_numbered[0] {
            let told = misplaced("condition", due, first, element.place);
            self.troubles.noted(told);
        }
        (self.is_numbered[0], self.is_shifted) = (false, true);
    }

    /// Numbers an event and takes its name, if it has one.
    fn state_event(&mut self, label: &Element) {
        let due = self.table.events.len();
        let number = next_number(due, "event", label.place);
        let number = self.troubles.noted(number).unwrap_or_default();
        let name = match &label.written {
            Written::Number(at) if usize::from(*at) != due && self.is_numbered[1] => {
                self.troubles
                    .noted(misplaced("event", due, *at, label.place));
                self.is_numbered[1] = false;
                None
            }
            Written::Name(name) => Some(name.clone()),
            _ => None,
        };
        if let Some(name) = &name {
            self.troubles
                .noted(self.events.give(name, number, label.place));
        }
        self.table.events.push(Event {
            name,
            place: label.place,
            ..Event::default()
        });
    }

    /// The conditions that an element of a list stands for; none where its name is none.
    fn referred(&mut self, element: &Element) -> Option<RangeInclusive<u16>> {
        match &element.written {
            Written::Name(name) => {
                let number = self
                    .conditions
                    .number(name, element.place, &mut self.troubles)?;
                Some(number..=number)
            }
            Written::Number(number) => Some(*number..=*number),
            Written::Range(first, last) => Some(*first..=*last),
        }
    }

    /// Notes that an element names a condition that the list has already, if names and numbers are sure.
    fn note_second(&mut self, number: u16, place: Place) {
        if !self.is_shifted {
            let found = format!(
                "{} a second time",
                quoted(&self.table.condition_name(number))
            );
            let second = trouble(place, "each condition once in a list", found);
            self.troubles.noted::<()>(second);
        }
    }

    /// The conditions of a list, ascending, and its elements are put to others; one that comes twice is trouble. Where conditions may be
    /// stated in error nothing is told.
    fn list(&mut self, list: &List, listed: &mut Vec<Listed>) -> Vec<u16> {
        let mut set = BTreeSet::new();
        if !self.conditions.are_all {
            return Vec::new();
        }
        for element in &list.elements {
            let Some(mut numbers) = self.referred(element) else {
                continue;
            };
            listed.push(Listed {
                first: *numbers.start(),
                last: *numbers.end(),
                place: element.place,
            });
            if let Some(second) = numbers.find(|number| !set.insert(*number)) {
                self.note_second(second, element.place);
            }
        }
        set.into_iter().collect()
    }

    /// Takes a run: events by name or number.
    fn state_run(&mut self, place: Place, label: &Label, list: &List) {
        if let Some((name, named)) = label {
            self.troubles.noted(self.runs.give(name, 0, *named));
        }
        let run = self.events.run(place, label, list, &mut self.troubles);
        self.table.runs.push(run);
    }

    /// States everything that may be named, so that lists and runs may name what comes after them.
    fn state_all(&mut self, statements: &[Statement]) {
        for statement in statements {
            match statement {
                Statement::Conditions(list) => {
                    list.elements.iter().for_each(|e| self.state_element(e))
                }
                Statement::Event(label, ..) => self.state_event(label),
                _ => {}
            }
            if self.troubles.are_enough() {
                return;
            }
        }
    }

    /// Fills the lists of an event.
    fn fill_event(&mut self, event: usize, before: &List, after: &List) {
        let mut listed = Vec::new();
        let preconditions = self.list(before, &mut listed);
        let postconditions = self.list(after, &mut listed);
        let both = preconditions.len() + postconditions.len();
        self.troubles
            .noted(fits(both, MOST_EVENT_LISTS, "conditions", before.place));
        let event = &mut self.table.events[event];
        (event.preconditions, event.postconditions) = (preconditions, postconditions);
        event.listed = listed;
    }

    /// Fills the start.
    fn fill_start(&mut self, place: Place, list: &List) {
        let mut listed = Vec::new();
        self.table.start = self.list(list, &mut listed);
        self.table.start_listed = listed;
        self.table.start_place = place;
        let count = self.table.start.len();
        self.troubles
            .noted(fits(count, MOST_LIST, "conditions", list.place));
    }

    /// Fills the rule, the digest, the lists of events, the start and the runs.
    fn fill(&mut self, statements: &[Statement]) {
        let mut event = 0;
        for statement in statements {
            if self.troubles.are_enough() {
                return;
            }
            match statement {
                Statement::Conditions(_) | Statement::Steps(_) => {}
                Statement::Rule(place, byte) => {
                    self.table.rule = Some(*byte);
                    self.table.rule_place = *place;
                }
                Statement::Digest(_, digest) => self.table.digest = Some(digest.clone()),
                Statement::Event(_, before, after) => {
                    self.fill_event(event, before, after);
                    event += 1;
                }
                Statement::Start(place, list) => self.fill_start(*place, list),
                Statement::Run(place, label, list) => self.state_run(*place, label, list),
            }
        }
    }
}

/// A statement that may stand once: its place, and what is expected where there is another.
fn once(statement: &Statement) -> Option<(&'static str, Place)> {
    match statement {
        Statement::Start(place, _) => Some(("one `start:`", *place)),
        Statement::Rule(place, _) => Some(("one `rule:` at most", *place)),
        _ => None,
    }
}

/// Where a digest is stated again, as in runs that were put together, it is the first one.
fn judge_digests(statements: &[Statement], troubles: &mut Troubles) {
    let digest = |statement| match statement {
        &Statement::Digest(place, (ref digest, _)) => Some((place, digest)),
        _ => None,
    };
    let mut digests = statements.iter().filter_map(digest);
    let Some((_, first)) = digests.next() else {
        return;
    };
    for (place, _) in digests.filter(|(_, digest)| *digest != first) {
        let expected = "the `table:` that is stated above";
        troubles.noted::<()>(trouble(place, expected, "another one"));
    }
}

/// The start and the rule are each stated no second time, and no other digest is.
pub fn judge_once(statements: &[Statement], troubles: &mut Troubles) {
    let mut seen = BTreeSet::new();
    for (what, place) in statements.iter().filter_map(once) {
        if !seen.insert(what) {
            troubles.noted::<()>(trouble(place, what, "a second one"));
        }
    }
    judge_digests(statements, troubles);
}

/// A statement states conditions.
fn states_conditions(statement: &Statement) -> bool {
    matches!(statement, Statement::Conditions(_))
}

/// Conditions are stated somewhere, and so is the start.
fn judge_parts(statements: &[Statement], end: Place) -> Result<(), Trouble> {
    if !statements.iter().any(states_conditions) {
        return trouble(end, "`conditions:` somewhere", "the end of the text");
    }
    let start = |s: &Statement| matches!(s, Statement::Start(..));
    if !statements.iter().any(start) {
        return trouble(end, "`start:` somewhere", "the end of the text");
    }
    Ok(())
}

/// The bytes as text, or where they are none.
pub fn decoded(bytes: &[u8]) -> Result<&str, Trouble> {
    let Err(error) = std::str::from_utf8(bytes) else {
        return Ok(std::str::from_utf8(bytes).unwrap_or_default());
    };
    let sound = std::str::from_utf8(&bytes[..error.valid_up_to()]).unwrap_or_default();
    let line = sound.rsplit('\n').next().unwrap_or_default();
    let place = Place {
        line: sound.matches('\n').count() + 1,
        column: line.chars().count() + 1,
    };
    let byte = bytes.get(error.valid_up_to()).copied().unwrap_or_default();
    let found = format!("the byte 0x{byte:02x}, which is none (save the file as UTF-8)");
    trouble(place, "text in UTF-8", found)
}

/// The table and the runs that a text states, or what first keeps it from being turned into records: what a reader finds that stops there.
/// That reader knows no digest, so of a text that states one it is the first that is found here.
pub fn read(bytes: &[u8]) -> Result<Table, Trouble> {
    let text = decoded(bytes)?;
    let meaning = meaning_of(text);
    let read = meaning.troubles.first_or(meaning.table);
    read.map_err(|trouble| match states_digest(text) {
        false => first::read(bytes).err().unwrap_or(trouble),
        true => trouble,
    })
}

/// A line of a text states a digest, be it a right one or not.
fn states_digest(text: &str) -> bool {
    text.lines().any(|line| {
        let after = line.trim_start().strip_prefix("table");
        let after = after.and_then(|rest| rest.trim_start().strip_prefix(':'));
        after.is_some_and(|rest| rest.trim_start().starts_with("sha256-"))
    })
}

/// The table and the runs that a text states, or all that keeps it from being turned into records, in the order of the text.
pub fn read_all(bytes: &[u8]) -> Result<Table, Vec<Trouble>> {
    let meaning = meaning_of(decoded(bytes).map_err(|trouble| vec![trouble])?);
    meaning.troubles.or(meaning.table)
}

/// What a text states, and what keeps it from being turned into records. What a statement in error may state is not missed elsewhere.
fn meaning_of(text: &str) -> Meaning {
    let Stated {
        statements,
        mut troubles,
        broken,
        end,
    } = statements(text);
    if troubles.are_none() {
        troubles.noted(judge_parts(&statements, end));
    }
    judge_once(&statements, &mut troubles);
    let is_stated = statements.iter().any(states_conditions) && !broken.has_conditions;
    let mut meaning = Meaning {
        table: Table::default(),
        conditions: Names::doubted("condition", broken.names.clone(), is_stated),
        events: Names::doubted("event", broken.names, !broken.has_labels),
        runs: Names::none("run"),
        is_numbered: [
            !broken.has_conditions && !broken.has_events,
            !broken.has_events,
        ],
        is_shifted: false,
        troubles,
    };
    meaning.state_all(&statements);
    meaning.fill(&statements);
    meaning
}
