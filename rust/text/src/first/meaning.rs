//! From statements to a table: names are looked up, numbers given and lists sorted.

use std::collections::{BTreeMap, BTreeSet};

use super::grammar::{statements, Element, List, Statement, Written};
use crate::near::nearest;
use crate::records::{MOST_EVENT_LISTS, MOST_LIST, MOST_NUMBERED};
use crate::table::{Condition, Event, Run, Table};
use crate::trouble::{quoted, trouble, Place, Trouble};

/// The names of conditions, of events or of runs, each with its number and place.
struct Names {
    of: &'static str,
    known: BTreeMap<String, (u16, Place)>,
}

impl Names {
    /// No names yet, of such things.
    fn none(of: &'static str) -> Names {
        Names {
            of,
            known: BTreeMap::new(),
        }
    }

    /// Gives a name to a number.
    fn give(&mut self, name: &str, number: u16, place: Place) -> Result<(), Trouble> {
        match self.known.insert(name.to_string(), (number, place)) {
            None => Ok(()),
            Some((_, other)) => {
                let expected = format!("a name that no other {} has", self.of);
                let found = format!("{}, which stands at {other} already", quoted(name));
                trouble(place, expected, found)
            }
        }
    }

    /// The number that a name stands for.
    fn number(&self, name: &str, place: Place) -> Result<u16, Trouble> {
        if let Some((number, _)) = self.known.get(name) {
            return Ok(*number);
        }
        let expected = format!("the name or number of {} {}", article(self.of), self.of);
        let meant = match nearest(name, self.known.keys().map(String::as_str)) {
            Some(near) => format!(" (is `{near}` meant?)"),
            None => String::new(),
        };
        let found = format!("{}, which is none{meant}", quoted(name));
        trouble(place, expected, found)
    }
}

/// The article before a word.
fn article(word: &str) -> &'static str {
    if word.starts_with('e') {
        "an"
    } else {
        "a"
    }
}

/// The number of the next of so many things, or the trouble that records have no room for it.
fn next_number(count: usize, of: &str, place: Place) -> Result<u16, Trouble> {
    match u16::try_from(count) {
        Ok(number) if count < MOST_NUMBERED => Ok(number),
        _ => trouble(place, format!("at most {MOST_NUMBERED} {of}s"), "one more"),
    }
}

/// A text that is being turned into a table.
struct Meaning {
    table: Table,
    conditions: Names,
    events: Names,
    runs: Names,
}

impl Meaning {
    /// The trouble that a number does not stand at its own place.
    fn misplaced<T>(of: &str, due: usize, number: u16, place: Place) -> Result<T, Trouble> {
        let expected = format!("{due}, the number of the {of} that stands here, or a name");
        trouble(place, expected, format!("`{number}`"))
    }

    /// States one condition.
    fn state(&mut self, name: Option<String>, element: &Element) -> Result<(), Trouble> {
        let place = element.place;
        let number = next_number(self.table.conditions.len(), "condition", place)?;
        if let Some(name) = &name {
            self.conditions.give(name, number, place)?;
        }
        self.table.conditions.push(Condition {
            name,
            persistent: element.persistent,
            place,
        });
        Ok(())
    }

    /// States the conditions of one element.
    fn state_element(&mut self, element: &Element) -> Result<(), Trouble> {
        let due = self.table.conditions.len();
        let (first, last) = match &element.written {
            Written::Name(name) => return self.state(Some(name.clone()), element),
            Written::Number(number) => (*number, *number),
            Written::Range(first, last) => (*first, *last),
        };
        if usize::from(first) != due {
            return Meaning::misplaced("condition", due, first, element.place);
        }
        (first..=last).try_for_each(|_| self.state(None, element))
    }

    /// Numbers an event and takes its name, if it has one.
    fn state_event(&mut self, label: &Element) -> Result<(), Trouble> {
        let due = self.table.events.len();
        let number = next_number(due, "event", label.place)?;
        let name = match &label.written {
            Written::Number(at) if *at != number => {
                return Meaning::misplaced("event", due, *at, label.place)
            }
            Written::Name(name) => Some(name.clone()),
            _ => None,
        };
        if let Some(name) = &name {
            self.events.give(name, number, label.place)?;
        }
        self.table.events.push(Event {
            name,
            place: label.place,
            ..Event::default()
        });
        Ok(())
    }

    /// The conditions that an element of a list stands for.
    fn referred(&self, element: &Element) -> Result<Vec<u16>, Trouble> {
        Ok(match &element.written {
            Written::Name(name) => vec![self.conditions.number(name, element.place)?],
            Written::Number(number) => vec![*number],
            Written::Range(first, last) => (*first..=*last).collect(),
        })
    }

    /// The conditions of a list, ascending; one that comes twice is trouble.
    fn list(&self, list: &List) -> Result<Vec<u16>, Trouble> {
        let mut set = BTreeSet::new();
        for element in &list.elements {
            for number in self.referred(element)? {
                if !set.insert(number) {
                    let name = self.table.condition_name(number);
                    let found = format!("{} a second time", quoted(&name));
                    return trouble(element.place, "each condition once in a list", found);
                }
            }
        }
        Ok(set.into_iter().collect())
    }

    /// Takes a run: events by name or number.
    fn state_run(
        &mut self,
        place: Place,
        label: &Option<(String, Place)>,
        list: &List,
    ) -> Result<(), Trouble> {
        if let Some((name, named)) = label {
            self.runs.give(name, 0, *named)?;
        }
        let step = |element: &Element| match &element.written {
            Written::Name(name) => self.events.number(name, element.place),
            Written::Number(number) | Written::Range(number, _) => Ok(*number),
        };
        let steps: Vec<u16> = list.elements.iter().map(step).collect::<Result<_, _>>()?;
        fits(steps.len(), MOST_LIST, "steps", list.place)?;
        self.table.runs.push(Run {
            name: label.as_ref().map(|(name, _)| name.clone()),
            steps,
            places: list.elements.iter().map(|e| e.place).collect(),
            place,
        });
        Ok(())
    }

    /// States everything that may be named, so that lists and runs may name what comes after them.
    fn state_all(&mut self, statements: &[Statement]) -> Result<(), Trouble> {
        for statement in statements {
            match statement {
                Statement::Conditions(list) => list
                    .elements
                    .iter()
                    .try_for_each(|e| self.state_element(e))?,
                Statement::Event(label, ..) => self.state_event(label)?,
                _ => {}
            }
        }
        Ok(())
    }

    /// Fills the rule, the lists of events, the start and the runs.
    fn fill(&mut self, statements: &[Statement]) -> Result<(), Trouble> {
        let mut event = 0;
        for statement in statements {
            match statement {
                Statement::Conditions(_) => {}
                Statement::Rule(place, byte) => {
                    self.table.rule = Some(*byte);
                    self.table.rule_place = *place;
                }
                Statement::Event(_, before, after) => {
                    let (pre, post) = (self.list(before)?, self.list(after)?);
                    let both = pre.len() + post.len();
                    fits(both, MOST_EVENT_LISTS, "conditions", before.place)?;
                    self.table.events[event].preconditions = pre;
                    self.table.events[event].postconditions = post;
                    event += 1;
                }
                Statement::Start(place, list) => {
                    self.table.start = self.list(list)?;
                    self.table.start_place = *place;
                    fits(self.table.start.len(), MOST_LIST, "conditions", list.place)?;
                }
                Statement::Run(place, label, list) => self.state_run(*place, label, list)?,
            }
        }
        Ok(())
    }
}

/// A list fits its record.
fn fits(count: usize, most: usize, of: &str, place: Place) -> Result<(), Trouble> {
    if count <= most {
        return Ok(());
    }
    trouble(
        place,
        format!("at most {most} {of}, which fill a record"),
        format!("{count}"),
    )
}

/// Conditions are stated, the start is stated once, and the rule at most once.
fn judge_parts(statements: &[Statement], end: Place) -> Result<(), Trouble> {
    let start = |s: &&Statement| matches!(s, Statement::Start(..));
    if let Some(Statement::Start(place, _)) = statements.iter().filter(start).nth(1) {
        return trouble(*place, "one `start:`", "a second one");
    }
    let rule = |s: &&Statement| matches!(s, Statement::Rule(..));
    if let Some(Statement::Rule(place, _)) = statements.iter().filter(rule).nth(1) {
        return trouble(*place, "one `rule:` at most", "a second one");
    }
    if !statements
        .iter()
        .any(|s| matches!(s, Statement::Conditions(_)))
    {
        return trouble(end, "`conditions:` somewhere", "the end of the text");
    }
    if !statements.iter().any(|s| start(&s)) {
        return trouble(end, "`start:` somewhere", "the end of the text");
    }
    Ok(())
}

/// The bytes as text, or where they are none.
fn decoded(bytes: &[u8]) -> Result<&str, Trouble> {
    let Err(error) = std::str::from_utf8(bytes) else {
        return Ok(std::str::from_utf8(bytes).unwrap_or_default());
    };
    let sound = std::str::from_utf8(&bytes[..error.valid_up_to()]).unwrap_or_default();
    let line = sound.rsplit('\n').next().unwrap_or_default();
    let place = Place {
        line: sound.matches('\n').count() + 1,
        column: line.chars().count() + 1,
    };
    let byte = bytes.get(error.valid_up_to()).copied().unwrap_or_default();
    let found = format!("the byte 0x{byte:02x}, which is none (save the file as UTF-8)");
    trouble(place, "text in UTF-8", found)
}

/// The table and the runs that a text states, or what keeps it from being turned into records.
pub fn read(bytes: &[u8]) -> Result<Table, Trouble> {
    let (statements, end) = statements(decoded(bytes)?)?;
    judge_parts(&statements, end)?;
    let mut meaning = Meaning {
        table: Table::default(),
        conditions: Names::none("condition"),
        events: Names::none("event"),
        runs: Names::none("run"),
    };
    meaning.state_all(&statements)?;
    meaning.fill(&statements)?;
    Ok(meaning.table)
}
