//! Refusals in words: what the number means, and what the place is in the file that was given.

use text::{Event, Listed, Part, PAPER};
use wire::{Failure, Refusal};

use crate::files::{begins_with, why_records, why_records_in_next, RUN_KINDS, TABLE_KINDS};
use crate::next;
use crate::source::{RunSource, Source, MOST_STEPS};
use crate::stop::{Stop, Told};

/// What a refusal's number means.
pub fn meaning(number: u64) -> &'static str {
    match number {
        1 => "a record is due here, but its header or payload runs past the end of the file",
        2 => "a record of this kind is not allowed here",
        3 => "the record's length is not right for its kind",
        4 => "a condition's byte is neither 0, ordinary, nor 1, persistent",
        5 => "a list does not ascend, or names a condition that the table does not have",
        6 => "there are over 256 events",
        7 => "the event has neither a precondition nor a postcondition",
        8 => "the event has over 16 persistent preconditions",
        9 => "there are bytes after the last record",
        10 => "there is no such event",
        11 => "a precondition of the event does not hold",
        12 => "contact: an ordinary postcondition of the event holds already and is not among its preconditions, or the table follows the old rule",
        13 => "the event touches nothing once unfolded: it takes nothing and marks only what no event reads",
        14 => "there are over 65535 unfolded conditions or unfolded events",
        15 => "an event comes again that marks a persistent condition which another event uses; the unfolded net has no such run",
        16 => "what was lent for the answer is too short",
        17 => "the two steps depend on each other and may not change places",
        18 => "a marking has the wrong length, or a byte above 1",
        19 => "the file is too long (65536 bytes for a table, 8196 for a run)",
        _ => "this number is not in the list of refusals",
    }
}

/// The kind of a Rule record.
const RULE: u8 = 6;

/// What the byte of a Rule record is where it is refused by 4.
const NO_RULE: &str = "the rule's byte is neither 0, the paper's rule, nor 1, the old rule";

/// What is due instead where a record of the table has the wrong kind (2).
fn due_kind(bytes: &[u8], offset: usize) -> &'static str {
    match record_at(bytes, offset) {
        (_, 0) => "a table begins with its Conditions, kind 1, or with a Rule, kind 6",
        (_, 1) if is_rule(bytes, 0) => "after the Rule the Conditions, kind 1, are due",
        _ if is_rule(bytes, offset) => {
            "a Rule stands first or nowhere; an Event, kind 2, or the Marking, kind 3, is due"
        }
        _ => "an Event, kind 2, or the Marking, kind 3, is due",
    }
}

/// What is due instead where a record of the table has the wrong kind (2) or length (3).
fn due_in_table(number: u64, bytes: &[u8], offset: usize) -> Option<&'static str> {
    match (number, record_at(bytes, offset).0) {
        (2, _) => Some(due_kind(bytes, offset)),
        (3, Some(2)) => Some("an event has 4 bytes and 2 for each condition that it counts"),
        (3, Some(3)) => Some("a marking has 2 bytes for each condition"),
        (3, Some(RULE)) => Some("a rule is 1 byte"),
        (3, _) => Some("there are 1 to 256 conditions"),
        _ => None,
    }
}

/// What a refusal's number means, and more about it, if more is known.
pub fn meaning_with(number: u64, more: Option<&str>) -> String {
    match more {
        Some(more) => format!("{}: {more}", meaning(number)),
        None => meaning(number).to_string(),
    }
}

/// Why a condition stopped a step, by the number of the refusal; the condition is put as it is called, and whether it stopped an event
/// that takes it, as only the old rule has it.
pub fn stopped_by(number: u64, condition: &str, is_taken: bool) -> String {
    let contact = format!("{condition} still holds, and the event would set it again: contact");
    match (number, is_taken) {
        (11, _) => format!("{condition} does not hold, and the event needs it"),
        (_, false) => contact,
        (_, true) => {
            format!("{contact}; it is a precondition too, but the table follows the old rule")
        }
    }
}

/// The conditions that hold in a marking.
pub fn held(marking: &[u8]) -> Vec<u16> {
    let held = (0..=u16::MAX).zip(marking).filter(|(_, held)| **held == 1);
    held.map(|(number, _)| number).collect()
}

/// Which events a table or an unfolding has, as it is said where another one is named.
pub fn events_of(net: &str, count: u64) -> String {
    match count {
        0 => format!("{net} has none"),
        1 if next::is_asked() => format!("{net} has event 0 alone"),
        _ => format!("{net} has events 0 to {}", count - 1),
    }
}

/// So many things of a kind, in words.
pub fn counted(count: u64, thing: &str) -> String {
    let plural = if count == 1 { "" } else { "s" };
    format!("{count} {thing}{plural}")
}

/// A number with the name that it has, if any.
fn with_name(number: u16, name: &str) -> String {
    if name == number.to_string() {
        return name.to_string();
    }
    format!("{number} `{name}`")
}

/// The kind of the record at an offset, and how many records come before it.
fn record_at(bytes: &[u8], offset: usize) -> (Option<u8>, usize) {
    let mut at = 0;
    let mut before = 0;
    while at < offset && at + 4 <= bytes.len() {
        at += 4 + usize::from(bytes[at]) + 256 * usize::from(bytes[at + 1]);
        before += 1;
    }
    (bytes.get(offset + 2).copied(), before)
}

/// A Rule record stands at an offset.
fn is_rule(bytes: &[u8], offset: usize) -> bool {
    let rest = bytes.get(offset..).unwrap_or_default();
    begins_with(rest, &[RULE])
}

/// What the record at an offset of a table is called.
fn record_called(bytes: &[u8], offset: usize) -> String {
    let front = usize::from(is_rule(bytes, 0));
    match record_at(bytes, offset) {
        (_, 0) if front == 1 => "the Rule record".to_string(),
        (_, 0) => "the first record".to_string(),
        (_, 1) if front == 1 => "the record after the Rule".to_string(),
        (Some(2), before) => format!("the record of event {}", before - 1 - front),
        (Some(3), _) => "the Marking record".to_string(),
        (_, before) => format!("record {before}, counted from 0"),
    }
}

impl Source {
    /// The rule that the table states, in words; nothing where it states none.
    pub fn rule_told(&self) -> Option<&'static str> {
        let rule = self.table.rule?;
        Some(match rule {
            PAPER => "the paper's rule",
            _ => "the old rule",
        })
    }

    /// By the old rule a condition that holds stops even an event that takes it: this one does.
    pub fn stops_taker(&self, event: u16, condition: u16) -> bool {
        let event = self.table.events.get(usize::from(event));
        self.table.is_old() && event.is_some_and(|e| e.preconditions.contains(&condition))
    }

    /// An event with its name.
    pub fn event_called(&self, number: u16) -> String {
        let name = self.table.event_name(number);
        format!("event {}", with_name(number, &name))
    }

    /// An event with its name and its line.
    pub fn event_told(&self, number: u16) -> String {
        let told = self.event_called(number);
        match self.table.events.get(usize::from(number)) {
            Some(event) if self.is_text => {
                format!("{told}, line {} of {}", event.place.line, self.path)
            }
            _ => format!("{told} of {}", self.path),
        }
    }

    /// The first element of a list of a text that names a condition which the table does not have, if the record at an offset has one.
    fn no_condition(&self, offset: usize) -> Option<Listed> {
        let listed = match self.table.part_at(offset)? {
            Part::Event(event) => &self.table.events[event].listed,
            Part::Start => &self.table.start_listed,
            _ => return None,
        };
        let count = self.table.conditions.len();
        let none = |element: &&Listed| usize::from(element.last) >= count;
        listed.iter().find(none).copied()
    }

    /// What an element names that is no condition of the table, and which conditions there are.
    fn no_condition_meaning(&self, element: Listed) -> String {
        let named = match element.first == element.last {
            true => format!("condition {}", element.first),
            false => format!("conditions {} to {}", element.first, element.last),
        };
        let known = match self.table.conditions.len() {
            1 => "condition 0 alone".to_string(),
            count => format!("conditions 0 to {}", count - 1),
        };
        format!("a list names {named}, and the table has {known}")
    }

    /// Where the element stands that is no condition of the table.
    fn no_condition_told(&self, offset: usize, element: Listed) -> String {
        let of = match self.table.part_at(offset) {
            Some(Part::Event(event)) => self.event_called(event as u16),
            _ => "`start:`".to_string(),
        };
        format!("{of}, {} of {}", element.place, self.path)
    }

    /// What stands at an offset of the table.
    fn offset_told(&self, offset: usize) -> String {
        let path = &self.path;
        if self.is_text {
            return match self.table.part_at(offset) {
                Some(Part::Event(event)) => self.event_told(event as u16),
                Some(Part::Start) => {
                    format!("`start:`, line {} of {path}", self.table.start_place.line)
                }
                Some(Part::Rule) => {
                    format!("`rule:`, line {} of {path}", self.table.rule_place.line)
                }
                _ => format!("the conditions of {path}"),
            };
        }
        let record = record_called(&self.bytes, offset);
        let why = why_records(&self.bytes, TABLE_KINDS);
        format!("byte {offset} of {path}, {record}{why}")
    }

    /// What the place of a refusal of the table is.
    fn place_told(&self, refusal: Refusal) -> String {
        match refusal.number {
            1..=8 => self.offset_told(refusal.place as usize),
            9 => format!("byte {} of {}", refusal.place, self.path),
            13 => self.event_told(refusal.place as u16),
            19 => {
                let of = if self.is_text { "the records of " } else { "" };
                format!("{of}{}, {} bytes", self.path, self.bytes.len())
            }
            _ => self.path.clone(),
        }
    }

    /// What the place of a refusal of a run of this table is.
    fn step_told(&self, run: &RunSource, refusal: Refusal) -> String {
        let called = &run.called;
        let step = refusal.place as usize;
        match (refusal.number, run.places.first()) {
            (10..=12 | 15, _) => {}
            (1..=9, None) => {
                let why = why_records_in_next(&run.bytes, RUN_KINDS);
                return format!("byte {} of {called}{why}", refusal.place);
            }
            (1..=9, Some(first)) => {
                return format!("{called}, whose steps begin at {first} of {}", run.path)
            }
            (19, _) => return format!("{called}, {} bytes as a record", run.bytes.len()),
            _ => return called.clone(),
        }
        let told = format!("step {step} of {called}, counted from 0");
        let Some(event) = run.steps.get(step) else {
            return told;
        };
        let event = self.event_called(*event);
        match run.places.get(step) {
            Some(place) => format!("{told}: {event}, {place} of {}", run.path),
            None => format!("{told}: {event}"),
        }
    }

    /// What is due instead where the record of a run is wrong, or names no event of this table.
    fn due_in_run(&self, number: u64) -> Option<String> {
        match number {
            2 => Some("a run is one record of kind 4".to_string()),
            3 => Some("a run has 2 bytes for each step, and at most 4096 steps".to_string()),
            10 => Some(events_of("the table", self.table.events.len() as u64)),
            _ => None,
        }
    }

    /// A condition of the table with its name.
    pub fn condition_told(&self, number: u16) -> String {
        let name = self.table.condition_name(number);
        format!("condition {}", with_name(number, &name))
    }

    /// What a refusal of the table means.
    fn table_meaning(&self, number: u64, offset: usize) -> String {
        let persistent = text::persistent_preconditions(&self.bytes, offset);
        match (number, persistent) {
            (4, _) if is_rule(&self.bytes, offset) => NO_RULE.to_string(),
            (8, Some(count)) => {
                format!("the event has {count} persistent preconditions, and 16 are the most")
            }
            _ => meaning_with(number, due_in_table(number, &self.bytes, offset)),
        }
    }

    /// A refusal of the table, told; in the next version a number that is no condition is told by its own place in the text.
    pub fn told(&self, refusal: Refusal) -> Told {
        let offset = refusal.place as usize;
        let element = match (self.is_text, refusal.number) {
            (true, 5) if next::is_asked() => self.no_condition(offset),
            _ => None,
        };
        let (what, place) = match element {
            Some(element) => (
                self.no_condition_meaning(element),
                self.no_condition_told(offset, element),
            ),
            None => (
                self.table_meaning(refusal.number, offset),
                self.place_told(refusal),
            ),
        };
        Told {
            refusal,
            what,
            place,
        }
    }

    /// The lowest persistent condition that an event marks and another event uses, with the lowest such user.
    pub fn marked_for_other(&self, event: u16) -> Option<(u16, u16)> {
        let events = || (0..=u16::MAX).zip(&self.table.events);
        let other_user = |b: u16| {
            let uses =
                |(user, lists): &(u16, &Event)| *user != event && lists.preconditions.contains(&b);
            events().find(uses).map(|(user, _)| (b, user))
        };
        let marked = &self.table.events.get(usize::from(event))?.postconditions;
        let mut marked = marked.iter().filter(|b| self.table.is_persistent(**b));
        marked.find_map(|b| other_user(*b))
    }

    /// Why a run of this table does not lift, whose event at a step came before: what that event marks, and which other event uses it.
    fn repeat_told(&self, run: &RunSource, step: usize) -> Option<String> {
        let event = *run.steps.get(step)?;
        let before = run.steps[..step].iter().position(|e| *e == event)?;
        let (condition, user) = self.marked_for_other(event)?;
        Some(format!(
            "{} came before, at step {before}, and marks {}, which {} uses; the unfolded net has no such run",
            self.event_called(event),
            self.condition_told(condition),
            self.event_called(user)
        ))
    }

    /// What a refusal of a run of this table means: that it is too long, which condition stopped a step, why an event may not come again,
    /// or else what its number means.
    fn run_meaning(&self, run: &RunSource, refusal: Refusal) -> String {
        let Refusal { number, place, by } = refusal;
        let count = run.steps.len();
        if matches!(number, 3 | 19) && count > MOST_STEPS {
            return format!("the run has {count} steps, and {MOST_STEPS} are the most");
        }
        let repeat = (number == 15).then(|| self.repeat_told(run, place as usize));
        let event = run.steps.get(place as usize);
        match (by, repeat.flatten()) {
            (Some(condition), _) => {
                let condition = condition as u16;
                let is_taken = event.is_some_and(|event| self.stops_taker(*event, condition));
                stopped_by(number, &self.condition_told(condition), is_taken)
            }
            (None, Some(repeat)) => repeat,
            (None, None) => meaning_with(number, self.due_in_run(number).as_deref()),
        }
    }

    /// A refusal of a run of this table, told.
    pub fn run_told(&self, run: &RunSource, refusal: Refusal) -> Told {
        Told {
            refusal,
            what: self.run_meaning(run, refusal),
            place: self.step_told(run, refusal),
        }
    }

    /// Why a call on the table gave no answer.
    pub fn failed(&self, failure: Failure) -> Stop {
        match failure {
            Failure::Refused(refusal) => Stop::Refused(self.told(refusal)),
            Failure::Lost(what) => Stop::Failed(format!("the library: {what}")),
        }
    }
}
