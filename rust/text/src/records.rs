//! Between a table and its records (docs/FORMAT.md).

use crate::table::{Condition, Event, Run, Table};

/// The most conditions that a record has room for, and the most events that are numbered; the judge allows 256 of each.
pub const MOST_NUMBERED: usize = 65_535;

/// The most numbers that a record of one list has room for.
pub const MOST_LIST: usize = 32_767;

/// The most numbers that the two lists of an Event record have room for together.
pub const MOST_EVENT_LISTS: usize = 32_765;

const CONDITIONS: u16 = 1;
const EVENT: u16 = 2;
const MARKING: u16 = 3;
const RUN: u16 = 4;
const RULE: u16 = 6;

/// What a record of a table holds.
#[derive(Clone, Copy, Debug, PartialEq, Eq)]
pub enum Part {
    Rule,
    Conditions,
    Event(usize),
    Start,
}

/// The bytes of a record, whose payload is at most 65,535 bytes long.
fn record(kind: u16, payload: &[u8]) -> Vec<u8> {
    let length = payload.len() as u16;
    let header = [length.to_le_bytes(), kind.to_le_bytes()].concat();
    [&header, payload].concat()
}

/// The record of numbers of two bytes each.
fn number_record(kind: u16, numbers: &[u16]) -> Vec<u8> {
    let bytes: Vec<u8> = numbers.iter().flat_map(|n| n.to_le_bytes()).collect();
    record(kind, &bytes)
}

/// The record of an event.
fn event_record(event: &Event) -> Vec<u8> {
    let (pre, post) = (&event.preconditions[..], &event.postconditions[..]);
    let counts = [pre.len() as u16, post.len() as u16];
    number_record(EVENT, &[&counts, pre, post].concat())
}

impl Run {
    /// The bytes of the run's record.
    pub fn bytes(&self) -> Vec<u8> {
        number_record(RUN, &self.steps)
    }
}

impl Table {
    /// The records of the table in their order, each with what it holds.
    fn records(&self) -> Vec<(Part, Vec<u8>)> {
        let kinds: Vec<u8> = self
            .conditions
            .iter()
            .map(|c| u8::from(c.persistent))
            .collect();
        let rule = self.rule.map(|byte| (Part::Rule, record(RULE, &[byte])));
        let mut records: Vec<(Part, Vec<u8>)> = rule.into_iter().collect();
        records.push((Part::Conditions, record(CONDITIONS, &kinds)));
        for (number, event) in self.events.iter().enumerate() {
            records.push((Part::Event(number), event_record(event)));
        }
        records.push((Part::Start, number_record(MARKING, &self.start)));
        records
    }

    /// The bytes of the table.
    pub fn bytes(&self) -> Vec<u8> {
        self.records()
            .into_iter()
            .flat_map(|(_, bytes)| bytes)
            .collect()
    }

    /// What the record at an offset of the table's bytes holds.
    pub fn part_at(&self, offset: usize) -> Option<Part> {
        let mut at = 0;
        for (part, bytes) in self.records() {
            if at == offset {
                return Some(part);
            }
            at += bytes.len();
        }
        None
    }

    /// The table that the bytes of an accepted table spell, without names; none for bytes that spell no table.
    pub fn of_bytes(bytes: &[u8]) -> Option<Table> {
        let (rule, kinds, mut rest) = front(bytes)?;
        let condition = |byte: &u8| Condition {
            persistent: *byte == 1,
            ..Condition::default()
        };
        let mut table = Table {
            rule,
            conditions: kinds.iter().map(condition).collect(),
            ..Table::default()
        };
        loop {
            let (kind, payload, after) = split(rest)?;
            match kind {
                EVENT => table.events.push(event_of(payload)?),
                MARKING if after.is_empty() => {
                    table.start = numbers(payload)?;
                    return Some(table);
                }
                _ => return None,
            }
            rest = after;
        }
    }
}

/// The rule's byte, if there is one, the kinds of conditions, and the records that follow.
fn front(bytes: &[u8]) -> Option<(Option<u8>, &[u8], &[u8])> {
    let (rule, after_rule) = match split(bytes)? {
        (RULE, [byte], after) => (Some(*byte), after),
        _ => (None, bytes),
    };
    match split(after_rule)? {
        (CONDITIONS, kinds, rest) => Some((rule, kinds, rest)),
        _ => None,
    }
}

/// How many persistent preconditions the event has whose record stands at an offset of a table, which need be sound no further.
pub fn persistent_preconditions(bytes: &[u8], offset: usize) -> Option<usize> {
    let (_, kinds, _) = front(bytes)?;
    let (EVENT, payload, _) = split(bytes.get(offset..)?)? else {
        return None;
    };
    let is_persistent = |b: &&u16| kinds.get(usize::from(**b)) == Some(&1);
    let preconditions = event_of(payload)?.preconditions;
    Some(preconditions.iter().filter(is_persistent).count())
}

/// The first record's kind and payload, and what follows it.
fn split(bytes: &[u8]) -> Option<(u16, &[u8], &[u8])> {
    let header = numbers(bytes.get(..4)?)?;
    let payload = bytes.get(4..4 + usize::from(header[0]))?;
    Some((header[1], payload, &bytes[4 + payload.len()..]))
}

/// The numbers of two bytes each that the bytes spell.
fn numbers(bytes: &[u8]) -> Option<Vec<u16>> {
    let pairs = bytes.chunks_exact(2);
    if !pairs.remainder().is_empty() {
        return None;
    }
    Some(
        pairs
            .map(|pair| u16::from_le_bytes([pair[0], pair[1]]))
            .collect(),
    )
}

/// The event that a payload spells.
fn event_of(payload: &[u8]) -> Option<Event> {
    let words = numbers(payload)?;
    let (counts, lists) = words.split_at_checked(2)?;
    let (pre, post) = lists.split_at_checked(usize::from(counts[0]))?;
    if post.len() != usize::from(counts[1]) {
        return None;
    }
    Some(Event {
        preconditions: pre.to_vec(),
        postconditions: post.to_vec(),
        ..Event::default()
    })
}

/// The steps of the one Run record that the bytes are.
pub fn steps_of(bytes: &[u8]) -> Option<Vec<u16>> {
    match split(bytes)? {
        (RUN, payload, []) => numbers(payload),
        _ => None,
    }
}
