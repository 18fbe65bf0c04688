//! Tables: the judge of a table's bytes, and the net that an accepted table spells (01, Table records; 02, No. 4).

use std::ops::Range;

use crate::records::{
    is_even, record_at, record_bytes, word_bytes, words, Record, CONDITIONS, EVENT, MARKING, RULE,
};
use crate::refusal::{refuse, require, Answer};

/// The most conditions that a table may have.
pub const MOST_CONDITIONS: usize = 256;

/// The most events that a table may have.
pub const MOST_EVENTS: usize = 256;

/// The most persistent preconditions that an event may have.
pub const MOST_PERSISTENT: usize = 16;

/// An event with its two lists, each strictly ascending.
#[derive(Clone, Debug, Default, PartialEq, Eq)]
pub struct Event {
    pub preconditions: Vec<u16>,
    pub postconditions: Vec<u16>,
}

/// The rule by which ordinary conditions block: the paper's, or the old one, by which a postcondition that holds does so even where it
/// is a precondition too (02, No. 4).
#[derive(Clone, Copy, Debug, PartialEq, Eq, PartialOrd, Ord)]
pub enum Rule {
    Paper,
    Old,
}

impl Rule {
    /// The byte that stands for the rule.
    pub fn byte(self) -> u8 {
        match self {
            Rule::Paper => 0,
            Rule::Old => 1,
        }
    }
}

/// A net with persistent conditions and a start, and the rule that its table states, if it states one.
#[derive(Clone, Debug, Default, PartialEq, Eq)]
pub struct Net {
    pub persistent: Vec<bool>,
    pub events: Vec<Event>,
    pub start: Vec<u16>,
    pub rule: Option<Rule>,
}

impl Net {
    /// The rule of the net: the paper's where none is stated.
    pub fn rule(&self) -> Rule {
        self.rule.unwrap_or(Rule::Paper)
    }
}

/// Where the two lists of an event stand in the table.
#[derive(Clone, Debug, PartialEq, Eq)]
pub struct Parts {
    pub preconditions: Range<usize>,
    pub postconditions: Range<usize>,
}

/// An accepted table: its net, and where its lists stand in the bytes.
#[derive(Clone, Debug, PartialEq, Eq)]
pub struct Table {
    pub net: Net,
    pub parts: Vec<Parts>,
    pub start_part: Range<usize>,
}

/// The list ascends strictly and names only conditions that there are.
fn is_sound_list(list: &[u16], conditions: usize) -> bool {
    list.windows(2).all(|pair| pair[0] < pair[1])
        && list.iter().all(|b| usize::from(*b) < conditions)
}

/// The rule of a Rule record.
pub fn read_rule(record: &Record) -> Answer<Rule> {
    require(record.payload.len() == 1, 3, record.offset)?;
    match record.payload[0] {
        0 => Ok(Rule::Paper),
        1 => Ok(Rule::Old),
        _ => refuse(4, record.offset),
    }
}

/// The kinds of the conditions, true for persistent.
pub fn read_conditions(record: &Record) -> Answer<Vec<bool>> {
    require(record.kind == CONDITIONS, 2, record.offset)?;
    let length = record.payload.len();
    require((1..=MOST_CONDITIONS).contains(&length), 3, record.offset)?;
    let known = record.payload.iter().all(|byte| *byte <= 1);
    require(known, 4, record.offset)?;
    Ok(record.payload.iter().map(|byte| *byte == 1).collect())
}

/// Where the lists of an Event record stand in its payload, or 3 if its length is not what its counts ask.
fn event_parts(record: &Record) -> Answer<Parts> {
    let payload = record.payload;
    require(payload.len() >= 4, 3, record.offset)?;
    let counts = words(&payload[..4]);
    let (before, after) = (usize::from(counts[0]), usize::from(counts[1]));
    require(payload.len() == 4 + 2 * (before + after), 3, record.offset)?;
    let middle = 4 + 2 * before;
    Ok(Parts {
        preconditions: 4..middle,
        postconditions: middle..payload.len(),
    })
}

/// The event of an Event record, with the parts of its payload.
pub fn read_event(record: &Record, persistent: &[bool]) -> Answer<(Event, Parts)> {
    let parts = event_parts(record)?;
    let event = Event {
        preconditions: words(&record.payload[parts.preconditions.clone()]),
        postconditions: words(&record.payload[parts.postconditions.clone()]),
    };
    let sound = is_sound_list(&event.preconditions, persistent.len())
        && is_sound_list(&event.postconditions, persistent.len());
    require(sound, 5, record.offset)?;
    let touches = !event.preconditions.is_empty() || !event.postconditions.is_empty();
    require(touches, 7, record.offset)?;
    let chosen = event
        .preconditions
        .iter()
        .filter(|b| persistent[usize::from(**b)]);
    require(chosen.count() <= MOST_PERSISTENT, 8, record.offset)?;
    Ok((event, parts))
}

/// The list of a Marking record.
pub fn read_start(record: &Record, conditions: usize) -> Answer<Vec<u16>> {
    require(is_even(record.payload.len()), 3, record.offset)?;
    let start = words(record.payload);
    require(is_sound_list(&start, conditions), 5, record.offset)?;
    Ok(start)
}

/// A part of a payload as a part of the table.
fn shifted(part: Range<usize>, by: usize) -> Range<usize> {
    part.start + by..part.end + by
}

/// The rule of the Rule record that may stand first, and the record after it, where the conditions are due.
fn read_front(bytes: &[u8]) -> Answer<(Option<Rule>, Record<'_>)> {
    let first = record_at(bytes, 0)?;
    if first.kind != RULE {
        return Ok((None, first));
    }
    let rule = read_rule(&first)?;
    Ok((Some(rule), record_at(bytes, first.end())?))
}

/// The judge of a table: the table that the bytes spell, or the refusal of the first bad record (1 to 9).
pub fn read_table(bytes: &[u8]) -> Answer<Table> {
    let (rule, conditions) = read_front(bytes)?;
    let persistent = read_conditions(&conditions)?;
    let mut offset = conditions.end();
    let mut events = Vec::new();
    let mut parts = Vec::new();
    loop {
        let record = record_at(bytes, offset)?;
        let allowed = record.kind == EVENT || record.kind == MARKING;
        require(allowed, 2, offset)?;
        if record.kind == MARKING {
            let start = read_start(&record, persistent.len())?;
            require(record.end() == bytes.len(), 9, record.end())?;
            return Ok(Table {
                net: Net {
                    persistent,
                    events,
                    start,
                    rule,
                },
                parts,
                start_part: record.payload_offset()..record.end(),
            });
        }
        require(events.len() < MOST_EVENTS, 6, offset)?;
        let (event, part) = read_event(&record, &persistent)?;
        let by = record.payload_offset();
        events.push(event);
        parts.push(Parts {
            preconditions: shifted(part.preconditions, by),
            postconditions: shifted(part.postconditions, by),
        });
        offset = record.end();
    }
}

/// The bytes of an Event record.
pub fn event_bytes(event: &Event) -> Vec<u8> {
    let count = |list: &[u16]| u16::try_from(list.len()).unwrap_or(u16::MAX);
    let mut numbers = vec![count(&event.preconditions), count(&event.postconditions)];
    numbers.extend_from_slice(&event.preconditions);
    numbers.extend_from_slice(&event.postconditions);
    record_bytes(EVENT, &word_bytes(&numbers))
}

/// The records of a net's table, in their order; a Rule record is among them where the net states a rule.
pub fn table_records(net: &Net) -> Vec<Vec<u8>> {
    let rule = net.rule.map(|rule| record_bytes(RULE, &[rule.byte()]));
    let kinds: Vec<u8> = net.persistent.iter().map(|p| u8::from(*p)).collect();
    let mut records: Vec<Vec<u8>> = rule.into_iter().collect();
    records.push(record_bytes(CONDITIONS, &kinds));
    records.extend(net.events.iter().map(event_bytes));
    records.push(record_bytes(MARKING, &word_bytes(&net.start)));
    records
}

/// The bytes of a net's table.
pub fn table_bytes(net: &Net) -> Vec<u8> {
    table_records(net).concat()
}
