//! What the calls tell that are not for C, as the text of the program `showing`: a reader's walk over the table, its events, start and
//! conditions with one past the last, and a run replayed from a lent marking.

use crate::calls::{is_persistent, postconditions, preconditions, replay_from, start_list};
use crate::listing::refusal_line;
use crate::reader::Reader;
use crate::records::{steps_of_record, words, HEADER, RUN};
use crate::refusal::{refuse, Answer};
use crate::table::read_table;

/// The bytes that the program lends for the end of a replay.
pub const ROOM: usize = 200;

/// The bytes that the program reads of the table, of the run and of the marking; what follows them is not seen.
const NET_BYTES: usize = 65_537;
const RUN_BYTES: usize = 8_197;
const MARKING_BYTES: usize = 300;

/// The byte that stands in lent memory where nothing was written.
const UNTOUCHED: u8 = 9;

/// An answer as text: the number that it tells, or the refusal.
fn told(answer: Answer<usize>) -> String {
    match answer {
        Ok(value) => format!("fine {value}"),
        Err(refusal) => refusal_line(refusal),
    }
}

/// A list that is shown as a part of the table, with what is told past its end; a refused one has no part.
fn list(name: &str, part: Answer<&[u8]>) -> String {
    let conditions: String = words(part.unwrap_or_default())
        .iter()
        .map(|condition| format!(" {condition}"))
        .collect();
    format!("{name}{conditions} | 0")
}

/// The walk of a reader: each record with its place, up to the refusal that ends it.
fn walk(table: &[u8]) -> Vec<(usize, Answer<usize>)> {
    let mut reader = Reader::over(table);
    let mut walk = Vec::new();
    loop {
        let place = reader.place();
        let answer = reader.read();
        walk.push((place, answer));
        if answer.is_err() {
            return walk;
        }
    }
}

/// The lines of the walk; the second record is the first again where that is refused.
fn walk_lines(table: &[u8]) -> Vec<String> {
    let walk = walk(table);
    let (place, answer) = walk.get(1).unwrap_or(&walk[0]);
    let second = format!("second at {place}: {}", told(*answer));
    let record =
        |(place, answer): &(usize, Answer<usize>)| format!("record at {place}: {}", told(*answer));
    walk.iter().map(record).chain([second]).collect()
}

/// The numbers that are asked for: so many, one past the last, and the highest.
fn asked_numbers(count: usize) -> impl Iterator<Item = u16> {
    (0..=count as u16).chain([u16::MAX])
}

/// The offset of an event's record, or the refusal: its list of preconditions begins after the header and the two counts.
fn event_offset(table: &[u8], event: u16) -> Answer<usize> {
    match read_table(table)?.parts.get(usize::from(event)) {
        Some(parts) => Ok(parts.preconditions.start - HEADER - 4),
        None => refuse(10, 0),
    }
}

/// The lines of an event.
fn event_lines(table: &[u8], event: u16) -> Vec<String> {
    vec![
        format!("event {event}: {}", told(event_offset(table, event))),
        list("pre", preconditions(table, event)),
        list("post", postconditions(table, event)),
    ]
}

/// The offset of a condition's byte, or the refusal: the kinds stand after a header, and after a Rule record where the table has one.
fn condition_offset(table: &[u8], condition: u16) -> Answer<usize> {
    let net = read_table(table)?.net;
    if usize::from(condition) >= net.persistent.len() {
        return refuse(10, 0);
    }
    let front = net.rule.map_or(0, |_| HEADER + 1);
    Ok(front + HEADER + usize::from(condition))
}

/// The lines of a condition.
fn condition_lines(table: &[u8], condition: u16) -> Vec<String> {
    let kind = match is_persistent(table, condition) {
        Ok(true) => "persistent".to_string(),
        Ok(false) => "ordinary".to_string(),
        Err(refusal) => refusal_line(refusal),
    };
    let offset = told(condition_offset(table, condition));
    vec![format!("condition {condition}: {offset}"), kind]
}

/// The lines of the run's file replayed from the lent marking, or of its refusal.
fn replay_lines(table: &[u8], run_file: &[u8], marking: &[u8]) -> Vec<String> {
    let run = match steps_of_record(run_file, RUN) {
        Ok(run) => run,
        Err(refusal) => return vec![format!("run: {}", refusal_line(refusal))],
    };
    let mut end = [UNTOUCHED; ROOM];
    let answer = replay_from(table, marking, &run, &mut end);
    let bytes: String = end.iter().map(|byte| format!(" {byte}")).collect();
    vec![
        format!("replay_from: {}", told(answer)),
        format!("end{bytes}"),
    ]
}

/// The beginning of a file, as far as the program has room for it.
fn beginning(file: &[u8], room: usize) -> &[u8] {
    &file[..file.len().min(room)]
}

/// The text for the bytes of the three files; every line ends in a newline.
pub fn showing(net_file: &[u8], run_file: &[u8], marking_file: &[u8]) -> String {
    let table = beginning(net_file, NET_BYTES);
    let run = beginning(run_file, RUN_BYTES);
    let marking = beginning(marking_file, MARKING_BYTES);
    let net = read_table(table).map(|table| table.net).unwrap_or_default();
    let mut lines = walk_lines(table);
    lines.extend(asked_numbers(net.events.len()).flat_map(|e| event_lines(table, e)));
    lines.push(list("start", start_list(table)));
    lines.extend(asked_numbers(net.persistent.len()).flat_map(|b| condition_lines(table, b)));
    lines.extend(replay_lines(table, run, marking));
    lines.iter().map(|line| format!("{line}\n")).collect()
}
