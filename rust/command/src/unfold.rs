//! `dovetrellis unfold`: the unfolding as text.

use std::io::Write;

use text::set_text;
use wire::{whole, Answer, Copy, Counts, Driver, Failure, START};

use crate::json::{refused_as_json, write_line, Json};
use crate::names::event_called;
use crate::progress::Line;
use crate::source::{self, Source};
use crate::stop::{Stop, Stopped, Told};
use crate::telling::{counted, held};
use crate::tools;

/// Room that is lent for a list at first.
const ROOM: usize = 512;

/// What a marker is called.
fn marker_called(table: &Source, marker: u32) -> String {
    match u16::try_from(marker) {
        Ok(event) if marker != START => event_called(&table.table, event),
        _ => "start".to_string(),
    }
}

/// What marked each persistent precondition of an event, in brackets; nothing where it has none.
fn picks(table: &Source, event: u16, markers: &[u32]) -> String {
    let stated = table.table.events.get(usize::from(event));
    let preconditions = stated.map_or(&[][..], |event| &event.preconditions);
    let persistent = |b: &&u16| table.table.is_persistent(**b);
    let pick = |(b, marker): (&u16, &u32)| {
        let condition = table.table.condition_name(*b);
        format!("{condition} by {}", marker_called(table, *marker))
    };
    let picked = preconditions
        .iter()
        .filter(persistent)
        .zip(markers)
        .map(pick);
    let picked: Vec<String> = picked.collect();
    if picked.is_empty() {
        return String::new();
    }
    format!(" ({})", picked.join(", "))
}

/// What an unfolded event is called: its event, and what marked each persistent precondition.
pub fn unfolded_called(library: &mut Driver, table: &Source, number: u16) -> Answer<String> {
    let mut markers = [0; 16];
    let origin = library.event_origin(&table.bytes, number, &mut markers)?;
    let event = event_called(&table.table, origin.event);
    Ok(event + &picks(table, origin.event, &markers))
}

/// The two lists of an unfolded event.
fn lists(library: &mut Driver, table: &Source, number: u16) -> Answer<[Vec<u16>; 2]> {
    let bytes = &table.bytes;
    let pre = whole(ROOM, |out| library.unfolded_pre(bytes, number, out))?;
    let post = whole(ROOM, |out| library.unfolded_post(bytes, number, out))?;
    Ok([pre, post])
}

/// A line for an unfolded event: number, event, what marked each persistent precondition, and the two lists.
fn event_line(library: &mut Driver, table: &Source, number: u16) -> Answer<String> {
    let called = unfolded_called(library, table, number)?;
    let [pre, post] = lists(library, table, number)?.map(|list| set_text(&list));
    Ok(format!("{number}: {called}: {pre} -> {post}"))
}

/// Which copy of a condition it is: its marker and its user.
pub fn copy_called(table: &Source, copy: Copy) -> String {
    let marker = marker_called(table, copy.marker);
    format!("by {marker} for {}", event_called(&table.table, copy.user))
}

/// What an unfolded condition is called: its condition, and for a copy its marker and its user.
fn condition_called(library: &mut Driver, table: &Source, number: u16) -> Answer<String> {
    let origin = library.condition_origin(&table.bytes, number)?;
    let name = table.table.condition_name(origin.condition);
    Ok(match origin.copy {
        None => name,
        Some(copy) => format!("{name} {}", copy_called(table, copy)),
    })
}

/// The unfolded conditions that hold at the start.
fn start(library: &mut Driver, table: &Source, conditions: usize) -> Answer<Vec<u16>> {
    let mut marking = vec![0; conditions];
    library.unfolded_start(&table.bytes, &mut marking)?;
    Ok(held(&marking))
}

/// The line on the rule by which the unfolded net is played; none where the table states none.
fn played_by(table: &Source) -> Option<String> {
    let rule = table.rule_told()?;
    let copies = match table.table.is_old() {
        true => "; copies of persistent conditions keep the paper's",
        false => "",
    };
    Some(format!("follows {rule}{copies}"))
}

/// The counts of an unfolding, or why there is none, as JSON.
fn counts_json(table: &Source, counts: &Result<Counts, Told>) -> Json {
    Json::Object(vec![
        ("accepted", true.into()),
        ("digest", table.digest().into()),
        ("unfolding", counts.as_ref().ok().copied().into()),
        ("refused", counts.as_ref().err().into()),
    ])
}

/// Writes the counts of the unfolding of a table as JSON, or why there is none.
fn write_counts(library: &mut Driver, table: &Source, out: &mut impl Write) -> Stopped<()> {
    let judged = library.judge(&table.bytes);
    let judged = judged.map_err(|failure| table.failed(failure));
    judged.map_err(|stop| refused_as_json(stop, table, out))?;
    let counts = unfolded(library, table)?;
    write_line(&counts_json(table, &counts), out)?;
    counts.map(|_| ()).map_err(|_| Stop::Answered)
}

/// The counts of the unfolding of an accepted table, or why there is none.
pub fn unfolded(library: &mut Driver, table: &Source) -> Stopped<Result<Counts, Told>> {
    match library.unfolded_counts(&table.bytes) {
        Ok(counts) => Ok(Ok(counts)),
        Err(Failure::Refused(refusal)) => Ok(Err(table.told(refusal))),
        Err(lost) => Err(table.failed(lost)),
    }
}

/// Writes the unfolding of a table, or as JSON its counts.
pub fn unfold(path: &str, json: bool, out: &mut impl Write) -> Stopped<()> {
    let table = source::read(path)?;
    let mut library = tools::library()?;
    match json {
        true => write_counts(&mut library, &table, out),
        false => write_unfolding(&mut library, &table, out),
    }
}

/// Writes the unfolding of a table: its counts and start, its events and its conditions.
fn write_unfolding(library: &mut Driver, table: &Source, out: &mut impl Write) -> Stopped<()> {
    let mut line = Line::new("unfold");
    let told = |failure| table.failed(failure);
    let counts = library.unfolded_counts(&table.bytes).map_err(told)?;
    let conditions = counted(counts.conditions, "unfolded condition");
    let events = counted(counts.events, "unfolded event");
    let held = start(library, table, counts.conditions as usize).map_err(told)?;
    writeln!(out, "{conditions}, {events}\nstart: {}", set_text(&held))?;
    if let Some(rule) = played_by(table) {
        writeln!(out, "{rule}")?;
    }
    writeln!(out, "\nunfolded events")?;
    for number in (0..=u16::MAX).take(counts.events as usize) {
        line.at(u64::from(number), counts.events, "events");
        let event = event_line(library, table, number).map_err(told)?;
        writeln!(out, "{event}")?;
    }
    writeln!(out, "\nunfolded conditions")?;
    for number in (0..=u16::MAX).take(counts.conditions as usize) {
        line.at(u64::from(number), counts.conditions, "conditions");
        let called = condition_called(library, table, number).map_err(told)?;
        writeln!(out, "{number}: {called}")?;
    }
    Ok(())
}
