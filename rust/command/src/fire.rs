//! `dovetrellis fire` and `dovetrellis enabled`: what one event does at a marking, and which can fire there.

use std::io::Write;

use text::{Place, Trouble};
use wire::{Driver, Failure, Refusal};

use crate::names::condition_called;
use crate::played::{end_of, library_for, marking_told, start_of, steps_of};
use crate::source::{self, Source};
use crate::stop::{Stop, Stopped, Told};
use crate::telling::{events_of, meaning_with, stopped_by};

/// What is wrong with a word of the command, told by its place in the word, which has hardly a second line.
fn no_word(word: &str, trouble: Trouble) -> Stop {
    let Trouble {
        place,
        expected,
        found,
    } = trouble;
    let place = match place {
        Place { line: 1, column } => format!("column {column}"),
        _ => place.to_string(),
    };
    let word = word.replace('\n', "\\n");
    Stop::Text(format!(
        "'{word}', {place}: expected {expected}, found {found}"
    ))
}

/// The marking that a word gives, as it would stand in a text.
fn marking_of(table: &Source, word: &str) -> Stopped<Vec<u8>> {
    let set = text::read_set(word, &table.table);
    let set = set.map_err(|trouble| no_word(word, trouble))?;
    let mut marking = vec![0; table.table.conditions.len()];
    for condition in set {
        marking[usize::from(condition)] = 1;
    }
    Ok(marking)
}

/// The marking that is asked about: the one that is given, or else the start.
fn asked_marking(library: &mut Driver, table: &Source, at: Option<&str>) -> Stopped<Vec<u8>> {
    match at {
        Some(word) => marking_of(table, word),
        None => start_of(library, table),
    }
}

/// What the refusal of a single firing means.
fn meaning(table: &Source, event: u16, refusal: Refusal) -> String {
    let Some(condition) = refusal.by else {
        let known = events_of("the table", table.table.events.len() as u64);
        return meaning_with(refusal.number, Some(&known));
    };
    let condition = condition as u16;
    let is_taken = table.stops_taker(event, condition);
    stopped_by(refusal.number, &table.condition_told(condition), is_taken)
}

/// Fires an event at the start or at a marking, and writes what holds then.
pub fn fire(table: &str, event: &str, at: Option<&str>, out: &mut impl Write) -> Stopped<()> {
    let table = source::read_before(table, Some(event), "event")?;
    let mut library = library_for(&table)?;
    let number = text::read_event(event, &table.table);
    let event = number.map_err(|trouble| no_word(event, trouble))?;
    let before = asked_marking(&mut library, &table, at)?;
    let mut marking = before.clone();
    match library.fire(&table.bytes, &mut marking, event) {
        Ok(()) => Ok(writeln!(out, "{}", marking_told(&table, &marking))?),
        Err(Failure::Refused(refusal)) => {
            let (event_told, at) = (table.event_told(event), marking_told(&table, &before));
            Err(Stop::Refused(Told {
                refusal,
                what: meaning(&table, event, refusal),
                place: format!("{event_told}, at {at}"),
            }))
        }
        Err(lost) => Err(table.failed(lost)),
    }
}

/// What stops an event where it cannot fire.
fn stopped(table: &Source, event: u16, refusal: Refusal) -> String {
    let condition = refusal.place as u16;
    let called = condition_called(&table.table, condition);
    match (refusal.number, table.stops_taker(event, condition)) {
        (11, _) => format!("stopped by {called}, which does not hold"),
        (_, false) => format!("contact on {called}, which holds already"),
        (_, true) => format!(
            "contact on {called}, which holds already; it is a precondition too, but the table follows the old rule"
        ),
    }
}

/// Writes which events can fire at a marking, and after them what stops each of the others.
fn write_enabled(
    library: &mut Driver,
    table: &Source,
    marking: &[u8],
    out: &mut impl Write,
) -> Stopped<()> {
    let (mut can, mut cannot) = (Vec::new(), Vec::new());
    for event in (0..=u16::MAX).take(table.table.events.len()) {
        let name = table.table.event_name(event);
        match library.can_fire(&table.bytes, marking, event) {
            Ok(()) => can.push(format!("{name}: can fire")),
            Err(Failure::Refused(refusal)) if matches!(refusal.number, 11 | 12) => {
                cannot.push(format!("{name}: {}", stopped(table, event, refusal)));
            }
            Err(failure) => return Err(table.failed(failure)),
        }
    }
    writeln!(out, "at {}", marking_told(table, marking))?;
    let all = can.len() + cannot.len();
    writeln!(out, "{} of {all} events can fire", can.len())?;
    for line in can.iter().chain(&cannot) {
        writeln!(out, "{line}")?;
    }
    Ok(())
}

/// Tells which events can fire at the start, after a run or at a marking, and what stops the others.
pub fn enabled(
    table: &str,
    run: Option<&str>,
    at: Option<&str>,
    out: &mut impl Write,
) -> Stopped<()> {
    let table = source::read_before(table, run, "run")?;
    let run = run.map(|run| table.asked_run(Some(run))).transpose()?;
    let mut library = library_for(&table)?;
    let marking = match run {
        Some(run) => {
            let steps = steps_of(&mut library, &table, &run)?;
            end_of(&mut library, &table, &run, &steps)?
        }
        None => asked_marking(&mut library, &table, at)?,
    };
    write_enabled(&mut library, &table, &marking, out)
}
