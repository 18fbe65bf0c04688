//! `dovetrellis witness`: a checker's trace of the exported net, read back as a run of the table.

use std::io::Write;

use text::Run;
use wire::{Answer, Driver, Failure, Refusal};

use crate::next;
use crate::source::{self, Source, MOST_STEPS};
use crate::stop::{Stop, Stopped, Told};
use crate::telling::{counted, events_of, held, meaning_with, stopped_by};
use crate::tools;
use crate::trace::{self, Trace};
use crate::unfold::{copy_called, unfolded_called};

/// An unfolded condition with its place in the exported net, and the condition that it is or is a copy of.
fn unfolded_told(library: &mut Driver, table: &Source, number: u16) -> Answer<String> {
    let told = format!("unfolded condition {number} (place p{number})");
    let origin = library.condition_origin(&table.bytes, number)?;
    let condition = table.condition_told(origin.condition);
    Ok(match origin.copy {
        None => format!("{told}, which is {condition},"),
        Some(copy) => format!(
            "{told}, a copy of {condition} {},",
            copy_called(table, copy)
        ),
    })
}

/// An unfolded condition stopped an unfolded event that takes it, as only the old rule has it; a copy never does.
fn stops_taker(library: &mut Driver, table: &Source, event: u16, condition: u16) -> Answer<bool> {
    let condition = library.condition_origin(&table.bytes, condition)?;
    let event = library.event_origin(&table.bytes, event, &mut [0; 16])?;
    Ok(condition.copy.is_none() && table.stops_taker(event.event, condition.condition))
}

/// What the refusal of a step means: by which unfolded condition it was stopped, or which unfolded events there are.
fn step_meaning(
    library: &mut Driver,
    table: &Source,
    trace: &Trace,
    refusal: Refusal,
) -> Answer<String> {
    let Refusal { number, place, by } = refusal;
    if let (Some(condition), Some(event)) = (by, trace.steps.get(place as usize)) {
        let condition = condition as u16;
        let is_taken = stops_taker(library, table, *event, condition)?;
        let condition = unfolded_told(library, table, condition)?;
        return Ok(stopped_by(number, &condition, is_taken));
    }
    let events = library.unfolded_counts(&table.bytes)?.events;
    let known = events_of("the unfolding", events);
    Ok(meaning_with(number, Some(&known)))
}

/// What a step of a trace is, and where it stands.
fn step_told(library: &mut Driver, table: &Source, trace: &Trace, step: usize) -> Answer<String> {
    let called = &trace.called;
    let told = format!("step {step} of {called}, counted from 0");
    let (Some(event), Some(place)) = (trace.steps.get(step), trace.places.get(step)) else {
        return Ok(told);
    };
    let name = match unfolded_called(library, table, *event) {
        Ok(name) => format!(", {name}"),
        Err(Failure::Refused(_)) => String::new(),
        Err(lost) => return Err(lost),
    };
    Ok(format!("{told}: t{event}{name}, at {place}"))
}

/// A refusal of a trace of a table that is judged already, told.
fn told(library: &mut Driver, table: &Source, trace: &Trace, refusal: Refusal) -> Answer<Told> {
    let step = refusal.place as usize;
    let (what, place) = match refusal.number {
        3 => {
            let steps = counted(trace.steps.len() as u64, "step");
            let what = format!("a run has at most {MOST_STEPS} steps");
            (what, format!("{}, {steps}", trace.called))
        }
        10..=12 => {
            let what = step_meaning(library, table, trace, refusal)?;
            (what, step_told(library, table, trace, step)?)
        }
        _ => return Ok(table.told(refusal)),
    };
    Ok(Told {
        refusal,
        what,
        place,
    })
}

/// The run of the table that a trace is projected to.
fn projected(library: &mut Driver, table: &Source, trace: &Trace) -> Stopped<Run> {
    let judged = library.judge(&table.bytes);
    judged.map_err(|failure| table.failed(failure))?;
    // the library refuses every longer run alike, and is asked with no more than it needs for that
    let given = &trace.steps[..trace.steps.len().min(MOST_STEPS + 1)];
    let mut steps = vec![0; given.len()];
    match library.project(&table.bytes, given, &mut steps) {
        Ok(()) => Ok(Run {
            steps,
            ..Run::default()
        }),
        Err(Failure::Refused(refusal)) => {
            let told = told(library, table, trace, refusal);
            Err(Stop::Refused(
                told.map_err(|failure| table.failed(failure))?,
            ))
        }
        Err(lost) => Err(table.failed(lost)),
    }
}

/// Writes the run of a table that a trace is a run of in the exported net, and what holds at its end; in the next version before it the
/// digest of the table that it is for.
pub fn witness(table: &str, trace: &str, out: &mut impl Write) -> Stopped<()> {
    let table = source::read(table)?;
    let trace = trace::read(trace)?;
    let mut library = tools::library()?;
    let run = projected(&mut library, &table, &trace)?;
    let mut end = vec![0; table.table.conditions.len()];
    let replayed = library.replay(&table.bytes, &run.steps, &mut end);
    replayed.map_err(|failure| table.failed(failure))?;
    let steps = counted(run.steps.len() as u64, "step");
    let ends = table.table.set(&held(&end));
    if next::is_asked() {
        writeln!(out, "table: {}", table.digest())?;
    }
    writeln!(out, "{}", table.table.run_text(&run))?;
    Ok(writeln!(out, "# {steps}, ends in {ends}")?)
}
