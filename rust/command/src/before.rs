//! Where a run stood that is refused: the steps before the stop, and what held there.

use crate::source::{RunSource, Source};
use crate::stop::{Stopped, Told};
use crate::telling::held;
use crate::tools;

/// The most steps before the stop that are told.
const MOST_TOLD: usize = 10;

/// The conditions that hold after steps that play.
fn held_after(table: &Source, steps: &[u16]) -> Stopped<Vec<u16>> {
    let mut end = vec![0; table.table.conditions.len()];
    let played = tools::library()?.replay(&table.bytes, steps, &mut end);
    played.map_err(|failure| table.failed(failure))?;
    Ok(held(&end))
}

/// The last of some steps by their names, and which they are.
fn last_of(table: &Source, steps: &[u16]) -> String {
    let first = steps.len().saturating_sub(MOST_TOLD);
    let names = steps[first..].iter().map(|e| table.table.event_name(*e));
    let names = names.collect::<Vec<_>>().join(", ");
    match steps.len() - first {
        0 => "nothing, it is the first step".to_string(),
        1 => format!("step {first}: {names}"),
        _ => format!("steps {first} to {}: {names}", steps.len() - 1),
    }
}

/// What an event lacks where more than one of its preconditions does not hold, of which a refusal tells the lowest; else nothing.
fn lacking(table: &Source, event: Option<&u16>, held: &[u16]) -> String {
    let event = event.and_then(|event| table.table.events.get(usize::from(*event)));
    let needed = event.map_or(&[][..], |event| &event.preconditions);
    let lacking = needed.iter().filter(|b| !held.contains(b)).copied();
    let lacking: Vec<u16> = lacking.collect();
    match lacking.len() {
        0 | 1 => String::new(),
        _ => format!(
            "  lacking: {}, of which the lowest is told above\n",
            table.table.set(&lacking)
        ),
    }
}

/// What is told of a refused run beside its refusal, in lines: of a stopped step what came before it, what held then and what it lacked,
/// of a run that plays but does not lift where it ends; nothing where its record is refused.
pub fn story(table: &Source, run: &RunSource, told: &Told) -> Stopped<String> {
    let place = told.refusal.place as usize;
    match told.refusal.number {
        10..=12 => {
            let before = run.steps.get(..place).unwrap_or_default();
            let (last, held) = (last_of(table, before), held_after(table, before)?);
            let lacking = lacking(table, run.steps.get(place), &held);
            let held = table.table.set(&held);
            Ok(format!("  before: {last}\n  held: {held}\n{lacking}"))
        }
        15 => {
            let ends = table.table.set(&held_after(table, &run.steps)?);
            let listed = "'list --names' lists it";
            Ok(format!("  plays: it ends in {ends}; {listed}\n"))
        }
        _ => Ok(String::new()),
    }
}
