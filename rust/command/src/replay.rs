//! `dovetrellis replay`: runs played in the table alone.

use std::io::Write;

use wire::Driver;

use crate::listed::{write_all, Listed};
use crate::played::{end_of, library_for, markings, steps_of};
use crate::source::{self, RunSource, Source};
use crate::stop::{Stop, Stopped, Told};
use crate::telling::{counted, held};

/// The start, then each of these steps, which play, with what holds after it.
fn steps_told(library: &mut Driver, table: &Source, steps: &[u16]) -> Stopped<String> {
    let markings = markings(library, table, steps).map_err(|failure| table.failed(failure))?;
    let sets = markings.iter().map(|marking| table.table.set(marking));
    let start = ["start".to_string()].into_iter();
    let steps = steps.iter().enumerate();
    let steps = steps.map(|(step, event)| format!("{step} {}", table.table.event_name(*event)));
    let lines = start.chain(steps).zip(sets);
    Ok(lines.map(|(what, set)| format!("{what} {set}\n")).collect())
}

/// A run as it plays; of one that is refused the steps before the stop.
fn played(library: &mut Driver, table: &Source, run: &RunSource) -> Stopped<Listed> {
    let refused = |text: String, told: Told| Listed {
        text: format!("{text}{}\n", told.line()),
        told: Some(told),
    };
    let steps = match steps_of(library, table, run) {
        Err(Stop::Refused(told)) => return Ok(refused(String::new(), told)),
        steps => steps?,
    };
    match end_of(library, table, run, &steps) {
        Ok(end) => {
            let text = steps_told(library, table, &steps)?;
            let count = counted(steps.len() as u64, "step");
            let ends = table.table.set(&held(&end));
            let text = format!("{text}{count}, ends in {ends}\n");
            Ok(Listed { text, told: None })
        }
        Err(Stop::Refused(told)) => {
            let before = steps.get(..told.refusal.place as usize).unwrap_or_default();
            Ok(refused(steps_told(library, table, before)?, told))
        }
        Err(other) => Err(other),
    }
}

/// Plays runs of a table, each step with what holds after it; one that is refused keeps none of the others from being played.
pub fn replay(table: &str, runs: &[String], out: &mut impl Write) -> Stopped<()> {
    let table = source::read_before_runs(table, runs)?;
    let runs = table.runs_or_first(runs)?;
    let mut library = library_for(&table)?;
    let played = |run: &RunSource| played(&mut library, &table, run);
    write_all(&runs, played, |_, _| Ok(String::new()), out)
}
