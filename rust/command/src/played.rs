//! What several words ask the library of a run: its steps, its start, its end, and what holds on the way.

use wire::{whole, Answer, Driver, Failure};

use crate::source::{RunSource, Source, MOST_STEPS};
use crate::stop::{Stop, Stopped};
use crate::telling::held;
use crate::tools;

/// The library, once it has accepted a table; what it refuses after that is not the table.
pub fn library_for(table: &Source) -> Stopped<Driver> {
    let mut library = tools::library()?;
    let judged = library.judge(&table.bytes);
    judged.map_err(|failure| table.failed(failure))?;
    Ok(library)
}

/// Why a call on a run of an accepted table gave no answer.
pub fn run_failed(table: &Source, run: &RunSource, failure: Failure) -> Stop {
    match failure {
        Failure::Refused(refusal) => Stop::Refused(table.run_told(run, refusal)),
        lost => table.failed(lost),
    }
}

/// The steps of a run's record, as the library reads them.
pub fn steps_of(library: &mut Driver, table: &Source, run: &RunSource) -> Stopped<Vec<u16>> {
    let steps = whole(MOST_STEPS, |steps| library.read_run(&run.bytes, steps));
    steps.map_err(|failure| run_failed(table, run, failure))
}

/// The marking at the start.
pub fn start_of(library: &mut Driver, table: &Source) -> Stopped<Vec<u8>> {
    let mut marking = vec![0; table.table.conditions.len()];
    let started = library.start(&table.bytes, &mut marking);
    started.map_err(|failure| table.failed(failure))?;
    Ok(marking)
}

/// The marking at the end of a run's steps.
pub fn end_of(
    library: &mut Driver,
    table: &Source,
    run: &RunSource,
    steps: &[u16],
) -> Stopped<Vec<u8>> {
    let mut end = vec![0; table.table.conditions.len()];
    let played = library.replay(&table.bytes, steps, &mut end);
    played.map_err(|failure| run_failed(table, run, failure))?;
    Ok(end)
}

/// What holds in a marking, by names.
pub fn marking_told(table: &Source, marking: &[u8]) -> String {
    table.table.set(&held(marking))
}

/// What holds at the start and after each of some steps, which are known to play.
pub fn markings(library: &mut Driver, table: &Source, steps: &[u16]) -> Answer<Vec<Vec<u16>>> {
    let mut marking = vec![0; table.table.conditions.len()];
    library.start(&table.bytes, &mut marking)?;
    let mut markings = vec![held(&marking)];
    for event in steps {
        library.fire(&table.bytes, &mut marking, *event)?;
        markings.push(held(&marking));
    }
    Ok(markings)
}
