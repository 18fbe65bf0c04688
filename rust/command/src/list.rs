//! `dovetrellis list`: the listing of runs, as the proved program writes it, by names, or as JSON.

use std::io::Write;

use wire::{Driver, Refusal};

use crate::asked::Form;
use crate::before::story;
use crate::json::{refused_as_json, write_line};
use crate::listed::{write_all, Listed};
use crate::lister::listing;
use crate::next;
use crate::played::library_for;
use crate::source::{self, RunSource, Source};
use crate::stop::{Stop, Stopped, Told};
use crate::tools;
use crate::trial::Fate;
use crate::walk::walked;

/// The record of a run without steps.
const NO_STEPS: [u8; 4] = [0, 0, 4, 0];

/// The refusal that the text of a program consists of, if it is one; its condition comes last, where there is one.
pub fn refusal_of(text: &str) -> Option<Refusal> {
    let line = text.strip_prefix("refused ")?.trim_end();
    let (number, rest) = line.split_once(" at ")?;
    let (place, by) = match rest.split_once(" by ") {
        Some((place, by)) => (place, Some(by.parse().ok()?)),
        None => (rest, None),
    };
    Some(Refusal {
        number: number.parse().ok()?,
        place: place.parse().ok()?,
        by,
    })
}

/// What the program writes of a table and the record of a run.
fn written(table: &Source, run: &[u8]) -> Stopped<String> {
    let mut program = tools::list_program()?;
    listing(&mut program, &table.bytes, run).map_err(|error| Stop::Failed(error.to_string()))
}

/// The most bytes of a table that the program takes.
const MOST_TABLE: usize = 65_536;

/// A refusal of the table by the program; in the next version with what else serves: other words take larger tables, and play what does
/// not unfold.
fn told_by_program(table: &Source, refusal: Refusal) -> Told {
    let told = table.told(refusal);
    if !next::is_asked() {
        return told;
    }
    let what = match refusal.number {
        13 | 14 => format!("{}; 'list --names' lists its runs all the same", told.what),
        19 if table.bytes.len() > MOST_TABLE => format!(
            "the program 'list' takes tables of up to {MOST_TABLE} bytes; \
             'list --names', 'judge' and 'replay' take larger ones"
        ),
        _ => told.what,
    };
    Told { what, ..told }
}

/// The listing of a run as the program writes it. A refusal in its place is the table's own where a run without steps is refused the
/// same, and is then one of all runs.
fn listed(table: &Source, run: &RunSource) -> Stopped<Listed> {
    let text = written(table, &run.bytes)?;
    let told = match refusal_of(&text) {
        None => None,
        Some(refusal) if refusal_of(&written(table, &NO_STEPS)?) == Some(refusal) => {
            return Err(Stop::Refused(told_by_program(table, refusal)));
        }
        Some(refusal) => Some(table.run_told(run, refusal)),
    };
    Ok(Listed { text, told })
}

/// The listing of a run by names.
fn named(library: &mut Driver, table: &Source, run: &RunSource) -> Stopped<Listed> {
    let walk = walked(library, table, run)?;
    Ok(Listed {
        text: walk.lines(table).join("\n") + "\n",
        told: walk.trial.told().cloned(),
    })
}

/// Writes runs as JSON, an object on a line for each.
fn write_json(table: &Source, runs: &[RunSource], out: &mut impl Write) -> Stopped<()> {
    let mut library = library_for(table).map_err(|stop| refused_as_json(stop, table, out))?;
    let mut fares = Ok(());
    for run in runs {
        let walk = walked(&mut library, table, run)?;
        write_line(&walk.json(table, run), out)?;
        if !matches!(walk.trial.fate, Fate::Lifts(_)) {
            fares = Err(Stop::Answered);
        }
    }
    fares
}

/// Writes runs by names.
fn write_names(table: &Source, runs: &[RunSource], out: &mut impl Write) -> Stopped<()> {
    let mut library = library_for(table)?;
    let named = |run: &RunSource| named(&mut library, table, run);
    write_all(runs, named, |_, _| Ok(String::new()), out)
}

/// Lists runs of a table; without runs its first, and without a table that of the example.
pub fn list(table: Option<&str>, runs: &[String], form: Form, out: &mut impl Write) -> Stopped<()> {
    let example = tools::examples()
        .join("net-a.txt")
        .to_string_lossy()
        .into_owned();
    let table = table.unwrap_or(&example);
    let table = source::read_before_runs(table, runs)?;
    let runs = match form {
        Form::Program if !next::is_asked() => {
            vec![table.named_run(runs.first().map(String::as_str))?]
        }
        _ => table.runs_or_first(runs)?,
    };
    match form {
        Form::Names => write_names(&table, &runs, out),
        Form::Json => write_json(&table, &runs, out),
        Form::Program => {
            let listed = |run: &RunSource| listed(&table, run);
            let story = |run: &RunSource, told: &Told| match next::is_asked() {
                true => story(&table, run, told),
                false => Ok(String::new()),
            };
            write_all(&runs, listed, story, out)
        }
    }
}
