//! A run step by step, with what holds after each, as the library plays it, and its lift as far as it plays.

use wire::{Answer, Driver, Failure};

use crate::json::Json;
use crate::played::markings;
use crate::source::{RunSource, Source};
use crate::stop::Stopped;
use crate::telling::held;
use crate::trial::{tried, Fate, Trial};

/// A run that was played step by step, as far as it plays.
pub struct Walk {
    pub trial: Trial,
    /// What holds at the start.
    pub start: Vec<u16>,
    /// What holds after each step that plays.
    pub markings: Vec<Vec<u16>>,
    /// The unfolded event of each step that plays, where those steps lift.
    pub unfolded: Option<Vec<u16>>,
    /// The unfolded conditions at the end, where the run lifts.
    pub end: Option<Vec<u16>>,
}

/// The unfolded events of steps that play, if they lift.
fn lifted(library: &mut Driver, table: &Source, steps: &[u16]) -> Answer<Option<Vec<u16>>> {
    let mut lifted = vec![0; steps.len()];
    match library.lift(&table.bytes, steps, &mut lifted) {
        Ok(()) => Ok(Some(lifted)),
        Err(Failure::Refused(_)) => Ok(None),
        Err(lost) => Err(lost),
    }
}

/// The unfolded conditions at the end of a run that lifts.
fn lifted_end(library: &mut Driver, table: &Source, steps: &[u16]) -> Answer<Vec<u16>> {
    let counts = library.unfolded_counts(&table.bytes)?;
    let mut end = vec![0; counts.conditions as usize];
    library.lift_end(&table.bytes, steps, &mut end)?;
    Ok(held(&end))
}

/// Plays a run of an accepted table step by step.
pub fn walked(library: &mut Driver, table: &Source, run: &RunSource) -> Stopped<Walk> {
    let lost = |failure| table.failed(failure);
    let trial = tried(library, table, run)?;
    let played = trial.played();
    let mut markings = markings(library, table, played).map_err(lost)?;
    let (unfolded, end) = match &trial.fate {
        Fate::Lifts(lifted) => {
            let end = lifted_end(library, table, played).map_err(lost)?;
            (Some(lifted.clone()), Some(end))
        }
        Fate::Plays(_) => (None, None),
        Fate::Refused(_) => (lifted(library, table, played).map_err(lost)?, None),
    };
    Ok(Walk {
        start: markings.remove(0),
        markings,
        unfolded,
        end,
        trial,
    })
}

impl Walk {
    /// Each step that plays: its event, its unfolded event if there is one, and what holds after it.
    pub fn steps(&self) -> impl Iterator<Item = (u16, Option<u16>, &[u16])> {
        let unfolded = |step| Some(*self.unfolded.as_ref()?.get(step)?);
        let steps = self.trial.steps.iter().zip(&self.markings).enumerate();
        steps.map(move |(step, (event, marking))| (*event, unfolded(step), marking.as_slice()))
    }

    /// The steps as JSON.
    fn steps_json(&self, table: &Source) -> Json {
        let steps = self.steps().map(|(event, unfolded, marking)| {
            let name = table.table.events.get(usize::from(event));
            Json::Object(vec![
                ("event", event.into()),
                ("name", name.and_then(|event| event.name.clone()).into()),
                ("unfolded", unfolded.into()),
                ("marking", marking.into()),
            ])
        });
        Json::List(steps.collect())
    }

    /// All of it as JSON.
    pub fn json(&self, table: &Source, run: &RunSource) -> Json {
        let end = self.end.as_deref();
        let end = end.map(|unfolded| Json::Object(vec![("unfolded", unfolded.into())]));
        Json::Object(vec![
            ("name", run.name.clone().into()),
            ("called", run.called.as_str().into()),
            ("start", self.start.as_slice().into()),
            ("steps", self.steps_json(table)),
            ("end", end.into()),
            ("outcome", self.trial.outcome()),
            ("refused", self.trial.refused()),
        ])
    }

    /// The lines of it by names: the start, the steps that play, and the end or why there is none; the last alone where it is not played.
    pub fn lines(&self, table: &Source) -> Vec<String> {
        let table = &table.table;
        let mut lines = Vec::new();
        if self.trial.is_played() {
            lines.push(format!("start {}", table.set(&self.start)));
        }
        for (step, (event, unfolded, marking)) in self.steps().enumerate() {
            let unfolded = unfolded.map(|number| format!(" ({number})"));
            let unfolded = unfolded.unwrap_or_default();
            let event = table.event_name(event);
            lines.push(format!("{step} {event}{unfolded} {}", table.set(marking)));
        }
        lines.push(match &self.trial.fate {
            Fate::Lifts(_) => {
                let end = self.end.as_deref().unwrap_or_default();
                format!("end unfolded {}", text::set_text(end))
            }
            Fate::Plays(told) => format!("plays, but does not lift: {}", told.line()),
            Fate::Refused(told) => told.line(),
        });
        lines
    }
}
