//! How a run of a table fares: the library reads its record, plays it and lifts it.

use wire::{whole, Answer, Driver, Failure, Refusal};

use crate::json::Json;
use crate::source::{RunSource, Source, MOST_STEPS};
use crate::stop::{Stopped, Told};
use crate::telling::held;

/// What comes of a run.
pub enum Fate {
    /// It plays, and lifts to these unfolded events.
    Lifts(Vec<u16>),
    /// It plays, but does not lift, for this reason.
    Plays(Told),
    /// Its record or one of its steps is refused.
    Refused(Told),
}

/// A run that was tried.
pub struct Trial {
    /// Its steps; where the record is refused, as far as the bytes spell a run.
    pub steps: Vec<u16>,
    /// What holds at its end, where it plays.
    pub end: Option<Vec<u16>>,
    pub fate: Fate,
}

/// A refusal of a run, told; where the run plays and its table does not unfold, it is the table's.
fn told(table: &Source, run: &RunSource, refusal: Refusal) -> Told {
    match refusal.number {
        13 | 14 => table.told(refusal),
        _ => table.run_told(run, refusal),
    }
}

/// What the library answers on a run, or the refusal in its place.
fn answered<T>(table: &Source, run: &RunSource, answer: Answer<T>) -> Stopped<Result<T, Told>> {
    match answer {
        Ok(value) => Ok(Ok(value)),
        Err(Failure::Refused(refusal)) => Ok(Err(told(table, run, refusal))),
        Err(lost) => Err(table.failed(lost)),
    }
}

/// Tries a run of an accepted table.
pub fn tried(library: &mut Driver, table: &Source, run: &RunSource) -> Stopped<Trial> {
    let refused = |steps: &[u16], told: Told| Trial {
        steps: steps.to_vec(),
        end: None,
        fate: Fate::Refused(told),
    };
    let steps = whole(MOST_STEPS, |steps| library.read_run(&run.bytes, steps));
    let steps = match answered(table, run, steps)? {
        Ok(steps) => steps,
        Err(told) => return Ok(refused(&run.steps, told)),
    };
    let mut end = vec![0; table.table.conditions.len()];
    let played = library.replay(&table.bytes, &steps, &mut end);
    if let Err(told) = answered(table, run, played)? {
        return Ok(refused(&steps, told));
    }
    let mut lifted = vec![0; steps.len()];
    let lift = library.lift(&table.bytes, &steps, &mut lifted);
    let fate = match answered(table, run, lift)? {
        Ok(()) => Fate::Lifts(lifted),
        Err(told) => Fate::Plays(told),
    };
    Ok(Trial {
        steps,
        end: Some(held(&end)),
        fate,
    })
}

impl Trial {
    /// Why it is refused, or why it does not lift.
    pub fn told(&self) -> Option<&Told> {
        match &self.fate {
            Fate::Lifts(_) => None,
            Fate::Plays(told) | Fate::Refused(told) => Some(told),
        }
    }

    /// It is played, if only up to a step that is refused; where its record is refused it is not.
    pub fn is_played(&self) -> bool {
        match &self.fate {
            Fate::Refused(told) => matches!(told.refusal.number, 10..=12),
            _ => true,
        }
    }

    /// The steps that play: all, or those before the one that is refused.
    pub fn played(&self) -> &[u16] {
        match &self.fate {
            Fate::Refused(told) => {
                let is_played = self.is_played();
                let count = if is_played { told.refusal.place } else { 0 };
                &self.steps[..self.steps.len().min(count as usize)]
            }
            _ => &self.steps,
        }
    }

    /// What comes of it, in the word that JSON has for it.
    pub fn outcome(&self) -> Json {
        Json::from(match self.fate {
            Fate::Lifts(_) => "lifts",
            Fate::Plays(_) => "plays",
            Fate::Refused(_) => "refused",
        })
    }

    /// The refusal of it or of its lift, as JSON.
    pub fn refused(&self) -> Json {
        self.told().into()
    }
}
