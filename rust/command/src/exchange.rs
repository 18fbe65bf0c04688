//! `dovetrellis exchange`: two neighbouring steps of a run change places.

use std::io::Write;

use text::Run;
use wire::{Answer, Driver, Failure, Refusal};

use crate::played::{end_of, library_for, marking_told, steps_of};
use crate::source::{self, RunSource, Source};
use crate::stop::{Stop, Stopped, Told};
use crate::telling::{counted, meaning_with};

/// Two neighbouring steps of a run: their events, the number of the first of them, and the marking before it.
struct Pair<'a> {
    table: &'a Source,
    events: [u16; 2],
    step: usize,
    before: Vec<u8>,
}

impl Pair<'_> {
    /// The preconditions and the postconditions of one of the two events.
    fn lists(&self, which: usize) -> [&[u16]; 2] {
        let event = self.table.table.events.get(usize::from(self.events[which]));
        event.map_or([&[], &[]], |event| {
            [&event.preconditions, &event.postconditions]
        })
    }

    /// A condition is persistent and did not hold before the two steps.
    fn is_new(&self, condition: u16) -> bool {
        let holds = self.before.get(usize::from(condition)) == Some(&1);
        self.table.table.is_persistent(condition) && !holds
    }

    /// The ordinary conditions that both events take or put.
    fn shared(&self) -> Vec<u16> {
        let others = self.lists(1);
        let is_shared = |b: &u16| {
            !self.table.table.is_persistent(*b) && others.iter().any(|list| list.contains(b))
        };
        let mut shared = self.lists(0).concat();
        shared.retain(is_shared);
        shared.sort();
        shared.dedup();
        shared
    }

    /// The persistent conditions that the second event reads and that did not hold before.
    fn newly_read(&self) -> Vec<u16> {
        let [pre, _] = self.lists(1);
        pre.iter().copied().filter(|b| self.is_new(*b)).collect()
    }

    /// The persistent conditions that both events mark and that did not hold before.
    fn newly_marked(&self) -> Vec<u16> {
        let ([_, post], [_, other]) = (self.lists(0), self.lists(1));
        let both = post.iter().copied().filter(|b| other.contains(b));
        both.filter(|b| self.is_new(*b)).collect()
    }

    /// Conditions with their names, if there are any.
    fn told(&self, conditions: &[u16]) -> Option<String> {
        let told = conditions.iter().map(|b| self.table.condition_told(*b));
        let told: Vec<String> = told.collect();
        (!told.is_empty()).then(|| told.join(" and "))
    }

    /// Why the two may not change places: each premise of the rule that fails, in words.
    fn reasons(&self) -> String {
        let [first, second] = self.events.map(|event| self.table.event_called(event));
        if self.events[0] == self.events[1] {
            return format!("both are steps of {first}");
        }
        let new = format!("which did not hold before step {}", self.step);
        let shared = self.told(&self.shared());
        let read = self.told(&self.newly_read());
        let marked = self.told(&self.newly_marked());
        let reasons = [
            shared.map(|b| format!("{first} and {second} both take or put the ordinary {b}")),
            read.map(|b| format!("{second} reads the persistent {b}, {new}")),
            marked.map(|b| format!("{first} and {second} both mark the persistent {b}, {new}")),
        ];
        let reasons: Vec<String> = reasons.into_iter().flatten().collect();
        reasons.join("; ")
    }
}

/// That there is no step after step k in a run that plays, and which k would do.
fn no_pair(run: &RunSource, steps: usize, refusal: Refusal) -> Told {
    let count = counted(steps as u64, "step");
    let what = match steps {
        0 | 1 => format!("the run has {count}, and two are needed"),
        _ => format!("the run has {count}, so K is at most {}", steps - 2),
    };
    Told {
        refusal,
        what,
        place: run.called.clone(),
    }
}

/// Why steps k and k + 1 of a run that plays may not change places, told by what holds before them.
fn refused(
    library: &mut Driver,
    table: &Source,
    run: &RunSource,
    steps: &[u16],
    refusal: Refusal,
) -> Stopped<Told> {
    let k = refusal.place as usize;
    let Some(&[first, second]) = steps.get(k..).and_then(|rest| rest.get(..2)) else {
        return Ok(no_pair(run, steps.len(), refusal));
    };
    let pair = Pair {
        table,
        events: [first, second],
        step: k,
        before: end_of(library, table, run, &steps[..k])?,
    };
    let [first, second] = pair.events.map(|event| table.event_called(event));
    let steps = format!("steps {k} and {} of {}", k + 1, run.called);
    Ok(Told {
        refusal,
        what: meaning_with(refusal.number, Some(&pair.reasons())),
        place: format!("{steps}, counted from 0: {first} and {second}"),
    })
}

/// Numbers with commas between them.
fn listed(numbers: impl Iterator<Item = impl ToString>) -> String {
    let numbers: Vec<String> = numbers.map(|number| number.to_string()).collect();
    numbers.join(", ")
}

/// How two lifted runs of one length differ: at which steps, and what stood there and stands there now.
fn differences(before: &[u16], now: &[u16]) -> String {
    let steps = || (0..now.len()).filter(|step| before[*step] != now[*step]);
    let events = |run: &[u16]| listed(steps().map(|step| run[step]));
    let (steps, before, now) = (listed(steps()), events(before), events(now));
    format!("lifted, the two runs differ at steps {steps} alone: unfolded events {before} before, {now} now")
}

/// How the lifts of the run before and of the one now compare, as far as the library gives any.
fn lifts_told(before: Answer<Vec<u16>>, now: Answer<Vec<u16>>) -> Answer<String> {
    use Failure::{Lost, Refused};
    Ok(match (before, now) {
        (Ok(before), Ok(now)) => differences(&before, &now),
        (Err(Refused(before)), Err(Refused(now))) => {
            format!("neither run lifts: {before} before, {now} now")
        }
        (Ok(_), Err(Refused(now))) => format!("the run before lifts, this one does not: {now}"),
        (Err(Refused(before)), Ok(_)) => {
            format!("this run lifts, the one before does not: {before}")
        }
        (Err(lost @ Lost(_)), _) | (_, Err(lost @ Lost(_))) => return Err(lost),
    })
}

/// The lift of steps.
fn lift(library: &mut Driver, table: &Source, steps: &[u16]) -> Answer<Vec<u16>> {
    let mut lifted = vec![0; steps.len()];
    library.lift(&table.bytes, steps, &mut lifted)?;
    Ok(lifted)
}

/// Writes a run with steps k and k + 1 exchanged, and what the library answers of it and of the run before: where they end, and how
/// they lift.
fn write(
    library: &mut Driver,
    table: &Source,
    run: &RunSource,
    [before, now]: [&[u16]; 2],
    out: &mut impl Write,
) -> Stopped<()> {
    let ended = end_of(library, table, run, before)?;
    let ends = end_of(library, table, run, now)?;
    let as_before = match ended == ends {
        true => "as before".to_string(),
        false => format!("not in {} as before", marking_told(table, &ended)),
    };
    let [lifted, lifts] = [before, now].map(|steps| lift(library, table, steps));
    let lifts = lifts_told(lifted, lifts).map_err(|failure| table.failed(failure))?;
    let steps = now.to_vec();
    let count = counted(steps.len() as u64, "step");
    let exchanged = Run {
        steps,
        ..Run::default()
    };
    writeln!(out, "table: {}", table.digest())?;
    writeln!(out, "{}", table.table.run_text(&exchanged))?;
    let ends = marking_told(table, &ends);
    writeln!(out, "# {count}, ends in {ends}, {as_before}")?;
    Ok(writeln!(out, "# {lifts}")?)
}

/// Writes a run of a table with steps k and k + 1 in each other's place.
pub fn exchange(table: &str, run: &str, k: u64, out: &mut impl Write) -> Stopped<()> {
    let table = source::read_before(table, Some(run), "run")?;
    let run = table.asked_run(Some(run))?;
    let mut library = library_for(&table)?;
    let steps = steps_of(&mut library, &table, &run)?;
    end_of(&mut library, &table, &run, &steps)?;
    let mut exchanged = steps.clone();
    match library.exchange(&table.bytes, &mut exchanged, k) {
        Ok(()) => write(&mut library, &table, &run, [&steps, &exchanged], out),
        Err(Failure::Refused(refusal)) => {
            let told = refused(&mut library, &table, &run, &steps, refusal)?;
            Err(Stop::Refused(told))
        }
        Err(lost) => Err(table.failed(lost)),
    }
}
