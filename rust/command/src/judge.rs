//! `dovetrellis judge`: the judge's answer, the digest, the counts, the rule, what the unfolded net may lack, what looks like a slip, and
//! how runs fare.

use std::io::Write;

use text::PAPER;
use wire::{Counts, Driver};

use crate::json::{refused_as_json, write_line, Json};
use crate::lossy::{self, lossy_events};
use crate::next;
use crate::source::{self, RunSource, Source};
use crate::stop::{Stop, Stopped, Told};
use crate::telling::counted;
use crate::tools;
use crate::trial::{tried, Fate, Trial};
use crate::unfold::unfolded;
use crate::warnings::warnings;

/// What is found out about an accepted table and runs of it.
struct Judged<'a> {
    table: &'a Source,
    counts: Counts,
    unfolding: Result<Counts, Told>,
    lossy: Vec<u16>,
    warnings: Vec<String>,
    runs: Vec<(&'a RunSource, Trial)>,
}

/// Judges a table and tries runs of it.
fn judged<'a>(
    library: &mut Driver,
    table: &'a Source,
    runs: &'a [RunSource],
) -> Stopped<Judged<'a>> {
    let counts = library.counts(&table.bytes);
    let counts = counts.map_err(|failure| table.failed(failure))?;
    let mut judged = Judged {
        table,
        counts,
        unfolding: unfolded(library, table)?,
        lossy: lossy_events(library, table)?,
        warnings: warnings(&table.table),
        runs: Vec::new(),
    };
    for run in runs {
        judged.runs.push((run, tried(library, table, run)?));
    }
    Ok(judged)
}

/// What is refused, in words on lines of their own.
fn refused(before: &str, told: &Told) -> String {
    format!("{before}{}\n{}", told.line(), told.words())
}

/// Two counts in words.
fn both(counts: Counts) -> String {
    let conditions = counted(counts.conditions, "condition");
    format!("{conditions} and {}", counted(counts.events, "event"))
}

/// How a run fares, in words: whether it plays, where it ends, and whether it lifts.
fn fares(table: &Source, trial: &Trial) -> String {
    let steps = counted(trial.steps.len() as u64, "step");
    let end = trial.end.as_deref().unwrap_or_default();
    let ends = format!("{steps}, ends in {}", table.table.set(end));
    match &trial.fate {
        Fate::Refused(told) => refused("", told),
        Fate::Lifts(_) => format!("{ends}, lifts"),
        Fate::Plays(told) if told.refusal.number == 15 => {
            refused(&format!("{ends}, does not lift: "), told)
        }
        Fate::Plays(_) => format!("{ends}, does not lift, as the table does not unfold"),
    }
}

/// So many runs do something, said rightly for one and for more; nothing for none.
fn so_many(count: usize, one: &str, more: &str) -> Option<String> {
    match count {
        0 => None,
        1 => Some(format!("1 {one}")),
        _ => Some(format!("{count} {more}")),
    }
}

impl Judged<'_> {
    /// How many runs come to a fate.
    fn count(&self, is_so: impl Fn(&Fate) -> bool) -> usize {
        let fates = self.runs.iter().map(|(_, trial)| &trial.fate);
        fates.filter(|fate| is_so(fate)).count()
    }

    /// How many runs are refused; one that only plays is not.
    fn refused(&self) -> usize {
        self.count(|fate| matches!(fate, Fate::Refused(_)))
    }

    /// How many runs lift, only play and are refused, in one line; none where no run was tried.
    fn summary(&self) -> Option<String> {
        let lift = self.count(|fate| matches!(fate, Fate::Lifts(_)));
        let play = self.count(|fate| matches!(fate, Fate::Plays(_)));
        let counts = [
            so_many(lift, "lifts", "lift"),
            so_many(play, "only plays", "only play"),
            so_many(self.refused(), "is refused", "are refused"),
        ];
        let counts: Vec<String> = counts.into_iter().flatten().collect();
        (!counts.is_empty()).then(|| format!("runs: {}", counts.join(", ")))
    }

    /// What becomes of the unfolding.
    fn unfolds(&self) -> String {
        match &self.unfolding {
            Ok(counts) => format!("unfolds to {}", both(*counts)),
            Err(told) => refused("does not unfold: ", told),
        }
    }

    /// What the net of the unfolding may lack, where there is one, and what looks like a slip.
    fn looks(&self) -> Vec<String> {
        let unfolds = self.unfolding.is_ok();
        let mut lines = match unfolds {
            true => lossy::told(self.table, &self.lossy),
            false => Vec::new(),
        };
        let warnings = self.warnings.iter();
        lines.extend(warnings.map(|warning| format!("warning: {warning}")));
        lines
    }

    /// The judge's answer, the rule, the counts and the runs in lines; where all is told, also the digest, what the net may lack, what looks
    /// like a slip, and how many runs fare how.
    fn lines(&self, is_all: bool) -> Vec<String> {
        let mut lines = vec![format!("accepted: {}", both(self.counts))];
        lines.extend(is_all.then(|| format!("digest: {}", self.table.digest())));
        lines.extend(self.table.rule_told().map(|rule| format!("follows {rule}")));
        lines.push(self.unfolds());
        lines.extend(is_all.then(|| self.looks()).unwrap_or_default());
        for (run, trial) in &self.runs {
            lines.push(format!("{}: {}", run.called, fares(self.table, trial)));
        }
        lines.extend(self.summary().filter(|_| is_all));
        lines
    }

    /// The conditions and the events, as JSON.
    fn named(&self) -> [Json; 2] {
        let conditions = self.table.table.conditions.iter().map(|condition| {
            Json::Object(vec![
                ("name", condition.name.clone().into()),
                ("persistent", condition.persistent.into()),
            ])
        });
        let events = self.table.table.events.iter();
        let events = events.map(|event| Json::Object(vec![("name", event.name.clone().into())]));
        [
            Json::List(conditions.collect()),
            Json::List(events.collect()),
        ]
    }

    /// All of it as JSON.
    fn json(&self) -> Json {
        let [conditions, events] = self.named();
        let rule = self.table.table.rule;
        let rule = rule.map(|byte| if byte == PAPER { "paper" } else { "old" });
        let runs = self.runs.iter().map(|(run, trial)| run_json(run, trial));
        Json::Object(vec![
            ("accepted", true.into()),
            ("digest", self.table.digest().into()),
            ("conditions", conditions),
            ("events", events),
            ("rule", rule.into()),
            ("unfolding", self.unfolding.as_ref().ok().copied().into()),
            ("lossy", self.lossy.as_slice().into()),
            ("warnings", self.warnings.as_slice().into()),
            ("runs", Json::List(runs.collect())),
            ("refused", self.unfolding.as_ref().err().into()),
        ])
    }
}

/// How a run fares, as JSON.
fn run_json(run: &RunSource, trial: &Trial) -> Json {
    let lifted = match &trial.fate {
        Fate::Lifts(lifted) => lifted.as_slice().into(),
        _ => Json::Null,
    };
    Json::Object(vec![
        ("name", run.name.clone().into()),
        ("called", run.called.as_str().into()),
        ("steps", (trial.steps.len() as u64).into()),
        ("outcome", trial.outcome()),
        ("end", trial.end.as_deref().into()),
        ("lifted", lifted),
        ("refused", trial.refused()),
    ])
}

/// Judges a table and tries the runs that are given, or else those that stand with it. The status tells of the table, and where it is
/// asked for of the runs too; then all is told.
pub fn judge(
    path: &str,
    runs: &[String],
    strict: bool,
    json: bool,
    out: &mut impl Write,
) -> Stopped<()> {
    let table = source::read_before_runs(path, runs)?;
    let runs = table.asked_runs(runs)?;
    let judged = judged(&mut tools::library()?, &table, &runs);
    let judged = judged.map_err(|stop| match json {
        true => refused_as_json(stop, &table, out),
        false => stop,
    })?;
    match json {
        true => write_line(&judged.json(), out)?,
        false => {
            let lines = judged.lines(strict || next::is_asked());
            writeln!(out, "{}", lines.join("\n"))?
        }
    }
    match strict && judged.refused() > 0 {
        true => Err(Stop::Answered),
        false => Ok(()),
    }
}
