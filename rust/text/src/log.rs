//! Logs: runs of a table in a text of their own.

use crate::grammar::{List, Statement};
use crate::meaning::{decoded, judge_once};
use crate::names::{Label, Names};
use crate::stated::log_statements;
use crate::table::{Log, Table};
use crate::trouble::{trouble, Place, Trouble, Troubles};

/// The trouble that steps without `run` and runs stand in one text, told where the second kind begins.
fn judge_mixed(statements: &[Statement], troubles: &mut Troubles) {
    let is_bare = |statement: &Statement| match statement {
        Statement::Steps(list) => Some((true, list.place)),
        Statement::Run(place, ..) => Some((false, *place)),
        _ => None,
    };
    let kinds: Vec<(bool, Place)> = statements.iter().filter_map(is_bare).collect();
    let other = kinds.iter().find(|(bare, _)| *bare != kinds[0].0);
    let mixed = match other {
        None => return,
        Some((true, place)) => trouble(
            *place,
            "`run`, since other runs of this text begin with it",
            "steps without it",
        ),
        Some((false, place)) => trouble(
            *place,
            "steps, since this text begins with steps that no `run` states",
            "`run`",
        ),
    };
    troubles.noted::<()>(mixed);
}

/// Runs that are being read.
struct Reading {
    events: Names,
    names: Names,
    troubles: Troubles,
    log: Log,
}

impl Reading {
    /// Takes a run.
    fn take_run(&mut self, place: Place, label: &Label, list: &List) {
        if let Some((name, named)) = label {
            self.troubles.noted(self.names.give(name, 0, *named));
        }
        let run = self.events.run(place, label, list, &mut self.troubles);
        self.log.runs.push(run);
    }

    /// Takes a statement of a run or of the digest.
    fn take(&mut self, statement: &Statement) {
        match statement {
            Statement::Run(place, label, list) => self.take_run(*place, label, list),
            Statement::Digest(_, digest) => self.log.digest = Some(digest.clone()),
            _ => {}
        }
    }
}

/// The steps that no `run` states, as one list, since a digest between them does not end a run; none where there are none.
fn bare_steps(statements: &[Statement]) -> Option<List> {
    let steps = |statement: &Statement| match statement {
        Statement::Steps(list) => Some(list.clone()),
        _ => None,
    };
    let join = |mut before: List, list: List| {
        before.elements.extend(list.elements);
        before
    };
    statements.iter().filter_map(steps).reduce(join)
}

/// The runs that a text states for a table whose events it names: `run` statements as in a table, or steps alone, which are one run.
pub fn read_log(bytes: &[u8], table: &Table) -> Result<Log, Vec<Trouble>> {
    let text = decoded(bytes).map_err(|trouble| vec![trouble])?;
    let stated = log_statements(text).map_err(|trouble| vec![trouble])?;
    let is_sound = stated.troubles.are_none();
    let mut reading = Reading {
        events: Names::of_events(table),
        names: Names::none("run"),
        troubles: stated.troubles,
        log: Log::default(),
    };
    judge_mixed(&stated.statements, &mut reading.troubles);
    judge_once(&stated.statements, &mut reading.troubles);
    for statement in &stated.statements {
        reading.take(statement);
    }
    if let Some(list) = bare_steps(&stated.statements) {
        reading.take_run(list.place, &None, &list);
    }
    if reading.log.runs.is_empty() && is_sound {
        let expected = "a run: its steps, or `run:` for a run without steps";
        let none = trouble(stated.end, expected, "the end of the text");
        reading.troubles.noted::<()>(none);
    }
    reading.troubles.or(reading.log)
}

/// The digest of the table that a text of runs states to be for, and where, whatever else is in the text.
pub fn log_digest(bytes: &[u8]) -> Option<(String, Place)> {
    let stated = log_statements(decoded(bytes).ok()?).ok()?;
    let digest = |statement| match statement {
        Statement::Digest(_, digest) => Some(digest),
        _ => None,
    };
    stated.statements.into_iter().find_map(digest)
}
