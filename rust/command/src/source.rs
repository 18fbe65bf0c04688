//! Tables and runs as they are given: a file of records, or text.

use std::path::Path;

use text::{Log, Place, Run, Table, Trouble};

use crate::errors::say;
use crate::files::{bytes_of, called, control_at, is_text, is_there, looks_like, meant, near};
use crate::files::{why_records, why_records_in_next, STANDARD_INPUT, TABLE_KINDS};
use crate::next;
use crate::stop::{Stop, Stopped};

/// A table as it is given.
pub struct Source {
    /// The path that it was read from, as messages call it.
    pub path: String,
    /// The bytes of its records.
    pub bytes: Vec<u8>,
    /// The text's table; for a file of records what it spells, without names and places, as far as it spells a table.
    pub table: Table,
    /// It was given as text.
    pub is_text: bool,
}

/// A run as it is given.
#[derive(Clone, Debug)]
pub struct RunSource {
    /// What it is called in messages: its name in the table's text, its file, or its name in a file of several runs.
    pub called: String,
    /// The name that a text gives it.
    pub name: Option<String>,
    /// The file that it stands in, as messages call it.
    pub path: String,
    /// The bytes of its record.
    pub bytes: Vec<u8>,
    /// Its steps, as far as the bytes spell a run.
    pub steps: Vec<u16>,
    /// The place of each step in the text, if it was given as text.
    pub places: Vec<Place>,
}

/// The most steps of a run.
pub const MOST_STEPS: usize = 4096;

/// The most bytes of a record file that the library is asked with; no table that it accepts has a tenth of them.
const MOST_BYTES: usize = 4_000_000;

/// A record file that the library can be asked with.
fn asked_with(path: &str, bytes: &[u8]) -> Stopped<()> {
    if bytes.len() <= MOST_BYTES {
        return Ok(());
    }
    let what = format!(
        "{} bytes, and record files are taken up to {MOST_BYTES}",
        bytes.len()
    );
    Err(Stop::Failed(format!("{path}: {what}")))
}

/// What keeps a text from being a table or runs, a line for each trouble, up to as many as are told.
fn no_text(path: &str, troubles: Vec<Trouble>) -> Stop {
    let lines = text::lines(&troubles);
    let lines: Vec<String> = lines.iter().map(|line| format!("{path}: {line}")).collect();
    Stop::Text(lines.join("\n"))
}

/// A text looks like a log: there is something in it beside comments, but neither a line that begins with `conditions` nor a list in
/// braces, without which there is no table.
fn is_like_log(given: &[u8]) -> bool {
    let given = String::from_utf8_lossy(given);
    let lines = given.lines().filter_map(|line| line.split('#').next());
    let mut lines = lines.map(str::trim).filter(|line| !line.is_empty());
    let is_of_table = |line: &str| line.starts_with("conditions") || line.contains('{');
    let is_of_log = |line: &str| !is_of_table(line);
    lines.next().is_some_and(is_of_log) && lines.all(is_of_log)
}

/// What keeps a text from being a table, and that it looks like a log, if it does.
fn no_table(path: &str, given: &[u8], troubles: Vec<Trouble>) -> Stop {
    match no_text(path, troubles) {
        Stop::Text(lines) if is_like_log(given) => Stop::Text(format!(
            "{lines}\n{path}: this looks like a log; the table comes first, then its runs"
        )),
        stop => stop,
    }
}

/// The table that a text spells. What keeps it from being one is its first trouble; in the next version all of them, and that it looks
/// like a log.
fn table_in(path: &str, given: &[u8]) -> Stopped<Table> {
    match next::is_asked() {
        true => text::read_all(given).map_err(|troubles| no_table(path, given, troubles)),
        false => text::read(given).map_err(|trouble| Stop::Text(format!("{path}: {trouble}"))),
    }
}

/// The table that the text of a file spells; a digest that it states must be its own.
fn spelled(path: &str, given: &[u8]) -> Stopped<Source> {
    let table = table_in(path, given)?;
    let source = Source {
        path: path.to_string(),
        bytes: table.bytes(),
        table,
        is_text: true,
    };
    source.held_to(path, source.table.digest.as_ref())?;
    Ok(source)
}

/// The table of a text file.
pub fn read_text(path: &str) -> Stopped<Source> {
    let given = bytes_of(path)?;
    let path = called(path);
    if let Some(at) = control_at(&given) {
        let what = match looks_like(&given) {
            Some(what) => format!("this is no text table; it looks like {what}"),
            None => format!("byte {at} is a control character, so this is no text"),
        };
        return Err(Stop::Text(format!("{path}: {what}")));
    }
    spelled(path, &given)
}

/// The table of a file, be it text or records, which is read once, so that it may be a pipe.
pub fn read(path: &str) -> Stopped<Source> {
    let bytes = bytes_of(path)?;
    let path = called(path);
    if is_text(&bytes) {
        return spelled(path, &bytes);
    }
    asked_with(path, &bytes)?;
    Ok(Source {
        path: path.to_string(),
        table: Table::of_bytes(&bytes).unwrap_or_default(),
        bytes,
        is_text: false,
    })
}

/// The run of a record file.
pub fn read_run(path: &str) -> Stopped<RunSource> {
    let bytes = bytes_of(path)?;
    if is_text(&bytes) {
        let what = "is text; a run is a record file, or the name of a run in a text table";
        return Err(Stop::Use(format!("{path} {what}")));
    }
    recorded(called(path), bytes)
}

/// The run of the record that a file holds.
fn recorded(path: &str, bytes: Vec<u8>) -> Stopped<RunSource> {
    asked_with(path, &bytes)?;
    Ok(RunSource {
        called: path.to_string(),
        name: None,
        path: path.to_string(),
        steps: text::steps_of(&bytes).unwrap_or_default(),
        bytes,
        places: Vec::new(),
    })
}

/// The table of a file that another word comes after, a run or an event; where that word is a file and the table none, the two are likely
/// exchanged.
pub fn read_before(path: &str, next: Option<&str>, what: &str) -> Stopped<Source> {
    let is_file = |path: &str| match next::is_asked() {
        true => is_there(path),
        false => path == STANDARD_INPUT || Path::new(path).exists(),
    };
    match next {
        Some(next) if !is_file(path) && is_file(next) => Err(Stop::Use(format!(
            "'{path}' is no file; the table comes first, then the {what}"
        ))),
        _ => read(path),
    }
}

/// The table of a file that runs may come after.
pub fn read_before_runs(path: &str, runs: &[String]) -> Stopped<Source> {
    read_before(path, runs.first().map(String::as_str), "run")
}

/// What the runs of a log are called: by the file where there is one without a name, else by their names there.
fn called_in(path: &str, log: &Log, index: usize) -> String {
    match &log.runs[..] {
        [Run { name: None, .. }] => path.to_string(),
        _ => format!("run `{}` of {path}", log.run_name(index)),
    }
}

/// A run that stands in a text.
fn run_in(path: &str, called: String, run: &Run) -> RunSource {
    RunSource {
        called,
        name: run.name.clone(),
        path: path.to_string(),
        bytes: run.bytes(),
        steps: run.steps.clone(),
        places: run.places.clone(),
    }
}

impl Source {
    /// The digest of the table.
    pub fn digest(&self) -> String {
        text::digest(&self.bytes)
    }

    /// A digest that a text states, if it does, is this table's, as far as its digits go.
    pub fn held_to(&self, path: &str, stated: Option<&(String, Place)>) -> Stopped<()> {
        let digest = self.digest();
        let Some((other, place)) = stated.filter(|(stated, _)| !digest.starts_with(stated)) else {
            return Ok(());
        };
        let what = match path == self.path {
            true => format!(
                "this table is {digest}: it was changed since, or is another one than was meant"
            ),
            false => format!("{} is {digest}", self.path),
        };
        Err(Stop::Text(format!(
            "{path}: {place}: this is for the table {other}, and {what}"
        )))
    }

    /// The run at an index of a text table.
    pub fn run(&self, index: usize) -> RunSource {
        let called = format!("run `{}`", self.table.run_name(index));
        run_in(&self.path, called, &self.table.runs[index])
    }

    /// The runs of a text that is no table.
    fn runs_of_log(&self, path: &str, bytes: &[u8]) -> Stopped<Vec<RunSource>> {
        self.held_to(path, text::log_digest(bytes).as_ref())?;
        let log = text::read_log(bytes, &self.table).map_err(|troubles| no_text(path, troubles))?;
        let run = |(index, run)| run_in(path, called_in(path, &log, index), run);
        Ok(log.runs.iter().enumerate().map(run).collect())
    }

    /// The runs of a file: the one of a record file, or all that a text states.
    pub fn runs_of(&self, path: &str) -> Stopped<Vec<RunSource>> {
        let bytes = bytes_of(path)?;
        let path = called(path);
        if is_text(&bytes) {
            return self.runs_of_log(path, &bytes);
        }
        Ok(vec![recorded(path, bytes)?])
    }

    /// What the table's runs are called.
    fn run_names(&self) -> Vec<String> {
        let runs = 0..self.table.runs.len();
        runs.map(|index| self.table.run_name(index)).collect()
    }

    /// That there is no run of a name, which runs there are, and which is likely meant.
    fn no_run(&self, name: &str) -> Stop {
        let names = self.run_names();
        let known = match (self.is_text, names.is_empty()) {
            (false, _) => {
                let why = match next::is_asked() {
                    true => why_records(&self.bytes, TABLE_KINDS),
                    false => String::new(),
                };
                format!("{} is no text, so its runs are files{why}", self.path)
            }
            (true, true) => format!("{} has no runs", self.path),
            (true, false) => format!("the runs of {} are: {}", self.path, names.join(", ")),
        };
        let run = text::nearest(name, names.iter().map(String::as_str)).map(String::from);
        let meant = meant(run.or_else(|| near(Path::new(name))));
        Stop::Use(format!(
            "'{name}' is neither a run nor a file{meant}; {known}"
        ))
    }

    /// The run at hand where none is asked for: the text's first.
    fn first_run(&self) -> Stopped<RunSource> {
        if !self.table.runs.is_empty() {
            return Ok(self.run(0));
        }
        let what = match self.is_text {
            true => "has no run, so RUN must be given".to_string(),
            false => {
                let why = why_records_in_next(&self.bytes, TABLE_KINDS);
                format!("is no text, so no run stands in it and RUN must be given{why}")
            }
        };
        Err(Stop::Use(format!("{} {what}", self.path)))
    }

    /// The index of the run of the table's text that a word names or counts, if it does; where a file has that name too, it is said what is taken.
    pub fn own_run(&self, word: &str) -> Option<usize> {
        let index = self.table.run_meant(word)?;
        if Path::new(word).exists() {
            let taken = format!("'{word}' is taken as the run of {}", self.path);
            say(format!("note: {taken}; the file is './{word}'"));
        }
        Some(index)
    }

    /// The runs that a word asks for: the one of that name or number in the table's text, or else those of a file, or the one of a file and a name.
    fn runs_called(&self, word: &str) -> Stopped<Vec<RunSource>> {
        if let Some(index) = self.own_run(word) {
            return Ok(vec![self.run(index)]);
        }
        if is_there(word) {
            return self.runs_of(word);
        }
        match word.rsplit_once(':').filter(|(file, _)| is_there(file)) {
            Some((file, name)) => Ok(vec![self.run_of(file, name)?]),
            None => Err(self.no_run(word)),
        }
    }

    /// The run of a file that has a name there, or a number.
    fn run_of(&self, file: &str, name: &str) -> Stopped<RunSource> {
        let runs = self.runs_of(file)?;
        let names = names_of(&runs);
        let is_meant = |index: &usize| names[*index] == name || index.to_string() == name;
        if let Some(index) = (0..names.len()).find(is_meant) {
            return Ok(runs[index].clone());
        }
        let near = text::nearest(name, names.iter().map(String::as_str)).map(String::from);
        let (file, meant, known) = (called(file), meant(near), names.join(", "));
        Err(Stop::Use(format!(
            "{file} has no run '{name}'{meant}; its runs are: {known}"
        )))
    }

    /// The runs that are asked for, each word by a name in the table's text or by a file; without a word, all runs of the text.
    pub fn asked_runs(&self, asked: &[String]) -> Stopped<Vec<RunSource>> {
        if asked.is_empty() {
            let all = 0..self.table.runs.len();
            return Ok(all.map(|index| self.run(index)).collect());
        }
        let runs = asked.iter().map(|word| self.runs_called(word));
        Ok(runs.collect::<Stopped<Vec<_>>>()?.concat())
    }

    /// The runs that are asked for; without a word, the text's first.
    pub fn runs_or_first(&self, asked: &[String]) -> Stopped<Vec<RunSource>> {
        match asked {
            [] => Ok(vec![self.first_run()?]),
            asked => self.asked_runs(asked),
        }
    }

    /// The run that is asked for as `list` takes it without the next version: by its name in the text, or else a file of a record; without
    /// either, the text's first run.
    pub fn named_run(&self, asked: Option<&str>) -> Stopped<RunSource> {
        let Some(name) = asked else {
            return self.first_run();
        };
        if let Some(index) = self.table.run_called(name) {
            return Ok(self.run(index));
        }
        if matches!(Path::new(name).try_exists(), Ok(false)) {
            return Err(self.no_run(name));
        }
        read_run(name)
    }

    /// The one run that is asked for: by its name in the text, or else a file of one run; without either, the text's first run.
    pub fn asked_run(&self, asked: Option<&str>) -> Stopped<RunSource> {
        let Some(word) = asked else {
            return self.first_run();
        };
        let runs = self.runs_called(word)?;
        match <[RunSource; 1]>::try_from(runs) {
            Ok([run]) => Ok(run),
            Err(runs) => Err(too_many(word, &runs)),
        }
    }
}

/// The names of the runs of a file, with numbers for those that have none.
fn names_of(runs: &[RunSource]) -> Vec<String> {
    let named = runs.iter().enumerate();
    let names = named.map(|(index, run)| run.name.clone().unwrap_or(index.to_string()));
    names.collect()
}

/// That one run is needed where a file has several, which those are, and how one is asked for.
fn too_many(word: &str, runs: &[RunSource]) -> Stop {
    let names = names_of(runs);
    Stop::Use(format!(
        "{} has {} runs, and one is needed here, as '{word}:{}'; they are: {}",
        called(word),
        runs.len(),
        names[0],
        names.join(", ")
    ))
}
