//! `dovetrellis pack` and `dovetrellis show`: from text to records, and back.

use std::fs;
use std::io::Write;
use std::path::Path;

use text::{Place, Run, Table};

use crate::files::{meant, near, plain, STANDARD_INPUT};
use crate::next;
use crate::played::{library_for, steps_of};
use crate::source::{self, read_run, read_text, RunSource, Source};
use crate::stop::{Stop, Stopped};

/// What the files of a table are called that comes through the standard input.
const UNNAMED: &str = "table";

/// A folder that cannot be had, and why.
fn no_folder(folder: &str, why: impl std::fmt::Display) -> Stop {
    Stop::Failed(format!("'{folder}' cannot be a folder: {why}"))
}

/// A folder that is not there may be made: the one that it would stand in is there.
fn may_be_made(folder: &str) -> Stopped<()> {
    let parent = Path::new(folder).parent();
    let parent = parent.filter(|parent| *parent != Path::new(""));
    let Some(missing) = parent.filter(|parent| !parent.exists()) else {
        return Ok(());
    };
    let (called, meant) = (missing.display(), meant(near(missing)));
    Err(Stop::Failed(format!(
        "there is no folder '{called}'{meant}; so '{folder}' is not made"
    )))
}

/// Makes the folder if it is not there, and those on the way to it; in the next version it alone, and says so.
fn have_folder(folder: &str, out: &mut impl Write) -> Stopped<()> {
    let path = Path::new(folder);
    if path.is_dir() {
        return Ok(());
    }
    if path.exists() {
        return Err(no_folder(folder, "a file has that name"));
    }
    if folder.is_empty() {
        return Err(Stop::Failed("the name of the folder is empty".to_string()));
    }
    if !next::is_asked() {
        return fs::create_dir_all(path).map_err(|error| no_folder(folder, plain(&error)));
    }
    may_be_made(folder)?;
    fs::create_dir(path).map_err(|error| no_folder(folder, plain(&error)))?;
    Ok(writeln!(out, "made the folder {folder}")?)
}

/// Writes a file and says so.
fn write(folder: &str, name: &str, bytes: &[u8], out: &mut impl Write) -> Stopped<()> {
    let path = Path::new(folder).join(name);
    let failed = |error| format!("{} cannot be written: {}", path.display(), plain(&error));
    fs::write(&path, bytes).map_err(|error| Stop::Failed(failed(error)))?;
    Ok(writeln!(out, "{} ({} bytes)", path.display(), bytes.len())?)
}

/// What the files of a table are called that comes from such a file.
fn stem_of(path: &str) -> String {
    let stem = Path::new(path).file_stem().unwrap_or_default();
    match path {
        STANDARD_INPUT => UNNAMED.to_string(),
        _ => stem.to_string_lossy().into_owned(),
    }
}

/// Turns a text table into records, as written; then the library judges them. In the next version the table's digest is told too.
pub fn pack(path: &str, folder: Option<&str>, out: &mut impl Write) -> Stopped<()> {
    let folder = folder.unwrap_or(".");
    let table = read_text(path)?;
    let stem = stem_of(path);
    have_folder(folder, out)?;
    write(folder, &format!("{stem}.net.bin"), &table.bytes, out)?;
    if next::is_asked() {
        writeln!(out, "digest: {}", table.digest())?;
    }
    for (index, run) in table.table.runs.iter().enumerate() {
        let name = table.table.run_name(index);
        write(folder, &format!("{stem}.{name}.run.bin"), &run.bytes(), out)?;
    }
    out.flush()?;
    let mut library = library_for(&table)?;
    for index in 0..table.table.runs.len() {
        let run = table.run(index);
        steps_of(&mut library, &table, &run)?;
    }
    Ok(())
}

/// The runs of files that are asked for. In the next version those that are asked for by a name stand in the table's text already.
fn runs_of_files(table: &Source, asked: &[String]) -> Stopped<Vec<RunSource>> {
    if !next::is_asked() {
        return asked.iter().map(|file| read_run(file)).collect();
    }
    let is_file = |word: &&String| table.own_run(word).is_none();
    let files: Vec<String> = asked.iter().filter(is_file).cloned().collect();
    match files.is_empty() {
        true => Ok(Vec::new()),
        false => table.asked_runs(&files),
    }
}

/// Adds a run to a table; a name that another run has already is left out, since a text cannot have it twice.
fn add_run(table: &mut Table, name: Option<String>, steps: Vec<u16>) {
    let is_free = |name: &String| table.runs.iter().all(|run| run.name.as_ref() != Some(name));
    let name = name.filter(is_free);
    table.runs.push(Run {
        name,
        steps,
        ..Run::default()
    });
}

/// Writes a table and runs of it as text; in the next version, where there are runs, with the digest of the table that they are for, and
/// where table and run are likely exchanged that is said.
pub fn show(path: &str, runs: &[String], out: &mut impl Write) -> Stopped<()> {
    let mut table = match next::is_asked() {
        true => source::read_before_runs(path, runs)?,
        false => source::read(path)?,
    };
    let runs = runs_of_files(&table, runs)?;
    let mut library = library_for(&table)?;
    for run in runs {
        let steps = steps_of(&mut library, &table, &run)?;
        add_run(&mut table.table, run.name, steps);
    }
    if next::is_asked() && !table.table.runs.is_empty() {
        table.table.digest = Some((table.digest(), Place::default()));
    }
    Ok(out.write_all(table.table.text().as_bytes())?)
}
