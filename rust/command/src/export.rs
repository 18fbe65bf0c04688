//! `dovetrellis export`: the unfolded net as PNML, as the proved program writes it.

use std::io::{self, BufRead, BufReader, Read, Write};
use std::path::Path;
use std::process::{Command, Stdio};

use wire::{Driver, Failure};

use crate::errors::say;
use crate::files::plain;
use crate::list::refusal_of;
use crate::lister::{not_run, Folder};
use crate::lossy::lossy_events;
use crate::names::some_of;
use crate::next;
use crate::played::library_for;
use crate::progress::{grouped, Line};
use crate::source::{self, Source};
use crate::stop::{Stop, Stopped};
use crate::tools;

/// The bytes that are passed on at once.
const PASSED: usize = 1 << 16;

/// The most bytes that are taken of what is no net; a refusal's line is shorter.
const MOST_OTHER: u64 = 100;

/// The program did not do its part.
fn failed(what: impl std::fmt::Display) -> Stop {
    Stop::Failed(format!("the program 'export': {what}"))
}

/// A refusal of the table, which leaves the output as it is.
fn withheld(stop: Stop) -> Stop {
    match stop {
        Stop::Refused(told) => Stop::Withheld(told),
        other => other,
    }
}

/// The bytes of a million.
const MEGABYTE: f64 = 1e6;

/// What the elements of a net begin with, but for the last, which closes all.
const BEGIN: [&[u8]; 4] = [b"<pn", b"<pl", b"<tr", b"<ar"];

/// How much of a net was passed on, told while that takes long.
struct Passed {
    line: Line,
    /// The elements of the whole net.
    of: u64,
    elements: u64,
    bytes: u64,
    /// The last two bytes that came, with which an element may have begun.
    last: [u8; 2],
}

impl Passed {
    /// Nothing of a table's net yet; its elements are counted only where somebody may look.
    fn none(library: &mut Driver, table: &Source) -> Stopped<Passed> {
        let line = Line::new("export");
        let of = match line.is_seen() {
            true => library.element_count(&table.bytes),
            false => Ok(0),
        };
        let of = match of {
            Ok(of) => of,
            // the program refuses it too, and is told
            Err(Failure::Refused(_)) => 0,
            Err(lost) => return Err(table.failed(lost)),
        };
        Ok(Passed {
            line,
            of,
            elements: 0,
            bytes: 0,
            last: [0; 2],
        })
    }

    /// Takes note of a part that was passed on.
    fn note(&mut self, part: &[u8]) {
        if !self.line.is_seen() {
            return;
        }
        let seen = [&self.last[..], part].concat();
        let begun = seen.windows(3).filter(|bytes| BEGIN.contains(bytes));
        self.elements += begun.count() as u64;
        self.bytes += part.len() as u64;
        self.last.copy_from_slice(&seen[seen.len() - 2..]);
        let (bytes, elements) = (self.bytes as f64 / MEGABYTE, grouped(self.elements));
        let of = grouped(self.of);
        let told = || format!("{bytes:.1} MB, {elements} of {of} elements");
        self.line.tell(told);
    }
}

/// Passes a net on as it comes, which begins with a tag; gives the text that comes in its place, if it is none.
fn passed(
    mut from: impl BufRead,
    noted: &mut Passed,
    out: &mut impl Write,
) -> Stopped<Option<String>> {
    let unread = |error: io::Error| failed(plain(&error));
    if from.fill_buf().map_err(unread)?.first() != Some(&b'<') {
        let mut other = Vec::new();
        let read = from.take(MOST_OTHER).read_to_end(&mut other);
        read.map_err(unread)?;
        return Ok(Some(String::from_utf8_lossy(&other).into_owned()));
    }
    loop {
        let part = from.fill_buf().map_err(unread)?;
        if part.is_empty() {
            return Ok(None);
        }
        out.write_all(part)?;
        noted.note(part);
        let count = part.len();
        from.consume(count);
    }
}

/// Runs the program in a folder and passes on the net that it writes, or gives what it writes in its place; where nobody reads the net
/// any more the program is ended.
fn written_in(
    folder: &Path,
    program: &mut Command,
    noted: &mut Passed,
    out: &mut impl Write,
) -> Stopped<Option<String>> {
    program.current_dir(folder).stdin(Stdio::null());
    let spawned = program.stdout(Stdio::piped()).spawn();
    let unstarted = |error| Stop::Failed(not_run(program, &error).to_string());
    let mut child = spawned.map_err(unstarted)?;
    let Some(stdout) = child.stdout.take() else {
        return Err(failed("it has no output"));
    };
    let answer = passed(BufReader::with_capacity(PASSED, stdout), noted, out);
    if answer.is_err() {
        // it may have ended by itself
        let _ = child.kill();
    }
    let status = child.wait().map_err(|error| failed(plain(&error)))?;
    match answer {
        Ok(_) if !status.success() => Err(failed(format!(
            "it broke off ({status}), so what it wrote is no whole net"
        ))),
        answer => answer,
    }
}

/// Writes the net of a judged table, or tells why its unfolding is refused.
fn written(library: &mut Driver, table: &Source, out: &mut impl Write) -> Stopped<()> {
    let mut program = tools::export_program()?;
    let mut noted = Passed::none(library, table)?;
    let unwritten = |error: io::Error| Stop::Failed(error.to_string());
    let folder = Folder::new().map_err(unwritten)?;
    let put = folder.write("net.bin", &table.bytes);
    put.map_err(unwritten)?;
    let Some(other) = written_in(folder.path(), &mut program, &mut noted, out)? else {
        return Ok(());
    };
    Err(match refusal_of(&other) {
        Some(refusal) => Stop::Refused(table.told(refusal)),
        None => failed("it wrote neither a net nor a refusal"),
    })
}

/// What is not in the net of a table that has lossy events; nothing where it has none.
pub fn lacking(table: &Source, lossy: &[u16]) -> Option<String> {
    let events: Vec<String> = lossy.iter().map(|e| table.event_called(*e)).collect();
    let events = some_of(&events);
    (!lossy.is_empty()).then(|| {
        format!(
            "runs of the table are not in the net where one of these comes again: {events}; \
             what a checker shows for the net is not shown for such runs (docs/CHECKER.md)"
        )
    })
}

/// Writes the net of an accepted table; the next version notes on the error output what is not in it.
fn written_with_note(table: &Source, out: &mut impl Write) -> Stopped<()> {
    let mut library = library_for(table)?;
    let lossy = match next::is_asked() {
        true => lossy_events(&mut library, table)?,
        false => Vec::new(),
    };
    written(&mut library, table, out)?;
    out.flush()?;
    if let Some(note) = lacking(table, &lossy) {
        say(format!("note: {note}"));
    }
    Ok(())
}

/// Writes the unfolded net of a table as PNML; of a table that is refused nothing is written.
pub fn export(path: &str, out: &mut impl Write) -> Stopped<()> {
    let table = source::read(path)?;
    written_with_note(&table, out).map_err(withheld)
}
