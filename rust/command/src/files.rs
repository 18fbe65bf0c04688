//! Files as they are read, and in words why one cannot be.

use std::fs;
use std::io::{self, Read};
use std::path::Path;
use std::sync::atomic::{AtomicBool, Ordering};

use crate::next;
use crate::stop::{Stop, Stopped};

/// The word that stands for the standard input where a file is given; a file of that name is './-'.
pub const STANDARD_INPUT: &str = "-";

/// What a file is called in messages: its path.
pub fn called(path: &str) -> &str {
    match path {
        STANDARD_INPUT => "the standard input",
        path => path,
    }
}

/// There is such a file, or it is the standard input; where that cannot be found out, reading it tells.
pub fn is_there(path: &str) -> bool {
    path == STANDARD_INPUT || !matches!(Path::new(path).try_exists(), Ok(false))
}

/// The folder that a path stands in.
fn folder_of(path: &Path) -> &Path {
    let parent = path.parent().filter(|parent| *parent != Path::new(""));
    parent.unwrap_or(Path::new("."))
}

/// The first part of a path that is not there: the path itself, or a folder on the way to it.
fn first_missing(path: &Path) -> &Path {
    let mut missing = path;
    while !folder_of(missing).exists() {
        missing = folder_of(missing);
    }
    missing
}

/// The names in a folder, in order.
fn names_in(folder: &Path) -> Vec<String> {
    let entries = fs::read_dir(folder).into_iter().flatten().flatten();
    let mut names: Vec<String> = entries
        .map(|entry| entry.file_name().to_string_lossy().into_owned())
        .collect();
    names.sort();
    names
}

/// What the system says of a failure, without its number.
pub fn plain(error: &io::Error) -> String {
    let said = error.to_string();
    said.split(" (os error")
        .next()
        .unwrap_or_default()
        .to_string()
}

/// What stands beside a missing file or folder and has nearly its name.
pub fn near(missing: &Path) -> Option<String> {
    let name = missing.file_name()?.to_string_lossy();
    let names = names_in(folder_of(missing));
    let others = names
        .iter()
        .map(String::as_str)
        .filter(|other| *other != name);
    let near = text::nearest(&name, others)?;
    Some(missing.with_file_name(near).display().to_string())
}

/// What is likely meant, in brackets; nothing where nothing is.
pub fn meant(near: Option<String>) -> String {
    near.map_or_else(String::new, |near| format!(" (is '{near}' meant?)"))
}

/// Why there is no file of this path.
fn missing_told(path: &Path) -> String {
    if path.is_symlink() {
        return "this is a link to a file that is not there".to_string();
    }
    let missing = first_missing(path);
    let what = match missing == path {
        true => "there is no such file".to_string(),
        false => format!("there is no folder '{}'", missing.display()),
    };
    what + &meant(near(missing))
}

/// Why a file cannot be read.
fn unreadable(path: &str, error: io::Error) -> Stop {
    if path.is_empty() {
        return Stop::Failed("the name of a file is empty".to_string());
    }
    let why = match error.kind() {
        io::ErrorKind::NotFound => missing_told(Path::new(path)),
        io::ErrorKind::IsADirectory => "this is a folder, and a file is needed".to_string(),
        io::ErrorKind::NotADirectory => "a file stands where its folder should".to_string(),
        io::ErrorKind::PermissionDenied => "you may not read this file".to_string(),
        _ => plain(&error),
    };
    Stop::Failed(format!("{}: {why}", called(path)))
}

/// The most bytes that are read of a file; no text that can be turned into an accepted table needs a tenth of them.
const MOST_READ: u64 = 64_000_000;

/// The first bytes of a file or of the standard input, one more than are taken at most.
fn read_some(path: &str) -> io::Result<Vec<u8>> {
    let mut bytes = Vec::new();
    let file: Box<dyn Read> = match path {
        STANDARD_INPUT => Box::new(io::stdin().lock()),
        path => Box::new(fs::File::open(path)?),
    };
    file.take(MOST_READ + 1).read_to_end(&mut bytes)?;
    Ok(bytes)
}

/// The standard input was read.
static IS_READ: AtomicBool = AtomicBool::new(false);

/// The bytes of a file or of the standard input, which may be a pipe; one without end, or that is surely no table, is not read to its
/// end. The standard input can be read once.
pub fn bytes_of(path: &str) -> Stopped<Vec<u8>> {
    if path == STANDARD_INPUT && IS_READ.swap(true, Ordering::Relaxed) {
        let once = "'-' can be given once, as the standard input is read once";
        return Err(Stop::Use(once.to_string()));
    }
    let bytes = read_some(path).map_err(|error| unreadable(path, error))?;
    if bytes.len() as u64 > MOST_READ {
        let why = format!("over {MOST_READ} bytes, and files are taken up to that");
        return Err(Stop::Failed(format!("{}: {why}", called(path))));
    }
    Ok(bytes)
}

/// The kinds of record that a table begins with, and the kind that a run is.
pub const TABLE_KINDS: &[u8] = &[1, 6];
pub const RUN_KINDS: &[u8] = &[4];

/// A file begins with a record of one of these kinds.
pub fn begins_with(bytes: &[u8], kinds: &[u8]) -> bool {
    let kind = bytes.get(2..4);
    kinds.iter().any(|known| kind == Some(&[*known, 0]))
}

/// What a file that is no text looks like, by its first bytes.
pub fn looks_like(bytes: &[u8]) -> Option<&'static str> {
    match bytes {
        [_, _, 1 | 6, 0, ..] => Some("a table of records"),
        [_, _, 4, 0, ..] => Some("the record of a run"),
        [_, _, 5, 0, ..] => Some("the record of a lifted run"),
        [0xff, 0xfe, ..] | [0xfe, 0xff, ..] => Some("text in UTF-16, which must be saved as UTF-8"),
        _ => None,
    }
}

/// Where a byte is a control character other than a tab and the ends of lines; only in the next version the one that deletes is one.
pub fn control_at(bytes: &[u8]) -> Option<usize> {
    let deletes = |byte: &u8| *byte == 0x7f && next::is_asked();
    let places = [text::control_at(bytes), bytes.iter().position(deletes)];
    places.into_iter().flatten().min()
}

/// The bytes are taken as text: there are some, and none is a control character.
pub fn is_text(bytes: &[u8]) -> bool {
    !bytes.is_empty() && control_at(bytes).is_none()
}

/// What a file looks like that does not begin with a record of such a kind; nothing where it does, or looks like nothing known.
fn no_such_record(bytes: &[u8], kinds: &[u8]) -> String {
    match looks_like(bytes) {
        _ if bytes.is_empty() => "; the file is empty".to_string(),
        Some(what) if !begins_with(bytes, kinds) => format!("; it looks like {what}"),
        _ => String::new(),
    }
}

/// What a file looks like that was taken as records and does not begin with one of such a kind, or why it was not taken as text; nothing
/// where it does begin so.
pub fn why_records(bytes: &[u8], kinds: &[u8]) -> String {
    let why = no_such_record(bytes, kinds);
    match control_at(bytes) {
        Some(at) if why.is_empty() && !begins_with(bytes, kinds) => {
            format!("; it is not taken as text, since byte {at} is a control character")
        }
        _ => why,
    }
}

/// The same where the next version is asked for; else what the file looks like alone.
pub fn why_records_in_next(bytes: &[u8], kinds: &[u8]) -> String {
    match next::is_asked() {
        true => why_records(bytes, kinds),
        false => no_such_record(bytes, kinds),
    }
}
