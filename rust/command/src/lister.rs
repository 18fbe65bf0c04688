//! The listing program, run in a folder of its own.

use std::fs;
use std::io;
use std::path::{Path, PathBuf};
use std::process::{Command, Stdio};
use std::sync::atomic::{AtomicUsize, Ordering};

use crate::files::plain;

/// A folder for files that are needed for a moment; it goes when it is dropped.
pub struct Folder {
    path: PathBuf,
}

/// Folders that this process has made.
static MADE: AtomicUsize = AtomicUsize::new(0);

/// A failure that also says what was to be done.
fn told(error: &io::Error, what: String) -> io::Error {
    io::Error::new(error.kind(), format!("{what}: {}", plain(error)))
}

/// Why a folder for files that are needed for a moment is not there; TMPDIR says where it would be.
fn unmade(path: &Path, error: &io::Error) -> io::Error {
    let path = path.display();
    let what = "for the program's files, in TMPDIR or else /tmp, cannot be made";
    told(error, format!("the folder '{path}' {what}"))
}

/// Why a program did not start.
pub fn not_run(program: &Command, error: &io::Error) -> io::Error {
    let program = program.get_program().to_string_lossy();
    told(error, format!("the program '{program}' cannot be run"))
}

impl Folder {
    /// A new folder.
    pub fn new() -> io::Result<Folder> {
        loop {
            let made = MADE.fetch_add(1, Ordering::Relaxed);
            let name = format!("dovetrellis-{}-{made}", std::process::id());
            let path = std::env::temp_dir().join(name);
            match fs::create_dir(&path) {
                Ok(()) => return Ok(Folder { path }),
                Err(error) if error.kind() == io::ErrorKind::AlreadyExists => {}
                Err(error) => return Err(unmade(&path, &error)),
            }
        }
    }

    /// Where it is.
    pub fn path(&self) -> &Path {
        &self.path
    }

    /// Writes a file in it.
    pub fn write(&self, name: &str, bytes: &[u8]) -> io::Result<()> {
        let path = self.path.join(name);
        let what = format!("'{}' cannot be written", path.display());
        fs::write(path, bytes).map_err(|error| told(&error, what))
    }
}

impl Drop for Folder {
    fn drop(&mut self) {
        let _ = fs::remove_dir_all(&self.path);
    }
}

/// What a listing program writes when it is run in a folder.
pub fn listing_in(folder: &Path, program: &mut Command) -> io::Result<String> {
    let output = program
        .current_dir(folder)
        .stdin(Stdio::null())
        .stderr(Stdio::inherit())
        .output();
    let output = output.map_err(|error| not_run(program, &error))?;
    if !output.status.success() {
        return Err(io::Error::other(format!(
            "the listing program: {}",
            output.status
        )));
    }
    String::from_utf8(output.stdout)
        .map_err(|_| io::Error::other("the listing program wrote no text"))
}

/// What a listing program writes for a table and a run.
pub fn listing(program: &mut Command, table: &[u8], run: &[u8]) -> io::Result<String> {
    let folder = Folder::new()?;
    folder.write("net.bin", table)?;
    folder.write("run.bin", run)?;
    listing_in(folder.path(), program)
}
