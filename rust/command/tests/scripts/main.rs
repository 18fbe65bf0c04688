//! The script at the top of the repository, in a folder where the kit is a small script, and what it installs.

mod building;
mod installing;
mod pages;

use std::fs;
use std::os::unix::fs::{symlink, PermissionsExt};
use std::path::{Path, PathBuf};
use std::process::{Command, Output};
use std::sync::{Mutex, MutexGuard, PoisonError};

use command::lister::Folder;

/// The top of the repository.
const TOP: &str = concat!(env!("CARGO_MANIFEST_DIR"), "/../..");

/// The tools of the machine that the script uses.
const TOOLS: [&str; 20] = [
    "bash", "chmod", "cp", "dirname", "env", "find", "grep", "mkdir", "mv", "readlink", "rm",
    "rmdir", "sed", "sh", "sleep", "sort", "tee", "touch", "uname", "flock",
];

/// One test at a time: a process that another test starts would for a moment hold a script open that is being written, and such a
/// script cannot be run.
static ONE: Mutex<()> = Mutex::new(());

/// Waits until no other test runs.
fn one_test() -> MutexGuard<'static, ()> {
    ONE.lock().unwrap_or_else(PoisonError::into_inner)
}

/// Writes a file that can be run.
fn write_script(path: &Path, text: &str) {
    fs::write(path, text).unwrap();
    fs::set_permissions(path, fs::Permissions::from_mode(0o755)).unwrap();
}

/// Where a tool is.
fn found(tool: &str) -> Option<PathBuf> {
    let path = std::env::var_os("PATH").unwrap();
    std::env::split_paths(&path)
        .map(|folder| folder.join(tool))
        .find(|tool| tool.exists())
}

/// A repository with the script, this kit, the tools of the machine but for some, and nothing built but the command.
fn repository(kit: &str, without: &[&str]) -> Folder {
    let folder = Folder::new().unwrap();
    let at = folder.path();
    for made in [
        "bin",
        "crates/list",
        "driver",
        "include",
        "rust/command",
        "rust/text",
        "rust/wire",
    ] {
        fs::create_dir_all(at.join(made)).unwrap();
    }
    for made in ["crates.txt", "rust/Cargo.toml", "rust/Cargo.lock"] {
        fs::write(at.join(made), "").unwrap();
    }
    for tool in TOOLS.iter().filter(|tool| !without.contains(tool)) {
        if let Some(path) = found(tool) {
            symlink(path, at.join("bin").join(tool)).unwrap();
        }
    }
    write_script(&at.join("bin/rt"), kit);
    fs::copy(Path::new(TOP).join("dovetrellis"), at.join("dovetrellis")).unwrap();
    fs::create_dir_all(at.join("rust/target/release")).unwrap();
    write_script(&at.join("rust/target/release/dovetrellis"), "");
    folder
}

/// The script of a repository with these words, and no tools but those of the repository.
fn script(repository: &Folder, words: &[&str]) -> Command {
    let mut command = Command::new(repository.path().join("dovetrellis"));
    command.args(words);
    command.env("PATH", repository.path().join("bin"));
    command
}

/// What it said on the error output.
fn said(output: &Output) -> String {
    String::from_utf8_lossy(&output.stderr).into_owned()
}
