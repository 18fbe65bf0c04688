//! What the script at the top of the repository builds: the driver of the proved library, and the proved programs.

use std::io;
use std::path::PathBuf;
use std::process::{Command, Stdio};

use wire::Driver;

use crate::files::plain;
use crate::stop::{Stop, Stopped};

/// Has the script build something if it is not built yet, and says so by a name where it cannot; a caller without the script has
/// built it already.
fn built(what: &str, name: &str) -> Stopped<()> {
    let Some(script) = std::env::var_os("DOVETRELLIS_SCRIPT") else {
        return Ok(());
    };
    let mut command = Command::new(script);
    command.args(["build", what]).stdin(Stdio::null());
    match command.status() {
        Ok(status) if status.success() => Ok(()),
        Ok(_) => Err(Stop::Failed(format!("{name} was not built"))),
        Err(error) => Err(Stop::Failed(format!("{name} was not built: {error}"))),
    }
}

/// The proved library.
pub fn library() -> Stopped<Driver> {
    built("library", "the library")?;
    let unstarted = |error: io::Error| Stop::Failed(format!("the library: {}", plain(&error)));
    Driver::open().map_err(unstarted)
}

/// The command that runs the proved program `list`.
pub fn list_program() -> Stopped<Command> {
    proved_program("list", "DOVETRELLIS_LIST")
}

/// The command that runs the proved program `export`.
pub fn export_program() -> Stopped<Command> {
    proved_program("export", "DOVETRELLIS_EXPORT")
}

/// The command that runs a proved program, which a variable of the environment names.
fn proved_program(name: &str, variable: &str) -> Stopped<Command> {
    built(name, &format!("the program '{name}'"))?;
    let missing = || Stop::Failed(format!("{variable} names no program '{name}'"));
    let program = std::env::var(variable).map_err(|_| missing())?;
    let runner = std::env::var("RATTLE_RUN").unwrap_or_default();
    let mut words = runner.split_whitespace().chain([program.as_str()]);
    let first = words.next().ok_or_else(missing)?;
    let mut command = Command::new(first);
    command.args(words);
    Ok(command)
}

/// The folder of the examples, which the script tells.
pub fn examples() -> PathBuf {
    let top = std::env::var_os("DOVETRELLIS_TOP").unwrap_or_else(|| ".".into());
    PathBuf::from(top).join("examples")
}
