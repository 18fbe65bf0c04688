//! The command as people run it, answering as it is meant for the next version. The environment names the driver (DOVETRELLIS_DRIVER) and the listing program (DOVETRELLIS_LIST), both
//! run by the words of RATTLE_RUN.

use std::path::Path;
use std::process::Command;

use command::lister::Folder;
use command::next::VARIABLE as NEXT;

/// The top of the repository.
pub const TOP: &str = concat!(env!("CARGO_MANIFEST_DIR"), "/../..");

/// What came of a command.
#[derive(Debug, PartialEq, Eq)]
pub struct Ran {
    pub out: String,
    pub err: String,
    pub status: i32,
}

/// Runs the command in a folder.
pub fn ran_in(folder: &Path, words: &[&str]) -> Ran {
    for named in ["DOVETRELLIS_DRIVER", "DOVETRELLIS_LIST"] {
        assert!(
            std::env::var_os(named).is_some(),
            "{named} names a program, as .ci/run does"
        );
    }
    let mut command = Command::new(env!("CARGO_BIN_EXE_dovetrellis"));
    command.env(NEXT, "1");
    command.args(words).current_dir(folder);
    command.env("DOVETRELLIS_TOP", TOP);
    let output = command.env_remove("DOVETRELLIS_SCRIPT").output().unwrap();
    Ran {
        out: String::from_utf8(output.stdout).unwrap(),
        err: String::from_utf8(output.stderr).unwrap(),
        status: output.status.code().unwrap(),
    }
}

/// Runs the command among the examples.
pub fn ran(words: &[&str]) -> Ran {
    ran_in(&Path::new(TOP).join("examples"), words)
}

/// A folder with these files.
pub fn folder_with(files: &[(&str, &[u8])]) -> Folder {
    let folder = Folder::new().unwrap();
    for (name, bytes) in files {
        folder.write(name, bytes).unwrap();
    }
    folder
}
