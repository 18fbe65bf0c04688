//! The script at the top of the repository, in a folder where the kit is a small script that takes its time.

use std::fs;
use std::os::unix::fs::{symlink, PermissionsExt};
use std::path::{Path, PathBuf};
use std::process::{Child, Command, Output, Stdio};
use std::sync::{Mutex, MutexGuard, PoisonError};

use command::lister::Folder;

/// The top of the repository.
const TOP: &str = concat!(env!("CARGO_MANIFEST_DIR"), "/../..");

/// A kit that says when it begins, takes a second, builds the program of the crate that it is called in and counts how often it did.
const SLOW: &str = "#!/usr/bin/env bash
echo 'rt: begun'
sleep 1
mkdir -p out && echo built > \"out/${PWD##*/}\" && echo one >> ../../built
";

/// A kit that proves nothing.
const FAILING: &str = "#!/usr/bin/env bash
echo 'why it failed'
exit 1
";

/// The tools of the machine that the script uses.
const TOOLS: [&str; 15] = [
    "bash", "cp", "dirname", "env", "find", "grep", "mkdir", "mv", "readlink", "rm", "rmdir",
    "sleep", "tee", "touch", "flock",
];

/// One test at a time: a process that another test starts would for a moment hold a script open that is being written, and such a
/// script cannot be run.
static ONE: Mutex<()> = Mutex::new(());

/// Waits until no other test runs.
fn one_test() -> MutexGuard<'static, ()> {
    ONE.lock().unwrap_or_else(PoisonError::into_inner)
}

/// Writes a file that can be run.
fn write_script(path: &Path, text: &str) {
    fs::write(path, text).unwrap();
    fs::set_permissions(path, fs::Permissions::from_mode(0o755)).unwrap();
}

/// Where a tool is.
fn found(tool: &str) -> Option<PathBuf> {
    let path = std::env::var_os("PATH").unwrap();
    std::env::split_paths(&path)
        .map(|folder| folder.join(tool))
        .find(|tool| tool.exists())
}

/// A repository with the script, this kit, the tools of the machine but for some, and nothing built but the command.
fn repository(kit: &str, without: &[&str]) -> Folder {
    let folder = Folder::new().unwrap();
    let at = folder.path();
    for made in [
        "bin",
        "crates/list",
        "crates/export",
        "rust/command",
        "rust/text",
        "rust/wire",
    ] {
        fs::create_dir_all(at.join(made)).unwrap();
    }
    for made in ["crates.txt", "rust/Cargo.toml", "rust/Cargo.lock"] {
        fs::write(at.join(made), "").unwrap();
    }
    for tool in TOOLS.iter().filter(|tool| !without.contains(tool)) {
        if let Some(path) = found(tool) {
            symlink(path, at.join("bin").join(tool)).unwrap();
        }
    }
    write_script(&at.join("bin/rt"), kit);
    fs::copy(Path::new(TOP).join("dovetrellis"), at.join("dovetrellis")).unwrap();
    fs::create_dir_all(at.join("rust/target/release")).unwrap();
    write_script(&at.join("rust/target/release/dovetrellis"), "");
    folder
}

/// Starts to build the program 'list' in a repository.
fn started(repository: &Folder) -> Child {
    Command::new(repository.path().join("dovetrellis"))
        .args(["build", "list"])
        .env("PATH", repository.path().join("bin"))
        .stdout(Stdio::piped())
        .stderr(Stdio::piped())
        .spawn()
        .unwrap()
}

/// What it said on the error output.
fn said(output: &Output) -> String {
    String::from_utf8_lossy(&output.stderr).into_owned()
}

/// Two first builds at once in a repository: one builds, the other waits and finds it done.
fn two_at_once(repository: &Folder) {
    let children = [started(repository), started(repository)];
    let outputs = children.map(|child| child.wait_with_output().unwrap());
    assert!(outputs.iter().all(|output| output.status.success()));
    let told = outputs.map(|output| said(&output));
    let waits = "dovetrellis: another build is under way here; this waits until it is done\n";
    let waited = told.iter().filter(|told| told.starts_with(waits));
    let built = told.iter().filter(|told| told.contains("\nrt: begun\n"));
    assert_eq!((waited.count(), built.count()), (1, 1), "{told:?}");
    let times = fs::read_to_string(repository.path().join("built")).unwrap();
    assert_eq!(times, "one\n");
    let left = fs::read_dir(repository.path().join("target/outside")).unwrap();
    assert_eq!(left.count(), 0);
    let third = started(repository).wait_with_output().unwrap();
    assert_eq!((third.status.code(), said(&third).as_str()), (Some(0), ""));
}

#[test]
fn two_first_builds_at_once_are_one() {
    let _one = one_test();
    two_at_once(&repository(SLOW, &[]));
}

#[test]
fn two_first_builds_at_once_are_one_without_flock() {
    let _one = one_test();
    let repository = repository(SLOW, &["flock"]);
    two_at_once(&repository);
    assert!(!repository.path().join("target/proofs.lock.held").exists());
}

#[test]
fn each_failed_build_names_its_own_log() {
    let _one = one_test();
    let repository = repository(FAILING, &[]);
    let children = [started(&repository), started(&repository)];
    let outputs = children.map(|child| child.wait_with_output().unwrap());
    let logs = outputs.map(|output| {
        assert_eq!(output.status.code(), Some(2));
        let told = said(&output);
        let named = told
            .split("failed; ")
            .nth(1)
            .unwrap_or_else(|| panic!("{told}"));
        named.split(" has all").next().unwrap().to_string()
    });
    assert_ne!(logs[0], logs[1]);
    for log in logs {
        assert_eq!(fs::read_to_string(log).unwrap(), "why it failed\n");
    }
}

#[test]
fn each_program_is_built_by_its_own_check() {
    let _one = one_test();
    let repository = repository(SLOW, &[]);
    let mut command = Command::new(repository.path().join("dovetrellis"));
    command.args(["build", "export"]);
    command.env("PATH", repository.path().join("bin"));
    let told = said(&command.output().unwrap());
    assert!(
        told.starts_with("dovetrellis: proving and building the program 'export' (once,"),
        "{told}"
    );
    let built = |program: &str| repository.path().join("target/bin").join(program).exists();
    assert!(built("export") && !built("list"));
    assert_eq!(said(&command.output().unwrap()), "");
}

#[test]
fn what_can_be_built_is_told() {
    let _one = one_test();
    let repository = repository(SLOW, &[]);
    let mut command = Command::new(repository.path().join("dovetrellis"));
    let output = command.args(["build", "lisst"]).output().unwrap();
    assert_eq!(output.status.code(), Some(2));
    let expected = "dovetrellis: there is nothing called 'lisst' to build, \
        only 'library', 'list' and 'export'\n";
    assert_eq!(said(&output), expected);
}
