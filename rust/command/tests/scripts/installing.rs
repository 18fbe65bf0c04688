//! What the script installs, from a repository in which scripts stand for the kit and for all that is built.

use std::fs;
use std::os::unix::fs::{symlink, PermissionsExt};
use std::path::{Path, PathBuf};
use std::process::{Command, Output};

use command::lister::Folder;

use crate::{one_test, repository, said, script, write_script, TOP};

/// A kit that tells where it is.
const KIT: &str = "#!/usr/bin/env bash
case $1 in
    doc) echo \"$(dirname \"$0\")/../kit/START-HERE.md\" ;;
    --version) echo 'kit-1 logic 23' ;;
esac
";

/// A loader that needs a library in the folder that is named, and that lists it with the loader itself and with what the system has.
const LOADER: &str = "#!/usr/bin/env bash
libraries=$2
shift 2
[ \"$1\" = --list ] || { [ -e \"$libraries/libc.so.6\" ] && exec \"$@\"; exit 127; }
printf '\\tlinux-vdso.so.1 (0x00002a)\\n\\tlibc.so.6 => %s/libc.so.6 (0x00002b)\\n' \"$libraries\"
printf '\\t/lib64/ld-linux-x86-64.so.2 => %s/ld-linux-x86-64.so.2 (0x00005)\\n' \"$libraries\"
";

/// A command that tells what it is handed, and runs the three proved programs.
const PROGRAM: &str = "#!/bin/sh
echo \"asked: $*\"
echo \"built: $DOVETRELLIS_BUILT, script: ${DOVETRELLIS_SCRIPT-none}\"
cat \"$DOVETRELLIS_TOP/examples/net-a.txt\"
for program in \"$DOVETRELLIS_DRIVER\" \"$DOVETRELLIS_LIST\" \"$DOVETRELLIS_EXPORT\"; do $RATTLE_RUN \"$program\" word; done
";

/// What the installed command of these scripts says when it is asked 'list --names'.
const ANSWER: &str = "\
asked: list --names
built: commit unknown, kit-1 logic 23, script: none
a net
driver ran: word
list ran: word
export ran: word
";

/// Copies files of the repository, by their names from its top.
fn copied(to: &Path, names: &[&str]) {
    for name in names {
        let place = to.join(name);
        fs::create_dir_all(place.parent().unwrap()).unwrap();
        fs::copy(Path::new(TOP).join(name), place).unwrap();
    }
}

/// Writes files, by their names from a folder.
fn written(to: &Path, files: &[(&str, &str)]) {
    for (name, text) in files {
        let place = to.join(name);
        fs::create_dir_all(place.parent().unwrap()).unwrap();
        match text.starts_with("#!") {
            true => write_script(&place, text),
            false => fs::write(place, text).unwrap(),
        }
    }
}

/// The kit's files.
fn write_kit(at: &Path) {
    let files = [
        ("toolchain/lib/ld-linux-x86-64.so.2", LOADER),
        ("toolchain/lib/libc.so.6", "a library"),
        ("toolchain/lib/libm.so.6", "a library that nothing needs"),
        ("START-HERE.md", ""),
    ];
    written(&at.join("kit"), &files);
}

/// The files of the repository that are tried here.
const OWN: [&str; 9] = [
    "driver/kit",
    "driver/runner",
    "share/completion.bash",
    "share/dovetrellis.pc",
    "share/forward",
    "share/install",
    "share/launcher",
    "share/man/dovetrellis.1",
    "share/run",
];

/// What else a repository has, and what is built of it; one page is not for users.
const OTHERS: [(&str, &str); 12] = [
    (
        "include/dovetrellis.h",
        "#define DOVETRELLIS_VERSION \"1.2.3\"\n",
    ),
    ("examples/net-a.txt", "a net\n"),
    ("docs/TEXT.md", "on texts\n"),
    ("docs/DECISIONS.md", "on decisions\n"),
    ("checker/spin", "#!/bin/sh\n"),
    ("checker/spin.py", "pass\n"),
    ("checker/next/spin.py", "pass\n"),
    ("rust/target/release/dovetrellis", PROGRAM),
    ("target/libdovetrellis.a", "an archive\n"),
    (
        "target/outside/driver",
        "#!/bin/sh\necho \"driver ran: $*\"\n",
    ),
    ("target/bin/list", "#!/bin/sh\necho \"list ran: $*\"\n"),
    ("target/bin/export", "#!/bin/sh\necho \"export ran: $*\"\n"),
];

/// A repository in which all is built, without git.
fn built() -> Folder {
    let repository = repository(KIT, &[]);
    let at = repository.path();
    copied(at, &OWN);
    write_kit(at);
    written(at, &OTHERS);
    repository
}

/// Installs into a folder of the repository, as if one stood there.
fn install(repository: &Folder, prefix: &str) -> Output {
    let mut command = script(repository, &["install", prefix]);
    command.current_dir(repository.path()).output().unwrap()
}

/// Asks an installed command, with no tool but those of the system.
fn asked(command: &Path, words: &[&str]) -> Output {
    let mut command = Command::new(command);
    command.args(words).env_clear().env("PATH", "/usr/bin:/bin");
    command
        .env("DOVETRELLIS_SCRIPT", "/nowhere")
        .env("RATTLE_RUN", "/nowhere");
    command.current_dir("/").output().unwrap()
}

/// What a command answers on its output; it says nothing else, and all is fine.
fn answer(command: &Path) -> String {
    let output = asked(command, &["list", "--names"]);
    assert_eq!(
        (output.status.code(), said(&output).as_str()),
        (Some(0), "")
    );
    String::from_utf8(output.stdout).unwrap()
}

/// Every file below a folder, by its name from there, in order.
fn files_below(folder: &Path) -> Vec<String> {
    let mut found = Vec::new();
    let mut folders = vec![folder.to_path_buf()];
    while let Some(next) = folders.pop() {
        for entry in fs::read_dir(next).unwrap() {
            let path = entry.unwrap().path();
            match path.is_dir() {
                true => folders.push(path),
                false => found.push(path.strip_prefix(folder).unwrap().display().to_string()),
            }
        }
    }
    found.sort();
    found
}

/// What an installation has.
const INSTALLED: [&str; 22] = [
    "bin/dovetrellis",
    "include/dovetrellis.h",
    "lib/dovetrellis/dovetrellis",
    "lib/dovetrellis/driver",
    "lib/dovetrellis/export",
    "lib/dovetrellis/installed",
    "lib/dovetrellis/list",
    "lib/dovetrellis/x86-64/driver",
    "lib/dovetrellis/x86-64/export",
    "lib/dovetrellis/x86-64/ld-linux-x86-64.so.2",
    "lib/dovetrellis/x86-64/libc.so.6",
    "lib/dovetrellis/x86-64/list",
    "lib/libdovetrellis.a",
    "lib/pkgconfig/dovetrellis.pc",
    "share/bash-completion/completions/dovetrellis",
    "share/doc/dovetrellis/TEXT.md",
    "share/dovetrellis/checker/next/spin.py",
    "share/dovetrellis/checker/spin",
    "share/dovetrellis/checker/spin.py",
    "share/dovetrellis/dovetrellis",
    "share/dovetrellis/examples/net-a.txt",
    "share/man/man1/dovetrellis.1",
];

/// A repository with an installation, and where that is; the folder's name has a blank.
fn installed() -> (Folder, PathBuf) {
    let repository = built();
    let prefix = repository.path().join("a folder");
    fs::create_dir(&prefix).unwrap();
    let output = install(&repository, "a folder");
    assert_eq!(
        (output.status.code(), said(&output).as_str()),
        (Some(0), "")
    );
    let told = String::from_utf8(output.stdout).unwrap();
    let mut told: Vec<&str> = told.lines().collect();
    told.sort_unstable();
    let wrote = |name: &&str| format!("wrote {}", prefix.join(name).display());
    assert_eq!(told, INSTALLED.iter().map(wrote).collect::<Vec<_>>());
    (repository, prefix)
}

#[test]
fn what_is_installed_is_told_and_listed() {
    let _one = one_test();
    let (_repository, prefix) = installed();
    assert_eq!(files_below(&prefix), INSTALLED);
    let listed = fs::read_to_string(prefix.join("lib/dovetrellis/installed")).unwrap();
    let mut listed: Vec<&str> = listed.lines().collect();
    listed.sort_unstable();
    assert_eq!(listed, INSTALLED);
    let mode = |name: &str| {
        fs::metadata(prefix.join(name))
            .unwrap()
            .permissions()
            .mode()
            & 0o777
    };
    assert_eq!(
        (mode("bin/dovetrellis"), mode("lib/libdovetrellis.a")),
        (0o755, 0o644)
    );
    let package = fs::read_to_string(prefix.join("lib/pkgconfig/dovetrellis.pc")).unwrap();
    assert!(package.contains("\nVersion: 1.2.3\n"), "{package}");
}

#[test]
fn an_installed_command_runs_from_anywhere() {
    let _one = one_test();
    let (repository, prefix) = installed();
    assert_eq!(answer(&prefix.join("bin/dovetrellis")), ANSWER);
    let link = repository.path().join("link");
    symlink(prefix.join("bin/dovetrellis"), &link).unwrap();
    assert_eq!(answer(&link), ANSWER);
    let moved = repository.path().join("moved");
    fs::rename(&prefix, &moved).unwrap();
    assert_eq!(answer(&moved.join("bin/dovetrellis")), ANSWER);
    let folder = repository.path().join("folder");
    symlink(&moved, &folder).unwrap();
    assert_eq!(answer(&folder.join("bin/dovetrellis")), ANSWER);
}

#[test]
fn a_folder_that_the_loader_would_split_is_told() {
    let _one = one_test();
    let (repository, prefix) = installed();
    let moved = repository.path().join("a:b");
    fs::rename(&prefix, &moved).unwrap();
    let output = asked(&moved.join("bin/dovetrellis"), &["list"]);
    let expected = format!(
        "dovetrellis: the loader splits the names of folders at ':' and ';', so this cannot run in '{}'\n",
        moved.display()
    );
    assert_eq!((output.status.code(), said(&output)), (Some(2), expected));
}

#[test]
fn the_folder_of_the_command_may_be_a_link() {
    let _one = one_test();
    let (repository, prefix) = installed();
    let elsewhere = repository.path().join("elsewhere/bin");
    fs::create_dir(elsewhere.parent().unwrap()).unwrap();
    fs::rename(prefix.join("bin"), &elsewhere).unwrap();
    symlink(&elsewhere, prefix.join("bin")).unwrap();
    assert_eq!(answer(&prefix.join("bin/dovetrellis")), ANSWER);
    let output = asked(&elsewhere.join("dovetrellis"), &["list"]);
    let missing = repository
        .path()
        .join("elsewhere/lib/dovetrellis/dovetrellis");
    let expected = format!(
        "dovetrellis: this installation is not whole: there is no program '{}'\n",
        missing.display()
    );
    assert_eq!((output.status.code(), said(&output)), (Some(2), expected));
}

#[test]
fn what_needs_the_kit_says_so() {
    let _one = one_test();
    let repository = built();
    fs::remove_file(repository.path().join("bin/rt")).unwrap();
    let expected = "the Rattle kit is needed: there is no 'rt' in the PATH";
    refused(&repository, &["crates"], expected);
}

#[test]
fn an_installed_command_neither_builds_nor_installs() {
    let _one = one_test();
    let (_repository, prefix) = installed();
    let command = prefix.join("bin/dovetrellis");
    for word in ["build", "install"] {
        let output = asked(&command, &[word]);
        let expected = format!(
            "dovetrellis: this is an installation, and all of it is built; '{word}' is a word of the \
             script 'dovetrellis' at the top of the sources\n"
        );
        assert_eq!((output.status.code(), said(&output)), (Some(2), expected));
        let output = asked(&command, &[word, "--help"]);
        assert!(output
            .stdout
            .starts_with(format!("asked: {word} --help").as_bytes()));
    }
}

#[test]
fn the_checker_finds_the_installed_command() {
    let _one = one_test();
    let (_repository, prefix) = installed();
    let command = prefix.join("share/dovetrellis/dovetrellis");
    assert_eq!(answer(&command), ANSWER);
    let build = asked(&command, &["build", "library"]);
    assert_eq!((build.status.code(), said(&build).as_str()), (Some(0), ""));
}

#[test]
fn an_installed_command_refuses_a_closed_output_in_the_next_version() {
    let _one = one_test();
    let (_repository, prefix) = installed();
    let mut shell = Command::new("sh");
    shell
        .args(["-c", "\"$0\" list >&-"])
        .env("DOVETRELLIS_NEXT", "1")
        .arg(prefix.join("bin/dovetrellis"));
    let output = shell.output().unwrap();
    let expected = "dovetrellis: the standard output is closed: nothing can be written there\n";
    assert_eq!(
        (output.status.code(), said(&output).as_str()),
        (Some(2), expected)
    );
}

#[test]
fn a_newer_installation_leaves_nothing_of_the_older() {
    let _one = one_test();
    let (repository, prefix) = installed();
    let at = repository.path();
    fs::write(
        prefix.join("share/dovetrellis/examples/own.txt"),
        "of a user",
    )
    .unwrap();
    fs::remove_file(at.join("docs/TEXT.md")).unwrap();
    fs::rename(at.join("examples/net-a.txt"), at.join("examples/net-b.txt")).unwrap();
    fs::write(at.join("target/libdovetrellis.a"), "a newer archive\n").unwrap();
    let output = install(&repository, "a folder");
    let told = String::from_utf8(output.stdout).unwrap();
    let removed: Vec<&str> = told
        .lines()
        .filter(|line| line.starts_with("removed "))
        .collect();
    assert_eq!(removed.len(), 2, "{told}");
    let examples = files_below(&prefix.join("share/dovetrellis/examples"));
    assert_eq!(examples, ["net-b.txt", "own.txt"]);
    assert!(!prefix.join("share/doc/dovetrellis/TEXT.md").exists());
    let archive = fs::read_to_string(prefix.join("lib/libdovetrellis.a")).unwrap();
    assert_eq!(archive, "a newer archive\n");
}

/// Every folder below a folder, by its name from there, in order.
fn folders_below(folder: &Path) -> Vec<String> {
    let output = Command::new("find")
        .args([".", "-mindepth", "1", "-type", "d", "-printf", "%P\\n"])
        .current_dir(folder)
        .output()
        .unwrap();
    let found = String::from_utf8(output.stdout).unwrap();
    let mut found: Vec<String> = found.lines().map(str::to_string).collect();
    found.sort();
    found
}

/// The commands of the page that remove an installation, for one that is elsewhere.
fn removal(prefix: &Path) -> String {
    let page = fs::read_to_string(Path::new(TOP).join("README.md")).unwrap();
    let lines = page.lines().skip_while(|line| !line.contains("xargs rm <"));
    let commands = lines.take_while(|line| line.starts_with("    "));
    let commands: Vec<&str> = commands.map(str::trim).collect();
    assert_eq!(commands.len(), 2, "{commands:?}");
    let prefix = format!("'{}'", prefix.display());
    commands.join("\n").replace("/usr/local", &prefix)
}

#[test]
fn what_the_page_says_removes_an_installation() {
    let _one = one_test();
    let (repository, prefix) = installed();
    let output = Command::new("sh")
        .args(["-e", "-c", &removal(&prefix)])
        .output()
        .unwrap();
    assert_eq!(
        (output.status.code(), said(&output).as_str()),
        (Some(0), "")
    );
    assert!(files_below(&prefix).is_empty());
    let shared = [
        "bin",
        "include",
        "lib",
        "lib/pkgconfig",
        "share",
        "share/bash-completion",
        "share/bash-completion/completions",
        "share/doc",
        "share/man",
        "share/man/man1",
    ];
    assert_eq!(folders_below(&prefix), shared);
    let output = install(&repository, "a folder");
    assert_eq!(output.status.code(), Some(0));
}

#[test]
fn a_file_that_cannot_be_written_leaves_the_older_whole() {
    let _one = one_test();
    let (repository, prefix) = installed();
    fs::remove_file(repository.path().join("share/launcher")).unwrap();
    let output = install(&repository, "a folder");
    assert_eq!(output.status.code(), Some(2));
    assert_eq!(files_below(&prefix), INSTALLED);
    assert_eq!(answer(&prefix.join("bin/dovetrellis")), ANSWER);
}

#[test]
fn a_folder_before_all_is_made() {
    let _one = one_test();
    let repository = built();
    let mut command = script(&repository, &["install", "/opt/own"]);
    command.env("DESTDIR", repository.path().join("packed"));
    assert_eq!(command.output().unwrap().status.code(), Some(0));
    let at = repository.path().join("packed/opt/own");
    assert_eq!(files_below(&at), INSTALLED);
    assert_eq!(answer(&at.join("bin/dovetrellis")), ANSWER);
}

/// The script refuses to install, with these words, and writes nothing.
fn refused(repository: &Folder, words: &[&str], expected: &str) {
    let before = files_below(repository.path());
    let mut command = script(repository, &[&["install"], words].concat());
    let output = command.current_dir(repository.path()).output().unwrap();
    let expected = format!("dovetrellis: {expected}\n");
    assert_eq!((output.status.code(), said(&output)), (Some(2), expected));
    assert_eq!(files_below(repository.path()), before);
}

#[test]
fn a_wrong_folder_is_refused() {
    let _one = one_test();
    let repository = built();
    let at = repository.path();
    let missing = "PREFIX is missing: the folder to install in, as /usr/local";
    refused(&repository, &[], missing);
    refused(&repository, &[""], missing);
    refused(
        &repository,
        &["none"],
        "there is no folder 'none' to install in",
    );
    refused(
        &repository,
        &["crates", "more"],
        "'more' is one word too many",
    );
    let option = "there is no option '--prefix' here; a folder of that name is './--prefix'";
    refused(&repository, &["--prefix", "crates"], option);
    let split = "the loader splits the names of folders at ':' and ';', so 'a:b' cannot be used";
    refused(&repository, &["a:b"], split);
    fs::create_dir(at.join("taken")).unwrap();
    fs::write(at.join("taken/bin"), "").unwrap();
    let taken = format!(
        "nothing can be written in '{}'",
        at.join("taken/bin").display()
    );
    refused(&repository, &["taken"], &taken);
}

#[test]
fn a_relative_folder_below_another_is_refused() {
    let _one = one_test();
    let repository = built();
    let mut command = script(&repository, &["install", "own"]);
    let output = command.env("DESTDIR", repository.path()).output().unwrap();
    let expected = "dovetrellis: where DESTDIR is set, PREFIX begins with '/'; 'own' does not\n";
    assert_eq!(
        (output.status.code(), said(&output).as_str()),
        (Some(2), expected)
    );
}
