//! `pack` and `show`: the folder that is written to, the digest, and the runs of logs. The environment names the driver
//! (DOVETRELLIS_DRIVER), run by the words of RATTLE_RUN.

use std::fs;
use std::io::Write;
use std::process::{Command, Stdio};

use command::lister::Folder;
use command::next::VARIABLE as NEXT;

/// A table with a run that has a name and one that has none.
const NET: &str =
    "conditions: idle, on, key [p]\nload: {idle} -> {on, key}\nwork: {on, key} -> {idle}\n\
    start: {idle}\nrun night: load, work\nrun: load\n";

/// What came of a command: its output, what it said, and its exit status.
type Came = (String, String, i32);

/// A folder with the table as `net.txt` and as `net.bin`.
fn folder() -> Folder {
    let folder = Folder::new().unwrap();
    folder.write("net.txt", NET.as_bytes()).unwrap();
    folder.write("net.bin", &records()).unwrap();
    folder
}

/// The records of the table.
fn records() -> Vec<u8> {
    text::read(NET.as_bytes()).unwrap().bytes()
}

/// What came of the command in a folder, given a text by the standard input.
fn given(folder: &Folder, words: &[&str], text: &str) -> Came {
    let mut command = Command::new(env!("CARGO_BIN_EXE_dovetrellis"));
    command.env(NEXT, "1");
    command.args(words).current_dir(folder.path());
    command.stdin(Stdio::piped()).stdout(Stdio::piped());
    command
        .stderr(Stdio::piped())
        .env_remove("DOVETRELLIS_SCRIPT");
    let mut child = command.spawn().unwrap();
    let mut to = child.stdin.take().unwrap();
    to.write_all(text.as_bytes()).unwrap();
    drop(to);
    let output = child.wait_with_output().unwrap();
    let [out, err] = [output.stdout, output.stderr].map(|bytes| String::from_utf8(bytes).unwrap());
    (out, err, output.status.code().unwrap())
}

/// What came of the command in a folder.
fn ran(folder: &Folder, words: &[&str]) -> Came {
    given(folder, words, "")
}

/// The names in a folder, in order.
fn names(folder: &Folder) -> Vec<String> {
    let entries = fs::read_dir(folder.path()).unwrap();
    let name = |entry: std::io::Result<fs::DirEntry>| {
        let name = entry.unwrap().file_name();
        name.to_string_lossy().into_owned()
    };
    let mut names: Vec<String> = entries.map(name).collect();
    names.sort();
    names
}

#[test]
fn the_digest_stands_after_the_file_of_the_table() {
    let folder = folder();
    let digest = text::digest(&records());
    let files = format!(
        "./net.net.bin (41 bytes)\ndigest: {digest}\n./net.night.run.bin (8 bytes)\n./net.1.run.bin (6 bytes)\n"
    );
    assert_eq!(
        ran(&folder, &["pack", "net.txt"]),
        (files.clone(), String::new(), 0)
    );
    assert_eq!(
        fs::read(folder.path().join("net.net.bin")).unwrap(),
        records()
    );
    let came = given(&folder, &["pack", "-"], NET);
    let files = files.replace("./net.", "./table.");
    assert_eq!(came, (files, String::new(), 0));
}

#[test]
fn a_folder_that_is_made_is_told() {
    let folder = folder();
    for (given, path) in [("packed", "packed"), ("packed/inner/", "packed/inner")] {
        let (out, err, status) = ran(&folder, &["pack", "net.txt", "-o", given]);
        let begins = format!("made the folder {given}\n{path}/net.net.bin (41 bytes)\ndigest: ");
        assert!(out.starts_with(&begins), "{out}");
        assert_eq!((err.as_str(), status), ("", 0));
        let (out, _, _) = ran(&folder, &["pack", "net.txt", "-o", given]);
        assert!(
            out.starts_with(&format!("{path}/net.net.bin (41 bytes)\n")),
            "{out}"
        );
    }
}

#[test]
fn a_folder_in_one_that_is_not_there_is_not_made() {
    let folder = folder();
    fs::create_dir(folder.path().join("packed")).unwrap();
    let before = names(&folder);
    for (given, said) in [
        (
            "pakced/new",
            "there is no folder 'pakced' (is 'packed' meant?); so 'pakced/new' is not made",
        ),
        (
            "far/away/new",
            "there is no folder 'far/away'; so 'far/away/new' is not made",
        ),
        (
            "net.txt",
            "'net.txt' cannot be a folder: a file has that name",
        ),
        (
            "net.txt/new",
            "'net.txt/new' cannot be a folder: Not a directory",
        ),
        ("", "the name of the folder is empty"),
    ] {
        let came = ran(&folder, &["pack", "net.txt", "-o", given]);
        assert_eq!(came, (String::new(), format!("dovetrellis: {said}\n"), 2));
    }
    assert_eq!(names(&folder), before);
}

#[test]
fn a_folder_is_made_beside_others_of_nearly_its_name() {
    let folder = folder();
    folder.write("out0", b"").unwrap();
    for name in ["out1", "out2", "out3"] {
        let (out, err, status) = ran(&folder, &["pack", "net.txt", "-o", name]);
        let begins = format!("made the folder {name}\n{name}/net.net.bin (41 bytes)\n");
        assert!(out.starts_with(&begins), "{out}");
        assert_eq!((err.as_str(), status), ("", 0));
    }
}

#[test]
fn of_a_text_that_is_no_table_no_folder_is_made() {
    let folder = folder();
    folder.write("bad.txt", b"conditions: a\n").unwrap();
    let (out, _, status) = ran(&folder, &["pack", "bad.txt", "-o", "packed"]);
    assert_eq!((out.as_str(), status), ("", 1));
    assert!(!folder.path().join("packed").exists());
}

#[test]
fn runs_are_shown_with_the_digest_of_their_table() {
    let folder = folder();
    let digest = format!("table: {}\n\n", text::digest(&records()));
    let (shown, err, status) = ran(&folder, &["show", "net.txt"]);
    assert_eq!((err.as_str(), status), ("", 0));
    assert!(
        shown.starts_with(&format!("{digest}conditions:\n")),
        "{shown}"
    );
    assert_eq!(text::read(shown.as_bytes()).unwrap().bytes(), records());
    let (bare, _, _) = ran(&folder, &["show", "net.bin"]);
    assert!(bare.starts_with("conditions: "), "{bare}");
    let other = shown.replace("start: {idle}", "start: {on}");
    let (out, err, status) = given(&folder, &["judge", "-"], &other);
    assert_eq!((out.as_str(), status), ("", 1));
    assert!(err.contains(": this is for the table sha256-"), "{err}");
}

#[test]
fn runs_of_logs_are_shown() {
    let folder = folder();
    folder
        .write(
            "log.txt",
            b"run night: load\nrun late: 0, work, load\nrun:\n",
        )
        .unwrap();
    folder.write("steps.txt", b"load\nwork\n").unwrap();
    let words = ["show", "net.txt", "log.txt", "night", "steps.txt"];
    let (shown, err, status) = ran(&folder, &words);
    assert_eq!((err.as_str(), status), ("", 0));
    let runs = shown.split("start: {idle}\n").nth(1).unwrap();
    assert_eq!(
        runs,
        "\nrun night: load, work\n\nrun: load\n\nrun: load\n\nrun late: load, work, load\n\nrun:\n\nrun: load, work\n"
    );
    assert_eq!(text::read(shown.as_bytes()).unwrap().runs.len(), 6);
    let (shown, _, _) = given(&folder, &["show", "net.bin", "-"], "0, 1\n");
    assert!(
        shown.starts_with("table: sha256-") && shown.ends_with("\nrun: 0, 1\n"),
        "{shown}"
    );
    let (out, err, status) = ran(&folder, &["show", "net.txt", "nihgt"]);
    assert_eq!((out.as_str(), status), ("", 2));
    assert!(err.contains("(is 'night' meant?)"), "{err}");
}
