//! What is said where words, files or outputs are not what was meant, and how it is asked rightly. The environment names the driver
//! (DOVETRELLIS_DRIVER) and the listing program (DOVETRELLIS_LIST), both run by the words of RATTLE_RUN.

mod common;

use std::ffi::OsStr;
use std::fs::File;
use std::os::unix::ffi::OsStrExt;
use std::process::Command;

use command::lister::Folder;
use command::next::VARIABLE as NEXT;
use common::{folder_with, ran, ran_in, Ran};

/// A table with a run that plays and one that is refused.
const NET: &str =
    "conditions: idle, on, key [p]\nload: {idle} -> {on, key}\nwork: {on, key} -> {idle}\n\
    start: {idle}\nrun night: load, work\nrun hasty: work\n";

/// A folder with the table and other files.
fn folder(files: &[(&str, &[u8])]) -> Folder {
    let folder = folder_with(files);
    folder.write("t.txt", NET.as_bytes()).unwrap();
    folder
}

/// What comes of a command whose error output is full: its output and its exit status.
fn ran_unheard(folder: &Folder, words: &[&str]) -> (String, i32) {
    let mut command = Command::new(env!("CARGO_BIN_EXE_dovetrellis"));
    command.env(NEXT, "1");
    command.args(words).current_dir(folder.path());
    command.env_remove("DOVETRELLIS_SCRIPT");
    let full = File::options().write(true).open("/dev/full").unwrap();
    let output = command.stderr(full).output().unwrap();
    let out = String::from_utf8(output.stdout).unwrap();
    (out, output.status.code().unwrap())
}

#[test]
fn a_full_error_output_changes_neither_answer_nor_status() {
    let folder = folder(&[("bad.txt", b"conditions a")]);
    for words in [
        &["list", "t.txt", "hasty", "night"][..],
        &["list", "--names", "t.txt", "hasty", "night"],
        &["replay", "t.txt", "hasty", "night"],
        &["fire", "t.txt", "work"],
        &["export", "t.txt"],
        &["judge", "bad.txt"],
        &["judge", "none.txt"],
        &["jugde"],
        &[],
    ] {
        let Ran { out, status, .. } = ran_in(folder.path(), words);
        assert_eq!(ran_unheard(&folder, words), (out, status), "{words:?}");
    }
}

#[test]
fn a_run_that_has_the_name_of_a_file_is_noted() {
    let folder = folder(&[("night", b"load")]);
    let note = "dovetrellis: note: 'night' is taken as the run of t.txt; the file is './night'\n";
    for command in ["list", "judge", "replay", "enabled", "show"] {
        let Ran { out, err, status } = ran_in(folder.path(), &[command, "t.txt", "night"]);
        assert_eq!((err.as_str(), status), (note, 0), "{command}");
        let elsewhere = folder_with(&[("t.txt", NET.as_bytes())]);
        let alone = ran_in(elsewhere.path(), &[command, "t.txt", "night"]);
        assert_eq!((alone.out, alone.err.as_str()), (out, ""), "{command}");
    }
    let file = ran_in(folder.path(), &["replay", "t.txt", "./night"]);
    assert!(file.out.ends_with("\n1 step, ends in {on, key}\n"));
    assert_eq!((file.err.as_str(), file.status), ("", 0));
}

#[test]
fn one_run_of_a_log_is_asked_for_by_its_name() {
    let folder = folder(&[(
        "log.txt",
        b"run first: load\nrun hasty: work, load\nrun: load, work",
    )]);
    let one = ran_in(folder.path(), &["enabled", "t.txt", "log.txt:first"]);
    assert!(one.out.starts_with("at {on, key}\n"), "{}", one.out);
    let second = ran_in(folder.path(), &["exchange", "t.txt", "log.txt:2", "0"]);
    assert!(second.out.starts_with("refused 17 at 0\n"));
    let several = ran_in(folder.path(), &["enabled", "t.txt", "log.txt"]);
    assert_eq!(
        several.err,
        "dovetrellis: log.txt has 3 runs, and one is needed here, as 'log.txt:first'; they are: first, hasty, 2\n\
         'dovetrellis help' tells the commands\n"
    );
    let judged = ran_in(
        folder.path(),
        &["judge", "t.txt", "log.txt:first", "log.txt:2"],
    );
    assert!(judged.out.ends_with("\nruns: 2 lift\n"), "{}", judged.out);
}

#[test]
fn a_log_with_a_control_character_is_told() {
    for byte in [b'\0', 0x1a, 0x0c, 0x1b] {
        let log = [b"load".as_slice(), &[byte], b"\nwork\n"].concat();
        let table = [NET.as_bytes(), &[byte]].concat();
        let folder = folder(&[("log.txt", &log), ("end.txt", &table)]);
        let why = |at: usize| {
            format!("; it is not taken as text, since byte {at} is a control character\n")
        };
        let end = why(NET.len());
        for (words, said) in [
            (
                &["replay", "t.txt", "log.txt"][..],
                format!("byte 0 of log.txt{}", why(4)),
            ),
            (
                &["replay", "end.txt"],
                format!("end.txt is no text, so no run stands in it and RUN must be given{end}"),
            ),
            (
                &["replay", "end.txt", "night"],
                format!("end.txt is no text, so its runs are files{end}"),
            ),
        ] {
            let ran = ran_in(folder.path(), words);
            assert!(ran.err.contains(&said), "{words:?}: {}", ran.err);
        }
    }
}

#[test]
fn a_run_of_too_many_steps_is_told_by_their_number() {
    let run = text::Run {
        steps: vec![0; 4_097],
        ..text::Run::default()
    };
    let log = "load, ".repeat(4_097);
    let folder = folder(&[("log.txt", log.as_bytes()), ("run.bin", &run.bytes())]);
    let what = "  what: the run has 4097 steps, and 4096 are the most\n";
    for (command, refused) in [
        (&["list"][..], "refused 19 at 0\n"),
        (&["list", "--names"], "refused 3 at 0\n"),
        (&["replay"], "refused 3 at 0\n"),
    ] {
        for file in ["log.txt", "run.bin"] {
            let words = [command, &["t.txt", file]].concat();
            let Ran { out, err, status } = ran_in(folder.path(), &words);
            assert_eq!((out.as_str(), status), (refused, 1), "{words:?}");
            assert!(err.starts_with(what), "{words:?}: {err}");
        }
    }
}

/// What the command says in a folder, and its exit status, where a variable of the environment is another and nothing runs its programs.
fn said_with(folder: &Folder, words: &[&str], variable: (&str, &str)) -> (String, i32) {
    let mut command = Command::new(env!("CARGO_BIN_EXE_dovetrellis"));
    command.env(NEXT, "1");
    command.args(words).current_dir(folder.path());
    command.env_remove("DOVETRELLIS_SCRIPT");
    if variable.0 != "TMPDIR" {
        command.env_remove("RATTLE_RUN");
    }
    let output = command.env(variable.0, variable.1).output().unwrap();
    let said = String::from_utf8(output.stderr).unwrap();
    (said, output.status.code().unwrap())
}

#[test]
fn what_could_not_be_made_or_run_is_named() {
    let folder = folder(&[]);
    for words in [&["list", "t.txt", "night"][..], &["export", "t.txt"]] {
        let (said, status) = said_with(&folder, words, ("TMPDIR", "/nowhere"));
        let begins = "dovetrellis: the folder '/nowhere/dovetrellis-";
        let ends = "' for the program's files, in TMPDIR or else /tmp, cannot be made: No such file or directory\n";
        assert!(said.starts_with(begins) && said.ends_with(ends), "{said}");
        assert_eq!(status, 2);
    }
    let missing = "/nowhere/list";
    let (said, status) = said_with(&folder, &["list", "t.txt"], ("DOVETRELLIS_LIST", missing));
    let expected =
        "dovetrellis: the program '/nowhere/list' cannot be run: No such file or directory\n";
    assert_eq!((said.as_str(), status), (expected, 2));
    let missing = ("DOVETRELLIS_DRIVER", "/nowhere/driver");
    let (said, status) = said_with(&folder, &["judge", "t.txt"], missing);
    let expected = "dovetrellis: the library: /nowhere/driver: No such file or directory\n";
    assert_eq!((said.as_str(), status), (expected, 2));
}

#[test]
fn a_log_in_the_place_of_a_table_is_told() {
    let folder = folder(&[
        ("runs.txt", b"# today\nrun a: load\nrun b: load, work\n"),
        ("bare.txt", b"load\nwork\n"),
        ("slip.txt", b"condition: a\nx: {a} -> {a}\nstart: {a}\n"),
        ("broken.txt", b"conditions a\n"),
        ("comment.txt", b"# load\n"),
    ]);
    let told = |name: &str| {
        format!(
            "\ndovetrellis: {name}: this looks like a log; the table comes first, then its runs\n"
        )
    };
    for (words, name) in [
        (&["list", "runs.txt", "t.txt"][..], "runs.txt"),
        (&["judge", "bare.txt"], "bare.txt"),
        (&["replay", "runs.txt"], "runs.txt"),
    ] {
        let Ran { err, status, .. } = ran_in(folder.path(), words);
        assert!(err.ends_with(&told(name)), "{words:?}: {err}");
        assert_eq!(status, 1, "{words:?}");
    }
    for name in ["slip.txt", "broken.txt", "comment.txt"] {
        let Ran { err, status, .. } = ran_in(folder.path(), &["judge", name]);
        assert!(!err.contains("looks like a log"), "{err}");
        assert_eq!(status, 1, "{name}");
    }
}

#[test]
fn words_in_each_others_place_are_told() {
    let table = "changeover.txt";
    for (words, what) in [
        (&["fire", "hasty", table][..], "event"),
        (&["list", "hasty", table], "run"),
        (&["judge", "hasty", table], "run"),
        (&["replay", "hasty", table], "run"),
        (&["show", "hasty", table], "run"),
        (&["enabled", "hasty", table], "run"),
        (&["exchange", "hasty", table, "0"], "run"),
    ] {
        let Ran { err, status, .. } = ran(words);
        let said = format!(
            "dovetrellis: 'hasty' is no file; the table comes first, then the {what}\n\
             'dovetrellis help' tells the commands\n"
        );
        assert_eq!((err, status), (said, 2), "{words:?}");
    }
}

#[test]
fn a_word_that_is_no_text_is_told() {
    let mut command = Command::new(env!("CARGO_BIN_EXE_dovetrellis"));
    command.env(NEXT, "1");
    command.arg("judge").arg(OsStr::from_bytes(b"\xff.txt"));
    let output = command.output().unwrap();
    let said = String::from_utf8(output.stderr).unwrap();
    let expected = "dovetrellis: the word \"\\xFF.txt\" is not in UTF-8, and no file whose name is not can be given\n\
        'dovetrellis help' tells the commands\n";
    assert_eq!((said.as_str(), output.status.code()), (expected, Some(2)));
}

#[test]
fn all_that_a_stopped_step_lacks_is_told() {
    let net = "conditions: a, b [p], c, d\nx: {d} -> {c, d}\ny: {a, b, c} -> {}\nz: {c} -> {}\nstart: {d}\n\
        run two: x, y\nrun three: y\nrun one: z\nrun contact: x, x\n";
    let folder = folder_with(&[("net.txt", net.as_bytes())]);
    let told = ", of which the lowest is told above\n";
    for (run, held, lacking) in [
        ("two", "{c, d}", format!("  lacking: {{a, b}}{told}")),
        ("three", "{d}", format!("  lacking: {{a, b, c}}{told}")),
        ("one", "{d}", String::new()),
        ("contact", "{c, d}", String::new()),
    ] {
        let Ran { err, .. } = ran_in(folder.path(), &["list", "net.txt", run]);
        let ends = format!("  held: {held}\n{lacking}");
        assert!(err.ends_with(&ends), "{run}: {err}");
    }
    let enabled = ran_in(folder.path(), &["help", "enabled"]).out;
    assert!(enabled.contains("the lowest condition that stops it\n"));
}
