//! The words of the command's help stand wherever else the words are listed.

use std::collections::BTreeSet;
use std::fs;
use std::path::Path;
use std::process::Command;

use command::lister::Folder;

use crate::{one_test, TOP};

/// A file of the repository.
fn read(name: &str) -> String {
    fs::read_to_string(Path::new(TOP).join(name)).unwrap()
}

/// A command as the help tells its use: its word, and its options.
struct Told {
    word: String,
    options: Vec<String>,
}

/// What stands in a line of the help after 'dovetrellis': the word, then options and what is to be put in, then the sentence on it.
fn told(line: &str) -> Told {
    let mut parts = line
        .split(' ')
        .map(|part| part.trim_matches(['[', ']', '.']));
    let word = parts.next().unwrap().to_string();
    let put_in = |part: &str| part.chars().all(|letter| letter.is_ascii_uppercase());
    let usage = parts.take_while(|part| part.starts_with('-') || put_in(part));
    let options = usage.filter(|part| part.starts_with('-'));
    Told {
        word,
        options: options.map(str::to_string).collect(),
    }
}

/// The commands that the help tells.
fn commands() -> Vec<Told> {
    let mut program = Command::new(env!("CARGO_BIN_EXE_dovetrellis"));
    let help = program.arg("help").output().unwrap().stdout;
    let help = String::from_utf8(help).unwrap();
    let begun = help
        .lines()
        .filter_map(|line| line.strip_prefix("  dovetrellis "));
    let commands: Vec<Told> = begun.map(told).collect();
    assert!(commands.len() >= 9, "{help}");
    commands
}

#[test]
fn the_man_page_has_every_word_and_option() {
    let _one = one_test();
    let page = read("share/man/dovetrellis.1").replace("\\-", "-");
    for Told { word, options } in commands() {
        let usage = format!("\\fBdovetrellis {word}\\fR");
        let usage = page.lines().find(|line| line.starts_with(&usage));
        let usage = usage.unwrap_or_else(|| panic!("{word} is not in the synopsis"));
        assert!(page.contains(&format!(".TP\n.B {word}\n")), "{word}");
        for option in options {
            assert!(usage.contains(&option), "{word}: {option}");
            let told = [
                format!(".TP\n.B {option}\n"),
                format!(".TP\n.BI {option}\\ "),
            ];
            assert!(told.iter().any(|told| page.contains(told)), "{option}");
        }
    }
}

#[test]
fn the_pages_tell_what_the_environment_and_the_status_are_for() {
    let _one = one_test();
    let mut program = Command::new(env!("CARGO_BIN_EXE_dovetrellis"));
    let help = program.args(["help", "unfold"]).output().unwrap().stdout;
    let help = String::from_utf8(help).unwrap();
    let page = read("share/man/dovetrellis.1");
    for variable in ["DOVETRELLIS_PROGRESS", "TMPDIR"] {
        assert!(help.contains(variable), "{variable}: {help}");
        assert!(
            page.contains(&format!(".TP\n.B {variable}\n")),
            "{variable}"
        );
    }
    let [help, page] = [help, page].map(|text| text.replace('\n', " "));
    assert!(help.contains(
        "the step that is asked about is refused, or 'list' is asked for a run that plays"
    ));
    assert!(page.contains(
        "the step that the command is about is refused, or .B list is asked for a run that plays"
    ));
    assert!(page.contains("names of a text table in place of numbers"));
}

#[test]
fn the_script_finds_the_runner_for_every_word_that_needs_it() {
    let _one = one_test();
    let script = read("dovetrellis");
    let mut lines = script.lines();
    let line = lines.find(|line| line.contains(") find_runner ||"));
    let listed = line.unwrap().split(')').next().unwrap();
    let listed: BTreeSet<&str> = listed.split('|').map(str::trim).collect();
    for Told { word, .. } in commands() {
        let own = ["build", "install", "help"].contains(&word.as_str());
        assert_eq!(listed.contains(word.as_str()), !own, "{word}");
    }
}

/// What the shell completes to, in order, of words of which the last is not yet whole, at the top of the repository.
fn completed(words: &[&str]) -> Vec<String> {
    completed_in(Path::new(TOP), words)
}

/// What the shell completes to in a folder.
fn completed_in(folder: &Path, words: &[&str]) -> Vec<String> {
    let asked = "source \"$0/share/completion.bash\"
        COMP_WORDS=(dovetrellis \"$@\") COMP_CWORD=$#
        _dovetrellis 2> /dev/null
        printf '%s\\n' \"${COMPREPLY[@]}\"";
    let mut shell = Command::new("bash");
    shell
        .args(["-c", asked, TOP])
        .args(words)
        .current_dir(folder);
    let output = shell.output().unwrap();
    let text = String::from_utf8(output.stdout).unwrap();
    let whole = text.lines().filter(|line| !line.is_empty());
    let mut found: Vec<String> = whole.map(str::to_string).collect();
    found.sort();
    found
}

#[test]
fn the_shell_completes_every_word_and_option() {
    let _one = one_test();
    let (first, helped) = (completed(&[""]), completed(&["help", ""]));
    for Told { word, options } in commands() {
        assert!(first.contains(&word), "{word}: {first:?}");
        assert!(helped.contains(&word), "{word}: {helped:?}");
        let found = completed(&[&word, "-"]);
        for option in options {
            assert!(found.contains(&option), "{word} {option}: {found:?}");
        }
    }
    assert_eq!(completed(&["--v"]), ["--version"]);
}

#[test]
fn the_shell_completes_runs_events_and_files() {
    let _one = one_test();
    let table = "examples/changeover.txt";
    assert_eq!(completed(&["list", "examples/changeover.t"]), [table]);
    assert_eq!(completed(&["list", table, "ha"]), ["hasty"]);
    assert_eq!(
        completed(&["judge", "--strict", table, "night", "ha"]),
        ["hasty"]
    );
    assert_eq!(
        completed(&["enabled", "--at", "{a-feeds}", table, "ha"]),
        ["hasty"]
    );
    assert_eq!(completed(&["fire", table, "connect-b"]), ["connect-b"]);
    assert!(completed(&["fire", table, "st"]).is_empty());
    assert_eq!(
        completed(&["list", table, "checker/spin."]),
        ["checker/spin.py"]
    );
    assert_eq!(completed(&["pack", table, "-o", "incl"]), ["include"]);
    assert_eq!(completed(&["build", "l"]), ["library", "list"]);
    assert_eq!(completed(&["install", "incl"]), ["include"]);
}

/// A table whose names a shell would run or expand, with one of each kind that is a name.
const NAMES_TO_RUN: &str = "\
$(id>pwned-event): {} -> {}
`id>pwned-event`: {} -> {}
fine-event: {} -> {}
run $(id>pwned): fine-event
run `id>pwned`: fine-event
run <(id>pwned): fine-event
run *: fine-event
run $HOME: fine-event
run --json: fine-event
run fine_run-1: fine-event
";

#[test]
fn the_shell_runs_nothing_that_stands_in_a_table() {
    let _one = one_test();
    let folder = Folder::new().unwrap();
    folder.write("t.txt", NAMES_TO_RUN.as_bytes()).unwrap();
    let found = |words: &[&str]| completed_in(folder.path(), words);
    assert_eq!(found(&["list", "t.txt", ""]), ["fine_run-1", "t.txt"]);
    assert_eq!(found(&["fire", "t.txt", ""]), ["fine-event"]);
    assert!(found(&["list", "$(id>pwned)", ""]).contains(&"t.txt".to_string()));
    assert!(found(&["list", "t.txt", "$(id>pwned)"]).is_empty());
    let left = fs::read_dir(folder.path()).unwrap().count();
    assert_eq!(left, 1, "something was run");
}

#[test]
fn the_shell_finds_the_runs_of_a_table_whose_path_is_quoted() {
    let _one = one_test();
    let folder = Folder::new().unwrap();
    folder.write("my 'own'.txt", b"run night: e\n").unwrap();
    for table in [
        r"my\ \'own\'.txt",
        r#""my 'own'.txt""#,
        r"my' '\'own\'.txt",
        r#""my 'own'".t'xt'"#,
    ] {
        let found = completed_in(folder.path(), &["list", table, "ni"]);
        assert_eq!(found, ["night"], "{table}");
    }
}
