//! Runs in files of their own, the standard input in a file's place, and digests that are held against the table at hand. The
//! environment names the driver (DOVETRELLIS_DRIVER) and the listing program (DOVETRELLIS_LIST), both run by the words of RATTLE_RUN.

use std::io::Write;
use std::path::Path;
use std::process::{Command, Stdio};

use command::lister::Folder;
use command::next::VARIABLE as NEXT;
use command::source::{read, RunSource, Source};
use command::stop::{Stop, Stopped};
use wire::Refusal;

/// A table with two runs.
const NET: &str =
    "conditions: idle, on, key [p]\nload: {idle} -> {on, key}\nwork: {on, key} -> {idle}\n\
    start: {idle}\nrun night: load, work\nrun: load\n";

/// A folder with files.
fn folder(files: &[(&str, &[u8])]) -> Folder {
    let folder = Folder::new().unwrap();
    for (name, bytes) in files {
        folder.write(name, bytes).unwrap();
    }
    folder
}

/// The path of a file in a folder.
fn path(folder: &Folder, name: &str) -> String {
    folder.path().join(name).display().to_string()
}

/// The table of a file in a folder, called by its name alone.
fn source(folder: &Folder, name: &str) -> Source {
    let read = read(&path(folder, name)).unwrap_or_else(|stop| panic!("{stop:?}"));
    Source {
        path: name.to_string(),
        ..read
    }
}

/// What each run is called, without the folder's path, and its steps.
fn told(folder: &Folder, runs: Vec<RunSource>) -> Vec<(String, Vec<u16>)> {
    let top = format!("{}/", folder.path().display());
    let run = |run: RunSource| (run.called.replace(&top, ""), run.steps);
    runs.into_iter().map(run).collect()
}

/// Why there is no run or table, without the folder's path, and the exit status.
fn stopped<T>(folder: &Folder, stop: Stopped<T>) -> (String, u8) {
    let top = format!("{}/", folder.path().display());
    let stop = stop.err().expect("this is wrong");
    let said = match &stop {
        Stop::Text(said) | Stop::Use(said) | Stop::Failed(said) => said.replace(&top, ""),
        other => panic!("{other:?}"),
    };
    (said, stop.status())
}

#[test]
fn runs_are_asked_for_by_names_and_files() {
    let record = [4, 0, 4, 0, 0, 0, 1, 0];
    let folder = folder(&[
        ("net.txt", NET.as_bytes()),
        ("steps.txt", b"load, work\nload\n"),
        ("one.txt", b"run: work\n"),
        ("named.txt", b"run first: load\n"),
        ("log.txt", b"run a: load\nrun:\nrun night: work, 0\n"),
        ("run.bin", &record),
    ]);
    let net = source(&folder, "net.txt");
    let asked = |words: &[&str]| {
        let there = |word: &&str| match word.contains('.') {
            true => path(&folder, word),
            false => word.to_string(),
        };
        let words: Vec<String> = words.iter().map(there).collect();
        told(&folder, net.asked_runs(&words).unwrap())
    };
    let run = |called: &str, steps: &[u16]| (called.to_string(), steps.to_vec());
    let (night, second) = (run("run `night`", &[0, 1]), run("run `1`", &[0]));
    assert_eq!(asked(&[]), [night.clone(), second]);
    assert_eq!(asked(&["0"]), [night.clone()]);
    assert_eq!(asked(&["steps.txt"]), [run("steps.txt", &[0, 1, 0])]);
    assert_eq!(asked(&["one.txt"]), [run("one.txt", &[1])]);
    assert_eq!(
        asked(&["named.txt"]),
        [run("run `first` of named.txt", &[0])]
    );
    assert_eq!(
        asked(&["run.bin", "log.txt", "night"]),
        [
            run("run.bin", &[0, 1]),
            run("run `a` of log.txt", &[0]),
            run("run `1` of log.txt", &[]),
            run("run `night` of log.txt", &[1, 0]),
            night
        ]
    );
    let names: Vec<Option<String>> = net
        .asked_runs(&[path(&folder, "log.txt")])
        .unwrap()
        .into_iter()
        .map(|run| run.name)
        .collect();
    let some = |name: &str| Some(name.to_string());
    assert_eq!(names, [some("a"), None, some("night")]);
    let one = |name: &str| net.asked_run(Some(&path(&folder, name)));
    assert_eq!(one("steps.txt").unwrap().steps, [0, 1, 0]);
    assert_eq!(one("run.bin").unwrap().bytes, record);
    let several =
        "log.txt has 3 runs, and one is needed here, as 'log.txt:a'; they are: a, 1, night";
    assert_eq!(stopped(&folder, one("log.txt")), (several.to_string(), 2));
    assert_eq!(one("log.txt:night").unwrap().steps, [1, 0]);
    assert_eq!(one("log.txt:1").unwrap().steps, []);
    assert_eq!(one("log.txt:2").unwrap().steps, [1, 0]);
    assert_eq!(one("run.bin:0").unwrap().bytes, record);
    assert_eq!(
        asked(&["log.txt:a", "steps.txt:0"]),
        [
            run("run `a` of log.txt", &[0]),
            run("steps.txt", &[0, 1, 0])
        ]
    );
    let none = "log.txt has no run 'nihgt' (is 'night' meant?); its runs are: a, 1, night";
    assert_eq!(
        stopped(&folder, one("log.txt:nihgt")),
        (none.to_string(), 2)
    );
    folder.write("log.txt:a", b"work, work").unwrap();
    assert_eq!(one("log.txt:a").unwrap().steps, [1, 1]);
    let none = net.asked_runs(&["nihgt".to_string()]);
    assert!(stopped(&folder, none)
        .0
        .starts_with("'nihgt' is neither a run nor a file (is 'night' meant?); the runs"));
}

#[test]
fn a_step_is_told_by_the_file_that_it_stands_in() {
    let long = "load, ".repeat(4_097);
    let folder = folder(&[
        ("net.txt", NET.as_bytes()),
        ("log.txt", b"# today\nrun late: load,\n  work, work\n"),
        ("steps.txt", b"work"),
        ("long.txt", long.as_bytes()),
    ]);
    let net = source(&folder, "net.txt");
    let place = |run: RunSource, number, place| {
        let refusal = Refusal {
            number,
            place,
            by: Some(1),
        };
        let top = format!("{}/", folder.path().display());
        net.run_told(&run, refusal).place.replace(&top, "")
    };
    let run = |name: &str| net.asked_run(Some(&path(&folder, name))).unwrap();
    assert_eq!(
        place(run("log.txt"), 11, 2),
        "step 2 of run `late` of log.txt, counted from 0: event 1 `work`, line 3, column 9 of log.txt"
    );
    assert_eq!(
        place(run("steps.txt"), 11, 0),
        "step 0 of steps.txt, counted from 0: event 1 `work`, line 1, column 1 of steps.txt"
    );
    assert_eq!(
        place(run("long.txt"), 3, 0),
        "long.txt, whose steps begin at line 1, column 1 of long.txt"
    );
    assert_eq!(
        place(net.run(0), 11, 1),
        "step 1 of run `night`, counted from 0: event 1 `work`, line 5, column 18 of net.txt"
    );
}

#[test]
fn a_digest_is_held_against_the_table() {
    let digest = text::digest(&text::read(NET.as_bytes()).unwrap().bytes());
    let upper = digest[..20].to_uppercase().replace("SHA", "sha");
    let log = |stated: &str| format!("table: {stated}\nwork, lod\n");
    let other = format!("sha256-{}", "0".repeat(64));
    let folder = folder(&[
        ("net.txt", format!("{NET}table: {digest}\n").as_bytes()),
        ("fine.txt", format!("load\ntable: {upper}\n").as_bytes()),
        ("other.txt", log(&other).as_bytes()),
        (
            "changed.txt",
            format!("  table: {}\n{NET}", &other[..15]).as_bytes(),
        ),
    ]);
    let net = source(&folder, "net.txt");
    assert_eq!(net.digest(), digest);
    let asked = |name: &str| net.asked_runs(&[path(&folder, name)]);
    assert_eq!(asked("fine.txt").unwrap()[0].steps, [0]);
    let said = format!(
        "other.txt: line 1, column 8: this is for the table {other}, and net.txt is {digest}"
    );
    assert_eq!(stopped(&folder, asked("other.txt")), (said, 1));
    let said = format!(
        "changed.txt: line 1, column 10: this is for the table sha256-00000000, and this table is {digest}: \
         it was changed since, or is another one than was meant"
    );
    let changed = read(&path(&folder, "changed.txt"));
    assert_eq!(stopped(&folder, changed), (said, 1));
}

#[test]
fn the_digest_is_that_of_the_records() {
    let table = text::read(NET.as_bytes()).unwrap();
    let folder = folder(&[("net.txt", NET.as_bytes()), ("net.bin", &table.bytes())]);
    let [one, other] = ["net.txt", "net.bin"].map(|name| source(&folder, name).digest());
    assert_eq!(one, other);
    let sum = Command::new("sha256sum")
        .arg(folder.path().join("net.bin"))
        .output();
    let Ok(sum) = sum else {
        return;
    };
    let sum = String::from_utf8(sum.stdout).unwrap();
    assert_eq!(one, format!("sha256-{}", &sum[..64]));
}

#[test]
fn the_page_shows_what_is_told_of_logs() {
    let top = concat!(env!("CARGO_MANIFEST_DIR"), "/../..");
    let page = std::fs::read_to_string(format!("{top}/docs/TEXT.md")).unwrap();
    let other = std::fs::read(format!("{top}/examples/net-a.txt")).unwrap();
    let blocks: Vec<&str> = page.split("```\n").collect();
    let folder = folder(&[
        ("night.txt", blocks[1].as_bytes()),
        ("other.txt", &other),
        ("log.txt", blocks[13].as_bytes()),
    ]);
    let asked = |table: &Source| table.asked_runs(&[path(&folder, "log.txt")]);
    let night = source(&folder, "night.txt");
    let again = &asked(&night).unwrap()[1];
    let refusal = second::calls::replay(&night.bytes, &again.steps, &mut [0; 4]).unwrap_err();
    let refusal = Refusal {
        number: u64::from(refusal.number),
        place: refusal.place as u64,
        by: refusal.by.map(u64::from),
    };
    let told = night.run_told(again, refusal);
    let told = format!("{}\n{}\n", told.line(), told.words());
    let top = format!("{}/", folder.path().display());
    assert_eq!(told.replace(&top, ""), blocks[17]);
    let (said, status) = stopped(&folder, asked(&source(&folder, "other.txt")));
    assert_eq!((said + "\n", status), (blocks[19].to_string(), 1));
}

/// What came of a command in a folder that is given its standard input: its output, what it said, and its exit status.
fn ran(folder: &Path, words: &[&str], input: &[u8]) -> (String, String, i32) {
    let mut command = Command::new(env!("CARGO_BIN_EXE_dovetrellis"));
    command.env(NEXT, "1");
    command.args(words).current_dir(folder);
    let mut child = command
        .env_remove("DOVETRELLIS_SCRIPT")
        .stdin(Stdio::piped())
        .stdout(Stdio::piped())
        .stderr(Stdio::piped())
        .spawn()
        .unwrap();
    let mut to = child.stdin.take().unwrap();
    to.write_all(input).unwrap();
    drop(to);
    let output = child.wait_with_output().unwrap();
    let [out, err] = [output.stdout, output.stderr].map(|bytes| String::from_utf8(bytes).unwrap());
    (out, err, output.status.code().unwrap())
}

#[test]
fn the_standard_input_stands_for_a_file() {
    let bytes = text::read(NET.as_bytes()).unwrap().bytes();
    let folder = folder(&[
        ("net.txt", NET.as_bytes()),
        ("net.bin", &bytes),
        ("log.txt", b"load, work"),
        ("numbers.txt", b"0, 1"),
    ]);
    let at = folder.path();
    let listing = ran(at, &["list", "net.txt"], b"");
    assert_eq!((listing.1.as_str(), listing.2), ("", 0));
    for (words, input) in [
        (&["list", "-"][..], NET.as_bytes()),
        (&["list", "-", "night"], NET.as_bytes()),
        (&["list", "-", "log.txt"], NET.as_bytes()),
        (&["list", "-", "numbers.txt"], &bytes),
        (&["list", "net.bin", "numbers.txt"], b""),
        (&["list", "net.bin", "-"], b"run night: 0, 1"),
        (&["list", "net.txt", "-"], b"load\nwork\n"),
        (&["list", "net.txt", "-"], &[4, 0, 4, 0, 0, 0, 1, 0]),
    ] {
        assert_eq!(ran(at, words, input), listing, "{words:?}");
    }
    let log = b"run hasty: work\nrun night: load, work\n";
    assert_eq!(ran(at, &["list", "net.txt", "-:night"], log), listing);
    let shown = ran(at, &["show", "-", "numbers.txt"], &bytes).0;
    assert!(shown.ends_with("\nrun: 0, 1\n"), "{shown}");
    for command in ["judge", "unfold", "export"] {
        let given = ran(at, &[command, "net.txt"], b"");
        assert_eq!(ran(at, &[command, "-"], NET.as_bytes()), given);
    }
}

#[test]
fn the_standard_input_is_told_by_its_name() {
    let folder = folder(&[("net.txt", NET.as_bytes())]);
    let at = folder.path();
    for (words, input, said, status) in [
        (
            &["judge", "-"][..],
            &b"conditions: a\nstart: {b}"[..],
            "dovetrellis: the standard input: line 2, column 9: expected the name or number of a condition, found `b`, which is none\n",
            1,
        ),
        (
            &["judge", "-"],
            b"",
            "  where: byte 0 of the standard input, the first record; the file is empty\n",
            1,
        ),
        (
            &["list", "net.txt", "-"],
            b"load, load",
            "  where: step 1 of the standard input, counted from 0: event 0 `load`, line 1, column 7 of the standard input\n  \
             before: step 0: load\n  held: {on, key}\n",
            1,
        ),
        (
            &["list", "-", "-"],
            NET.as_bytes(),
            "dovetrellis: '-' can be given once, as the standard input is read once\n'dovetrellis help' tells the commands\n",
            2,
        ),
        (
            &["show", "net.txt", "-", "-"],
            b"load",
            "dovetrellis: '-' can be given once, as the standard input is read once\n'dovetrellis help' tells the commands\n",
            2,
        ),
        (
            &["show", "net.txt", "net.txt"],
            b"",
            "dovetrellis: net.txt: line 1, column 1: expected steps or `run`, found `conditions`, so this is a table, \
             whose own runs 'dovetrellis judge' takes\n",
            1,
        ),
    ] {
        let (_, err, ended) = ran(at, words, input);
        assert!(err.ends_with(said), "{words:?}: {err}");
        assert_eq!(ended, status, "{words:?}");
    }
}
