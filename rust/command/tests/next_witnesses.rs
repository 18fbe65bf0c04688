//! Traces of the exported net read back as runs of the table. The environment names the driver (DOVETRELLIS_DRIVER), run by the words of
//! RATTLE_RUN.

use std::fs;
use std::io::Write;
use std::path::Path;
use std::process::{Command, Stdio};

use command::lister::Folder;
use command::next::VARIABLE as NEXT;
use second::across::lifted;
use second::game::Game;
use second::generator::{any_walk, small_unfolding, walk, Random};
use second::lent::list_of;
use second::table::table_bytes;

/// The top of the repository.
const TOP: &str = concat!(env!("CARGO_MANIFEST_DIR"), "/../..");

/// What came of the command, given a text by the standard input: its output, what it said, and its exit status.
fn given(words: &[&str], text: &str) -> (String, String, i32) {
    let mut command = Command::new(env!("CARGO_BIN_EXE_dovetrellis"));
    command.env(NEXT, "1");
    command.args(words).current_dir(TOP);
    let mut child = command
        .env_remove("DOVETRELLIS_SCRIPT")
        .stdin(Stdio::piped())
        .stdout(Stdio::piped())
        .stderr(Stdio::piped())
        .spawn()
        .unwrap();
    let mut to = child.stdin.take().unwrap();
    to.write_all(text.as_bytes()).unwrap();
    drop(to);
    let output = child.wait_with_output().unwrap();
    let [out, err] = [output.stdout, output.stderr].map(|bytes| String::from_utf8(bytes).unwrap());
    (out, err, output.status.code().unwrap())
}

/// What came of `witness`, given a trace.
fn witness(table: &str, trace: &str) -> (String, String, i32) {
    given(&["witness", table, "-"], trace)
}

/// The run that a trace must be fine as.
fn run_of(table: &str, trace: &str) -> String {
    let (out, err, status) = witness(table, trace);
    assert_eq!((status, err.as_str()), (0, ""), "{trace}: {out}");
    out
}

/// The same without its first line, which must have the digest of the table.
fn steps_of(table: &str, trace: &str) -> String {
    let bytes = fs::read(Path::new(TOP).join(table)).unwrap();
    let records = match text::is_text(&bytes) {
        true => text::read(&bytes).unwrap().bytes(),
        false => bytes,
    };
    let digest = format!("table: {}\n", text::digest(&records));
    let told = run_of(table, trace);
    told.strip_prefix(&digest).expect(&told).to_string()
}

#[test]
fn a_trace_is_told_by_the_names_of_the_table() {
    let run = "run: sign-in, open-log, set-time, load-key, set-frequency, set-power, warm-b, tune-filter,\n    \
        match-load, lock-reference, route-audio, connect-b\n# 12 steps, ends in {a-feeds, b-feeds, time-set, key-loaded, \
        frequency-set, power-set, filter-tuned, load-matched, reference-locked, audio-routed, log-opened, signed-in}\n";
    let wrong = "examples/changeover-wrong.txt";
    for trace in [
        "t9\nt8\nt0\nt1\nt2\nt3\nt1034\nt4\nt5\nt6\nt7\nt1033\n",
        "9 8 0 1 2 3 1034 4 5 6 7 1033",
        "# found\nt9, t8,0,,1\t2  # so far\r\n3 t1034 4 5 6 7\n\n1033#",
    ] {
        assert_eq!(steps_of(wrong, trace), run);
    }
    let folder = Folder::new().unwrap();
    folder.write("trace", b"t0 t2 t3 t2").unwrap();
    let path = folder.path().join("trace").display().to_string();
    let mut command = Command::new(env!("CARGO_BIN_EXE_dovetrellis"));
    command.env(NEXT, "1");
    let table = format!("{TOP}/examples/net-a.txt");
    command
        .args(["witness", &table, &path])
        .env_remove("DOVETRELLIS_SCRIPT");
    let out = command.output().unwrap().stdout;
    let out = String::from_utf8(out).unwrap();
    assert!(
        out.starts_with("table: sha256-203391a34d28a57d")
            && out.ends_with("\nrun: 0, 1, 2, 1\n# 4 steps, ends in {2, 3}\n"),
        "{out}"
    );
}

#[test]
fn a_step_of_a_trace_that_the_old_rule_stops_is_told() {
    let folder = Folder::new().unwrap();
    let path = folder.path().join("t.txt").display().to_string();
    let text = "rule: old\nconditions: ready, key [p]\nsend: {ready, key} -> {ready}\nclear: {ready, key} -> {key}\nstart: {ready, key}\n";
    folder.write("t.txt", text.as_bytes()).unwrap();
    let (out, err, status) = witness(&path, "t0");
    assert_eq!((out.as_str(), status), ("refused 12 at 0 by 0\n", 1));
    let what = "  what: unfolded condition 0 (place p0), which is condition 0 `ready`, still holds, and the event would set it again: \
                contact; it is a precondition too, but the table follows the old rule\n  where: step 0 ";
    assert!(err.starts_with(what), "{err}");
    let run = steps_of(&path, "t2");
    assert_eq!(run, "run: clear\n# 1 step, ends in {key}\n");
    let paper = text.replace("rule: old\n", "rule: paper\n");
    folder.write("t.txt", paper.as_bytes()).unwrap();
    assert_eq!(
        steps_of(&path, "t0 t2"),
        "run: send, clear\n# 2 steps, ends in {key}\n"
    );
    let copies = "rule: old\nconditions: key [p]\nset: {} -> {key}\nuse: {key} -> {}\nstart: {}\n";
    folder.write("t.txt", copies.as_bytes()).unwrap();
    let (out, err, _) = witness(&path, "t0 t0");
    assert!(
        out.starts_with("refused 12 at 1 by ") && err.contains("set it again: contact\n"),
        "{out}{err}"
    );
}

/// What is said of a trace in which nothing stands.
const NOTHING: &str = "nothing stands in it; a trace has transitions, as t12 or 12, and one without a step has a comment, as \
                       '# broken at the start'";

#[test]
fn a_trace_of_comments_alone_is_a_run_without_steps() {
    let changeover = "examples/changeover.txt";
    for trace in ["# broken at the start\n", "\n  # found at 02:17", "#"] {
        let start = "run:\n# 0 steps, ends in {a-feeds, b-off}\n";
        assert_eq!(steps_of(changeover, trace), start);
    }
    let table = fs::read_to_string(Path::new(TOP).join(changeover)).unwrap();
    let told = run_of(changeover, "#");
    let runs = text::read(format!("{table}\n{told}").as_bytes())
        .unwrap()
        .runs;
    assert_eq!(runs.last().map(|run| run.steps.len()), Some(0));
}

/// What comes of playing a told run, given back as a log by the standard input, in a table.
fn replayed(table: &str, log: &str) -> (String, String, i32) {
    given(&["replay", table, "-"], log)
}

#[test]
fn what_is_told_is_held_to_its_table_as_a_log() {
    let told = run_of("examples/net-a.txt", "t0 t2 t3 t2");
    let (out, err, status) = replayed("examples/net-a.txt", &told);
    assert_eq!((err.as_str(), status), ("", 0));
    assert!(out.ends_with("\n4 steps, ends in {2, 3}\n"), "{out}");
    let (out, err, status) = replayed("examples/net-a-marked.txt", &told);
    assert_eq!((out.as_str(), status), ("", 1));
    let said =
        "dovetrellis: the standard input: line 1, column 8: this is for the table sha256-203391";
    assert!(err.starts_with(said), "{err}");
    let empty = run_of("examples/net-a.txt", "# nothing was needed");
    let (out, _, status) = replayed("examples/net-a.txt", &empty);
    assert_eq!(
        (out.as_str(), status),
        ("start {0}\n0 steps, ends in {0}\n", 0)
    );
}

#[test]
fn what_is_no_trace_is_told() {
    for (trace, said) in [
        ("t9 p3", "line 1, column 4: expected a transition, as t12 or 12, found `p3`, which is a place"),
        ("\n\nq12", "line 3, column 1: expected a transition, as t12 or 12, found `q12`, which is a place"),
        ("a7", "line 1, column 1: expected a transition, as t12 or 12, found `a7`, which is an arc"),
        ("t", "line 1, column 1: expected a transition, as t12 or 12, found `t`"),
        ("-3", "line 1, column 1: expected a transition, as t12 or 12, found `-3`"),
        ("t+3", "line 1, column 1: expected a transition, as t12 or 12, found `t+3`"),
        ("connect-b", "line 1, column 1: expected a transition, as t12 or 12, found `connect-b`"),
        ("65536", "line 1, column 1: expected the number of an unfolded event, at most 65535, found `65536`"),
        ("t99999999999999999999999", "line 1, column 1: expected the number of an unfolded event, at most 65535, found `t99999999999999999999999`"),
        ("\u{2}\0\u{5}\0\u{1}\0", "this is no trace; it looks like the record of a lifted run"),
        ("t1\u{1b}", "byte 2 is a control character, so this is no trace"),
        ("# a\rt0", "line 1, column 4: expected a line feed at the end of the line, found a carriage return alone"),
        ("t0\r\n# ü\r", "line 2, column 4: expected a line feed at the end of the line, found a carriage return alone"),
        ("", NOTHING),
        (" \n\t,\n", NOTHING),
    ] {
        let said = format!("dovetrellis: the standard input: {said}\n");
        assert_eq!(witness("examples/net-a.txt", trace), (String::new(), said, 1));
    }
}

#[test]
fn lifted_runs_are_read_back() {
    let folder = Folder::new().unwrap();
    let path = folder.path().join("t.bin").display().to_string();
    let mut random = Random::new(2026);
    let mut told = 0;
    while told < 60 {
        let (net, unfolding) = small_unfolding(&mut random);
        let way = any_walk(&mut random);
        let run = walk(&mut random, &net, net.events.len(), &way);
        let (1..=100, Ok(lifted)) = (run.len(), lifted(&net, &unfolding, &run)) else {
            continue;
        };
        told += 1;
        folder.write("t.bin", &table_bytes(&net)).unwrap();
        let trace: Vec<String> = lifted.iter().map(|event| format!("t{event}")).collect();
        let steps: Vec<String> = run.iter().map(u16::to_string).collect();
        let end = second::game::play(&net, net.start(), &run).unwrap();
        let end: Vec<u16> = list_of(&end).iter().map(|b| *b as u16).collect();
        let out = steps_of(&path, &trace.join("\n"));
        let words: String = out.split_whitespace().collect::<Vec<_>>().join(" ");
        let plural = if run.len() == 1 { "" } else { "s" };
        let expected = format!(
            "run: {} # {} step{plural}, ends in {}",
            steps.join(", "),
            run.len(),
            text::set_text(&end)
        );
        assert_eq!(words, expected);
    }
}
