//! Traces of the exported net read back as runs of the table. The environment names the driver (DOVETRELLIS_DRIVER), run by the words of
//! RATTLE_RUN.

use std::fs;
use std::io::Write;
use std::path::Path;
use std::process::{Command, Stdio};

use command::lister::Folder;
use second::across::lifted;
use second::game::Game;
use second::generator::{any_walk, small_unfolding, walk, Random};
use second::lent::list_of;
use second::table::table_bytes;

/// The top of the repository.
const TOP: &str = concat!(env!("CARGO_MANIFEST_DIR"), "/../..");

/// What came of `witness`, given a trace by the standard input: its output, what it said, and its exit status.
fn witness(table: &str, trace: &str) -> (String, String, i32) {
    let mut command = Command::new(env!("CARGO_BIN_EXE_dovetrellis"));
    command.args(["witness", table, "-"]).current_dir(TOP);
    let mut child = command
        .env_remove("DOVETRELLIS_SCRIPT")
        .stdin(Stdio::piped())
        .stdout(Stdio::piped())
        .stderr(Stdio::piped())
        .spawn()
        .unwrap();
    let mut to = child.stdin.take().unwrap();
    to.write_all(trace.as_bytes()).unwrap();
    drop(to);
    let output = child.wait_with_output().unwrap();
    let [out, err] = [output.stdout, output.stderr].map(|bytes| String::from_utf8(bytes).unwrap());
    (out, err, output.status.code().unwrap())
}

/// The run that a trace must be fine as.
fn run_of(table: &str, trace: &str) -> String {
    let (out, err, status) = witness(table, trace);
    assert_eq!((status, err.as_str()), (0, ""), "{trace}: {out}");
    out
}

#[test]
fn a_trace_is_told_by_the_names_of_the_table() {
    let run = "run: sign-in, open-log, set-time, load-key, set-frequency, set-power, warm-b, tune-filter,\n    \
        match-load, lock-reference, route-audio, connect-b\n# 12 steps, ends in {a-feeds, b-feeds, time-set, key-loaded, \
        frequency-set, power-set, filter-tuned, load-matched, reference-locked, audio-routed, log-opened, signed-in}\n";
    let wrong = "examples/changeover-wrong.txt";
    for trace in [
        "t9\nt8\nt0\nt1\nt2\nt3\nt1034\nt4\nt5\nt6\nt7\nt1033\n",
        "9 8 0 1 2 3 1034 4 5 6 7 1033",
        "# found\nt9, t8,0,,1\t2  # so far\r\n3 t1034 4 5 6 7\n\n1033#",
    ] {
        assert_eq!(run_of(wrong, trace), run);
    }
    let folder = Folder::new().unwrap();
    folder.write("trace", b"t0 t2 t3 t2").unwrap();
    let path = folder.path().join("trace").display().to_string();
    let mut command = Command::new(env!("CARGO_BIN_EXE_dovetrellis"));
    let table = format!("{TOP}/examples/net-a.txt");
    command
        .args(["witness", &table, &path])
        .env_remove("DOVETRELLIS_SCRIPT");
    let out = command.output().unwrap().stdout;
    assert_eq!(
        String::from_utf8(out).unwrap(),
        "run: 0, 1, 2, 1\n# 4 steps, ends in {2, 3}\n"
    );
}

#[test]
fn the_page_shows_what_the_witness_is_read_back_as() {
    let page = fs::read_to_string(Path::new(TOP).join("docs/CHECKER.md")).unwrap();
    let blocks: Vec<&str> = page.split("```\n").skip(1).step_by(2).collect();
    assert_eq!(
        run_of("examples/changeover-wrong.txt", blocks[0]),
        blocks[1]
    );
    let small = run_of("examples/net-a.txt", "t0 t2 t3 t2");
    let (out, err, _) = witness("examples/net-b.txt", "t0 t0");
    for shown in [small, out + &err] {
        let indented: String = shown.lines().map(|line| format!("    {line}\n")).collect();
        assert!(page.contains(&indented), "{indented}");
    }
}

#[test]
fn what_is_told_goes_into_the_table_as_a_run() {
    let table = fs::read_to_string(Path::new(TOP).join("examples/changeover-wrong.txt")).unwrap();
    let told = run_of(
        "examples/changeover-wrong.txt",
        "9 8 0 1 2 3 1034 4 5 6 7 1033",
    );
    let longer = text::read(format!("{table}\n{told}").as_bytes()).unwrap();
    assert_eq!(longer.runs[1].steps, longer.runs[0].steps);
}

#[test]
fn refused_traces_are_told_by_their_step() {
    let mended = "examples/changeover.txt";
    for (trace, line, said) in [
        (
            "t9 t9",
            "refused 12 at 1 by 26\n",
            "  what: unfolded condition 26 (place p26), a copy of condition 16 `signed-in` by sign-in for connect-b, still holds, \
             and the event would set it again: contact\n  \
             where: step 1 of the standard input, counted from 0: t9, sign-in, at line 1, column 4\n",
        ),
        (
            "t9\n t1035\n t1035",
            "refused 11 at 2 by 0\n",
            "  what: unfolded condition 0 (place p0), which is condition 0 `a-feeds`, does not hold, and the event needs it\n  \
             where: step 2 of the standard input, counted from 0: t1035, release-a, at line 3, column 2\n",
        ),
        (
            "1037",
            "refused 10 at 0\n",
            "  what: there is no such event: the unfolding has events 0 to 1036\n  \
             where: step 0 of the standard input, counted from 0: t1037, at line 1, column 1\n",
        ),
    ] {
        let came = witness(mended, trace);
        assert_eq!(came, (line.to_string(), said.to_string(), 1));
    }
    let picks = "t1033, connect-b (time-set by set-time, key-loaded by load-key, ";
    let (out, err, _) = witness(mended, "9 8 0 1 2 3 1034 4 5 6 7 1033");
    assert_eq!(out, "refused 11 at 11 by 6\n");
    assert!(
        err.contains("(place p6), which is condition 6 `combiner-free`, does not hold, and")
            && err.contains(picks),
        "{err}"
    );
    let (out, err, _) = witness(mended, "t9\nt8 t10");
    assert_eq!(out, "refused 11 at 2 by 4\n");
    let said = "(place p4), which is condition 4 `b-warm`, does not hold, and";
    assert!(err.contains(said), "{err}");
}

#[test]
fn a_step_of_a_trace_is_told_by_the_copy_that_stopped_it() {
    for (table, trace, line, what) in [
        (
            "net-a.txt",
            "t0 t1",
            "refused 11 at 1 by 2\n",
            "unfolded condition 2 (place p2), a copy of condition 2 by start for event 1, does not hold, and the event needs it",
        ),
        (
            "net-b.txt",
            "t0 t0",
            "refused 12 at 1 by 2\n",
            "unfolded condition 2 (place p2), a copy of condition 1 by event 0 for event 1, still holds, \
             and the event would set it again: contact",
        ),
        (
            "net-a.txt",
            "t0 t2 t2",
            "refused 11 at 2 by 1\n",
            "unfolded condition 1 (place p1), which is condition 1, does not hold, and the event needs it",
        ),
    ] {
        let (out, err, status) = witness(&format!("examples/{table}"), trace);
        assert_eq!((out.as_str(), status), (line, 1));
        assert!(err.starts_with(&format!("  what: {what}\n  where: step ")), "{err}");
    }
}

#[test]
fn a_step_of_a_trace_that_the_old_rule_stops_is_told() {
    let folder = Folder::new().unwrap();
    let path = folder.path().join("t.txt").display().to_string();
    let text = "rule: old\nconditions: ready, key [p]\nsend: {ready, key} -> {ready}\nclear: {ready, key} -> {key}\nstart: {ready, key}\n";
    folder.write("t.txt", text.as_bytes()).unwrap();
    let (out, err, status) = witness(&path, "t0");
    assert_eq!((out.as_str(), status), ("refused 12 at 0 by 0\n", 1));
    let what = "  what: unfolded condition 0 (place p0), which is condition 0 `ready`, still holds, and the event would set it again: \
                contact; it is a precondition too, but the table follows the old rule\n  where: step 0 ";
    assert!(err.starts_with(what), "{err}");
    let run = run_of(&path, "t2");
    assert_eq!(run, "run: clear\n# 1 step, ends in {key}\n");
    let paper = text.replace("rule: old\n", "rule: paper\n");
    folder.write("t.txt", paper.as_bytes()).unwrap();
    assert_eq!(
        run_of(&path, "t0 t2"),
        "run: send, clear\n# 2 steps, ends in {key}\n"
    );
    let copies = "rule: old\nconditions: key [p]\nset: {} -> {key}\nuse: {key} -> {}\nstart: {}\n";
    folder.write("t.txt", copies.as_bytes()).unwrap();
    let (out, err, _) = witness(&path, "t0 t0");
    assert!(
        out.starts_with("refused 12 at 1 by ") && err.contains("set it again: contact\n"),
        "{out}{err}"
    );
}

#[test]
fn traces_that_are_too_long_or_of_no_unfolding_are_told() {
    for count in [4097, 70_000] {
        let said = format!(
            "  what: a run has at most 4096 steps\n  where: the standard input, {count} steps\n"
        );
        let came = witness("examples/net-a.txt", &"t9 ".repeat(count));
        assert_eq!(came, ("refused 3 at 0\n".to_string(), said, 1));
    }
    let around = format!("t0 {}", "t2 t3 ".repeat(2047));
    assert!(run_of("examples/net-a.txt", &around).ends_with("\n# 4095 steps, ends in {1, 2}\n"));
    let (out, err, status) = witness("examples/unused.txt", "t0");
    assert_eq!((out.as_str(), status), ("refused 13 at 0\n", 1));
    assert!(
        err.ends_with("where: event 0, line 5 of examples/unused.txt\n"),
        "{err}"
    );
}

#[test]
fn what_is_no_trace_is_told() {
    for (trace, said) in [
        ("t9 p3", "line 1, column 4: expected a transition, as t12 or 12, found `p3`, which is a place"),
        ("\n\nq12", "line 3, column 1: expected a transition, as t12 or 12, found `q12`, which is a place"),
        ("a7", "line 1, column 1: expected a transition, as t12 or 12, found `a7`, which is an arc"),
        ("t", "line 1, column 1: expected a transition, as t12 or 12, found `t`"),
        ("-3", "line 1, column 1: expected a transition, as t12 or 12, found `-3`"),
        ("t+3", "line 1, column 1: expected a transition, as t12 or 12, found `t+3`"),
        ("connect-b", "line 1, column 1: expected a transition, as t12 or 12, found `connect-b`"),
        ("65536", "line 1, column 1: expected the number of an unfolded event, at most 65535, found `65536`"),
        ("t99999999999999999999999", "line 1, column 1: expected the number of an unfolded event, at most 65535, found `t99999999999999999999999`"),
        ("\u{2}\0\u{5}\0\u{1}\0", "this is no trace; it looks like the record of a lifted run"),
        ("t1\u{1b}", "byte 2 is a control character, so this is no trace"),
        ("", "no transition stands in it, so there is no run to tell"),
        ("# nothing found\n", "no transition stands in it, so there is no run to tell"),
    ] {
        let said = format!("dovetrellis: the standard input: {said}\n");
        assert_eq!(witness("examples/net-a.txt", trace), (String::new(), said, 1));
    }
}

#[test]
fn lifted_runs_are_read_back() {
    let folder = Folder::new().unwrap();
    let path = folder.path().join("t.bin").display().to_string();
    let mut random = Random::new(2026);
    let mut told = 0;
    while told < 60 {
        let (net, unfolding) = small_unfolding(&mut random);
        let way = any_walk(&mut random);
        let run = walk(&mut random, &net, net.events.len(), &way);
        let (1..=100, Ok(lifted)) = (run.len(), lifted(&net, &unfolding, &run)) else {
            continue;
        };
        told += 1;
        folder.write("t.bin", &table_bytes(&net)).unwrap();
        let trace: Vec<String> = lifted.iter().map(|event| format!("t{event}")).collect();
        let steps: Vec<String> = run.iter().map(u16::to_string).collect();
        let end = second::game::play(&net, net.start(), &run).unwrap();
        let end: Vec<u16> = list_of(&end).iter().map(|b| *b as u16).collect();
        let out = run_of(&path, &trace.join("\n"));
        let words: String = out.split_whitespace().collect::<Vec<_>>().join(" ");
        let plural = if run.len() == 1 { "" } else { "s" };
        let expected = format!(
            "run: {} # {} step{plural}, ends in {}",
            steps.join(", "),
            run.len(),
            text::set_text(&end)
        );
        assert_eq!(words, expected);
    }
}
