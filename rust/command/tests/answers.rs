//! The command as people run it, on the examples and on files of its own. The environment names the driver (DOVETRELLIS_DRIVER) and
//! the listing program (DOVETRELLIS_LIST), both run by the words of RATTLE_RUN.

use std::fs;
use std::io::Write;
use std::path::Path;
use std::process::{Command, Stdio};

use command::lister::Folder;
use second::generator::{damaged, small_net, Random};
use second::table::table_bytes;

/// The top of the repository.
const TOP: &str = concat!(env!("CARGO_MANIFEST_DIR"), "/../..");

/// What came of a command.
struct Ran {
    out: String,
    err: String,
    status: i32,
}

/// Runs the command in a folder.
fn ran_in(folder: &Path, words: &[&str]) -> Ran {
    for named in ["DOVETRELLIS_DRIVER", "DOVETRELLIS_LIST"] {
        assert!(
            std::env::var_os(named).is_some(),
            "{named} names a program, as .ci/run does"
        );
    }
    let program = env!("CARGO_BIN_EXE_dovetrellis");
    let mut command = Command::new(program);
    command
        .args(words)
        .current_dir(folder)
        .env("DOVETRELLIS_TOP", TOP);
    let output = command.env_remove("DOVETRELLIS_SCRIPT").output().unwrap();
    Ran {
        out: String::from_utf8(output.stdout).unwrap(),
        err: String::from_utf8(output.stderr).unwrap(),
        status: output.status.code().unwrap(),
    }
}

/// Runs the command among the examples.
fn ran(words: &[&str]) -> Ran {
    ran_in(&Path::new(TOP).join("examples"), words)
}

/// What a command that must be fine writes.
fn fine(words: &[&str]) -> String {
    let ran = ran(words);
    assert_eq!(
        (ran.status, ran.err.as_str()),
        (0, ""),
        "{words:?}: {}",
        ran.out
    );
    ran.out
}

/// What a command says that must end with a status and write nothing else.
fn ends(words: &[&str], status: i32) -> String {
    let ran = ran(words);
    assert_eq!(
        (ran.status, ran.out.as_str()),
        (status, ""),
        "{words:?}: {}",
        ran.err
    );
    ran.err
}

/// The refusal and what is said of it.
fn refused(folder: &Path, words: &[&str]) -> (String, String) {
    let ran = ran_in(folder, words);
    assert_eq!(ran.status, 1, "{words:?}: {}{}", ran.out, ran.err);
    (ran.out, ran.err)
}

const LISTING: &str = "start 0\n0 0 0 1,2\n1 1 2 2,3\n2 2 3 1,2\n3 1 2 2,3\nend unfolded 3,4\n";

#[test]
fn help_and_wrong_use() {
    assert!(fine(&["help"]).contains("dovetrellis judge TABLE"));
    assert_eq!(ends(&[], 2), fine(&["--help"]));
    for (words, said) in [
        (&["examine"][..], "there is no command 'examine'"),
        (&["-v"], "there is no command '-v' and no such option"),
        (&["net-a.txt"], "there is no command 'net-a.txt'; for the file: 'judge net-a.txt'"),
        (&["list", "-v", "net-a.txt"], "there is no option '-v' here; a file of that name is './-v'"),
        (&["pack", "-v", "net-a.txt"], "there is no option '-v' here; a file of that name is './-v'"),
        (&["judge", "-"], "'-' is no file; the standard input is /dev/stdin"),
        (&["help", "list", "judge"], "'judge' is one word too many"),
        (&["judge"], "TABLE is missing"),
        (&["judge", "net-a.txt", "x"], "'x' is one word too many"),
        (&["export"], "TABLE is missing"),
        (&["export", "net-a.txt", "net-a.pnml"], "'net-a.pnml' is one word too many"),
        (&["witness"], "TABLE is missing"),
        (&["witness", "net-a.txt"], "TRACE is missing"),
        (&["witness", "-", "-"], "'-' is no file; the standard input is /dev/stdin"),
        (&["witness", "net-a.txt", "-v"], "there is no option '-v' here; a file of that name is './-v'"),
        (&["witness", "net-a.txt", "-", "x"], "'x' is one word too many"),
        (&["list", "a", "b", "c"], "'c' is one word too many"),
        (&["pack", "net-a.txt", "-o"], "a folder is missing after -o"),
        (&["pack", "net-a.txt", "-o", "a", "-o", "b"], "-o is there twice"),
        (&["list", "limits-over.txt"], "limits-over.txt has no run, so RUN must be given"),
        (&["list", "net-a.txt", "rond"], "'rond' is neither a run nor a file (is 'round' meant?); the runs of net-a.txt are: round, empty, early, unknown"),
        (&["show", "net-a.txt", "net-b.txt"], "net-b.txt is text; a run is a record file, or the name of a run in a text table"),
    ] {
        assert_eq!(ends(words, 2), format!("dovetrellis: {said}\n'dovetrellis help' tells the commands\n"));
    }
    assert!(ends(&["pack", "net-a.txt", "-o", "net-b.txt"], 2)
        .starts_with("dovetrellis: 'net-b.txt' cannot be a folder: a file has that name\n"));
}

#[test]
fn help_tells_of_one_command() {
    let list = fine(&["help", "list"]);
    assert!(
        list.starts_with("  dovetrellis list [TABLE [RUN]]  "),
        "{list}"
    );
    assert!(
        list.contains("Without TABLE: examples/net-a.txt\n\nTABLE is a file of records"),
        "{list}"
    );
    assert!(
        list.contains("\nExit status: 0 fine;") && !list.contains("judge"),
        "{list}"
    );
    for command in [
        "list", "judge", "unfold", "export", "witness", "pack", "show",
    ] {
        let said = fine(&["help", command]);
        assert!(
            said.starts_with(&format!("  dovetrellis {command} ")),
            "{said}"
        );
        assert_eq!(fine(&[command, "--help"]), said);
        assert_eq!(fine(&[command, "net-a.txt", "-h"]), said);
    }
    for command in ["build", "help"] {
        let said = fine(&["help", command]);
        assert!(
            said.starts_with(&format!("  dovetrellis {command} ")),
            "{said}"
        );
    }
}

#[test]
fn the_command_that_is_meant_is_named() {
    for (word, meant) in [
        ("jugde", "judge"),
        ("judg", "judge"),
        ("lsit", "list"),
        ("List", "list"),
        ("shwo", "show"),
        ("unflod", "unfold"),
        ("exprot", "export"),
        ("witnes", "witness"),
        ("bulid", "build"),
        ("--hlep", "help"),
    ] {
        let said = format!("dovetrellis: there is no command '{word}' (is '{meant}' meant?)\n");
        assert!(ends(&[word, "net-a.txt"], 2).starts_with(&said));
        assert!(ends(&["help", word], 2).starts_with(&said));
    }
}

#[test]
fn a_text_that_is_no_table_is_told() {
    let folder = Folder::new().unwrap();
    folder
        .write("bad.txt", b"conditions: a\nx: {b} -> {}\nstart: {}\n")
        .unwrap();
    let said = "dovetrellis: bad.txt: line 2, column 5: expected the name or number of a condition, found `b`, which is none\n";
    for command in ["judge", "unfold", "export", "pack", "show", "list"] {
        let ran = ran_in(folder.path(), &[command, "bad.txt"]);
        assert_eq!(
            (ran.status, ran.out.as_str(), ran.err.as_str()),
            (1, "", said),
            "{command}"
        );
    }
}

#[test]
fn the_example_is_listed() {
    assert_eq!(fine(&["list"]), LISTING);
    assert_eq!(fine(&["list", "net-a.txt"]), LISTING);
    assert_eq!(
        fine(&["list", "net-a.txt", "empty"]),
        "start 0\nend unfolded 0\n"
    );
    assert!(fine(&["list", "net-e.txt", "second"]).ends_with("\n2 2 4 2\nend unfolded 3,4\n"));
}

#[test]
fn a_table_may_come_through_a_pipe() {
    let net = fs::read(Path::new(TOP).join("examples/net-e.txt")).unwrap();
    let mut command = Command::new(env!("CARGO_BIN_EXE_dovetrellis"));
    let mut child = command
        .args(["judge", "/dev/stdin"])
        .env("DOVETRELLIS_TOP", TOP)
        .env_remove("DOVETRELLIS_SCRIPT")
        .stdin(Stdio::piped())
        .stdout(Stdio::piped())
        .spawn()
        .unwrap();
    child.stdin.take().unwrap().write_all(&net).unwrap();
    let out = child.wait_with_output().unwrap().stdout;
    assert_eq!(
        String::from_utf8(out).unwrap(),
        fine(&["judge", "net-e.txt"])
    );
}

#[test]
fn the_changeover_is_listed() {
    let night = fine(&["list", "changeover.txt"]);
    for line in [
        "6 11 1034 0,4,7,8,9,10,15,16",
        "12 10 1033 1,5,7,8,9,10,11,12,13,14,15,16",
    ] {
        assert!(night.contains(&format!("\n{line}\n")), "{night}");
    }
    let both = fine(&["list", "changeover-wrong.txt"]);
    assert!(
        both.contains("\n11 10 1033 0,5,7,8,9,10,11,12,13,14,15,16\n"),
        "{both}"
    );
}

#[test]
fn refused_runs_are_told() {
    let examples = Path::new(TOP).join("examples");
    let (out, err) = refused(&examples, &["list", "changeover.txt", "hasty"]);
    assert_eq!(out, "refused 11 at 11 by 13\n");
    assert_eq!(
        err,
        "  what: condition 13 `reference-locked` does not hold, and the event needs it\n  \
         where: step 11 of run `hasty`, counted from 0: event 10 `connect-b`, line 53, column 16 of changeover.txt\n"
    );
    let (out, err) = refused(&examples, &["list", "changeover.txt", "careful"]);
    assert_eq!(out, "refused 15 at 3\n");
    assert_eq!(
        err,
        "  what: event 0 `set-time` came before, at step 2, and marks condition 7 `time-set`, which event 10 `connect-b` uses; \
         the unfolded net has no such run\n  \
         where: step 3 of run `careful`, counted from 0: event 0 `set-time`, line 56, column 34 of changeover.txt\n"
    );
    let (out, err) = refused(&examples, &["list", "unused.txt"]);
    assert_eq!(out, "refused 13 at 0\n");
    assert!(
        err.contains("where: event 0, line 5 of unused.txt\n"),
        "{err}"
    );
}

/// What stands between the fences of a page, in order.
fn blocks(page: &str) -> Vec<String> {
    let text = fs::read_to_string(Path::new(TOP).join(page)).unwrap();
    text.split("```\n")
        .skip(1)
        .step_by(2)
        .map(String::from)
        .collect()
}

#[test]
fn the_pages_show_what_the_command_writes() {
    let top = Path::new(TOP);
    let story = blocks("examples/README.md");
    assert_eq!(
        ran_in(top, &["list", "examples/changeover.txt", "night"]).out,
        story[0]
    );
    let (out, err) = refused(top, &["list", "examples/changeover.txt", "hasty"]);
    assert_eq!(out.clone() + &err, story[1]);
    for (name, block) in ["rack", "rack-old"]
        .iter()
        .zip(story.iter().rev().take(2).rev())
    {
        let judged = ran_in(top, &["judge", &format!("examples/{name}.txt")]);
        assert_eq!(&judged.out, block, "{name}");
    }
    let shown = |line: &str| format!("    {line}\n");
    let indented: String = (out + &err).lines().map(shown).collect();
    let readme = fs::read_to_string(top.join("README.md")).unwrap();
    assert!(readme.contains(&indented), "{indented}");
    let readme = blocks("README.md");
    assert_eq!(readme[0], LISTING);
    let folder = Folder::new().unwrap();
    folder.write("t.txt", readme[1].as_bytes()).unwrap();
    assert_eq!(
        ran_in(folder.path(), &["list", "t.txt", "night"]).out,
        LISTING
    );
}

#[test]
fn every_example_is_judged() {
    let judged = |name: &str| fine(&["judge", name]);
    assert_eq!(
        judged("net-e.txt"),
        "accepted: 3 conditions and 3 events\nunfolds to 5 conditions and 5 events\n\
         run `first`: 3 steps, ends in {2}, lifts\nrun `second`: 3 steps, ends in {2}, lifts\n"
    );
    assert!(judged("net-d.txt").contains("unfolds to 31 conditions and 1035 events\n"));
    assert!(judged("limits.txt").contains(" and 65535 events\n"));
    assert!(judged("limits-over.txt").contains("does not unfold: refused 14 at 0\n"));
    assert!(judged("changeover.txt").contains("unfolds to 27 conditions and 1037 events\n"));
    assert!(judged("changeover.txt").contains(
        "run `hasty`: refused 11 at 11 by 13\n  \
         what: condition 13 `reference-locked` does not hold, and the event needs it\n"
    ));
    assert!(judged("unused.txt").contains(
        "run `once`: 1 step, ends in {0}, does not lift, as the table does not unfold\n"
    ));
    let told = judged("net-b.txt");
    assert!(
        told.contains(
            "run `twice`: 2 steps, ends in {0, 1}, does not lift: refused 15 at 1\n  \
             what: event 0 came before, at step 0, and marks condition 1, which event 1 uses; "
        ),
        "{told}"
    );
    assert!(judged("net-c.txt").ends_with("run `twice`: 2 steps, ends in {0}, lifts\n"));
}

#[test]
fn a_repeat_that_lifts_is_listed() {
    assert_eq!(
        fine(&["list", "net-c.txt", "twice"]),
        "start 0\n0 0 0 0\n1 0 1 0\nend unfolded 0,1\n"
    );
}

#[test]
fn net_a_is_unfolded() {
    let expected = "5 unfolded conditions, 4 unfolded events\nstart: {0}\n\nunfolded events\n\
        0: event 0: {0} -> {1, 3}\n1: event 1 (2 by start): {1, 2} -> {2, 4}\n\
        2: event 1 (2 by event 0): {1, 3} -> {3, 4}\n3: event 2: {4} -> {1}\n\nunfolded conditions\n\
        0: 0\n1: 1\n2: 2 by start for event 1\n3: 2 by event 0 for event 1\n4: 3\n";
    assert_eq!(fine(&["unfold", "net-a.txt"]), expected);
    assert!(fine(&["unfold", "net-d.txt"]).contains("\n1034: event 11: {30} -> {}\n"));
}

#[test]
fn what_is_packed_is_shown() {
    let folder = Folder::new().unwrap();
    let at = folder.path();
    let example = format!("{TOP}/examples/net-a.txt");
    let ran = ran_in(at, &["pack", &example, "-o", "packed"]);
    let written = "packed/net-a.net.bin (54 bytes)\npacked/net-a.round.run.bin (12 bytes)\npacked/net-a.empty.run.bin (4 bytes)\n\
        packed/net-a.early.run.bin (8 bytes)\npacked/net-a.unknown.run.bin (8 bytes)\n";
    assert_eq!((ran.status, ran.out.as_str()), (0, written), "{}", ran.err);
    let (net, round) = ("packed/net-a.net.bin", "packed/net-a.round.run.bin");
    assert_eq!(ran_in(at, &["list", net, round]).out, LISTING);
    let shown = ran_in(at, &["show", net, round]).out;
    assert!(
        shown.ends_with("\nstart: {0}\n\nrun: 0, 1, 2, 1\n"),
        "{shown}"
    );
    folder.write("again.txt", shown.as_bytes()).unwrap();
    assert_eq!(ran_in(at, &["pack", "again.txt"]).status, 0);
    let read = |name: &str| fs::read(at.join(name)).unwrap();
    assert_eq!(read("again.net.bin"), read(net));
    assert_eq!(read("again.0.run.bin"), read(round));
}

#[test]
fn refusals_of_a_text_name_its_lines() {
    let folder = Folder::new().unwrap();
    for (text, line, place) in [
        (
            "conditions:\nstart: {}\n",
            "refused 3 at 0\n",
            "the conditions of t.txt\n",
        ),
        (
            "conditions: a\nx: {a} -> {1}\nstart: {}\n",
            "refused 5 at 5\n",
            "event 0 `x`, line 2 of t.txt\n",
        ),
        (
            "conditions: a\n0: {} -> {}\nstart: {}\n",
            "refused 7 at 5\n",
            "event 0, line 2 of t.txt\n",
        ),
        (
            "conditions: a\nstart: {a, 7}\n",
            "refused 5 at 5\n",
            "`start:`, line 2 of t.txt\n",
        ),
        (
            "conditions: 0..16 [p]\n\nx: {0} -> {}\ny: {0..16} -> {}\nstart: {}\n",
            "refused 8 at 31\n",
            "event 1 `y`, line 4 of t.txt\n",
        ),
        (
            "conditions: a\n\nrule: 2\nstart: {}\n",
            "refused 4 at 0\n",
            "`rule:`, line 3 of t.txt\n",
        ),
        (
            "rule: old\nconditions: a\nx: {a} -> {1}\nstart: {}\n",
            "refused 5 at 10\n",
            "event 0 `x`, line 3 of t.txt\n",
        ),
    ] {
        folder.write("t.txt", text.as_bytes()).unwrap();
        for command in ["judge", "unfold", "show"] {
            let (out, err) = refused(folder.path(), &[command, "t.txt"]);
            assert_eq!(out, line, "{text}");
            assert!(err.ends_with(&format!("\n  where: {place}")), "{err}");
        }
        let (out, _) = refused(folder.path(), &["pack", "t.txt"]);
        assert!(
            out.starts_with("./t.net.bin (") && out.ends_with(line),
            "{out}"
        );
    }
}

#[test]
fn files_of_records_are_told_by_their_bytes() {
    let folder = Folder::new().unwrap();
    let mut random = Random::new(2026);
    for _ in 0..200 {
        let mut net = small_net(&mut random);
        net.events.push(second::table::Event {
            preconditions: vec![0],
            postconditions: vec![],
        });
        folder.write("t.bin", &table_bytes(&net)).unwrap();
        assert_eq!(ran_in(folder.path(), &["judge", "t.bin"]).status, 0);
        let broken = damaged(&mut random, &net);
        folder.write("t.bin", &broken.bytes).unwrap();
        let ran = ran_in(folder.path(), &["judge", "t.bin"]);
        if text::is_text(&broken.bytes) {
            continue;
        }
        let (number, place) = (broken.refusal.number, broken.refusal.place);
        assert_eq!(
            (ran.status, ran.out),
            (1, format!("refused {number} at {place}\n"))
        );
        assert!(
            ran.err.contains(&format!("  where: byte {place} of t.bin")),
            "{}",
            ran.err
        );
    }
}

/// What `list` answers and says of the first run of a text, and what `judge` answers of it.
fn told_of_run(text: &str) -> (String, String, String) {
    let folder = Folder::new().unwrap();
    folder.write("t.txt", text.as_bytes()).unwrap();
    let (out, err) = refused(folder.path(), &["list", "t.txt"]);
    let judged = ran_in(folder.path(), &["judge", "t.txt"]);
    assert_eq!((judged.status, judged.err.as_str()), (0, ""));
    (out, err, judged.out)
}

#[test]
fn a_stopped_step_is_told_by_its_condition() {
    for (table, line, what) in [
        (
            "conditions: a, b, c [p]\nx: {a} -> {c, b}\nstart: {a, b, c}\nrun r: x\n",
            "refused 12 at 0 by 1\n",
            "  what: condition 1 `b` still holds, and the event would set it again: contact\n",
        ),
        (
            "conditions: a, b, key-loaded [p]\nx: {a} -> {a}\ny: {a, b, key-loaded} -> {}\n\
             start: {a, b}\nrun r: x, x, y\n",
            "refused 11 at 2 by 2\n",
            "  what: condition 2 `key-loaded` does not hold, and the event needs it\n",
        ),
        (
            "conditions: 0..3\n0: {0} -> {1}\n1: {1, 2, 3} -> {}\nstart: {0}\nrun r: 0, 1\n",
            "refused 11 at 1 by 2\n",
            "  what: condition 2 does not hold, and the event needs it\n",
        ),
        (
            "conditions: 0..3\n0: {3} -> {0, 1, 2, 3}\nstart: {2, 1, 3}\nrun r: 0\n",
            "refused 12 at 0 by 1\n",
            "  what: condition 1 still holds, and the event would set it again: contact\n",
        ),
        (
            "conditions: idle, on\nx: {idle} -> {on}\nstart: {}\nrun r: x\n",
            "refused 11 at 0 by 0\n",
            "  what: condition 0 `idle` does not hold, and the event needs it\n",
        ),
    ] {
        let (out, err, judged) = told_of_run(table);
        assert_eq!(out, line);
        assert!(
            err.starts_with(&format!("{what}  where: step ")) && err.lines().count() == 2,
            "{err}"
        );
        let both = format!("run `r`: {line}{what}  where: step ");
        assert!(judged.contains(&both), "{judged}");
    }
}

/// A table with which the two rules part, and two runs.
const PARTING: &str = "conditions: ready, sent, key [p]\n\
    send: {ready, key} -> {ready, sent}\nclear: {sent, key} -> {key}\nstart: {ready, key}\n\
    run round: send, clear\nrun idle:\n";

#[test]
fn the_rule_is_told_where_a_table_states_one() {
    let folder = Folder::new().unwrap();
    let ran = |command: &str, text: &str| {
        folder.write("t.txt", text.as_bytes()).unwrap();
        let ran = ran_in(folder.path(), &[command, "t.txt"]);
        assert_eq!((ran.status, ran.err.as_str()), (0, ""));
        ran.out
    };
    let judged = ran("judge", PARTING);
    let accepted = "accepted: 3 conditions and 2 events\n";
    let (first, rest) = judged.split_at(accepted.len());
    assert_eq!(first, accepted);
    let played = "run `round`: 2 steps, ends in {ready, key}, lifts\n";
    assert!(
        rest.starts_with("unfolds to ") && rest.contains(played),
        "{rest}"
    );
    let paper = ran("judge", &format!("rule: paper\n{PARTING}"));
    assert_eq!(paper, format!("{accepted}follows the paper's rule\n{rest}"));
    let old = ran("judge", &format!("{PARTING}rule: old\n"));
    assert!(
        old.starts_with(&format!("{accepted}follows the old rule\nunfolds to ")),
        "{old}"
    );
    assert!(old.contains(
        "run `round`: refused 12 at 0 by 0\n  what: condition 0 `ready` still holds, and the event would set it again: contact; \
         it is a precondition too, but the table follows the old rule\n  where: step 0 of run `round`"
    ), "{old}");
    let unfolded = ran("unfold", PARTING);
    let (counts, lists) = unfolded.split_at(unfolded.find("\n\n").unwrap() + 1);
    assert_eq!(
        ran("unfold", &format!("{PARTING}rule: 0\n")),
        format!("{counts}follows the paper's rule\n{lists}")
    );
    assert_eq!(
        ran("unfold", &format!("{PARTING}rule: 1\n")),
        format!("{counts}follows the old rule; copies of persistent conditions keep the paper's\n{lists}")
    );
}

#[test]
fn a_table_with_a_rule_is_packed_shown_and_listed() {
    let folder = Folder::new().unwrap();
    let at = folder.path();
    for (rule, byte) in [("old", 1), ("paper", 0)] {
        let text = format!("{PARTING}rule: {rule}\n");
        folder.write("t.txt", text.as_bytes()).unwrap();
        assert_eq!(ran_in(at, &["pack", "t.txt"]).status, 0);
        let packed = fs::read(at.join("t.net.bin")).unwrap();
        assert_eq!(packed[..5], [1, 0, 6, 0, byte]);
        let shown = ran_in(at, &["show", "t.net.bin"]).out;
        assert!(
            shown.starts_with(&format!("rule: {rule}\n\nconditions: 0, 1, 2 [p]\n")),
            "{shown}"
        );
        folder.write("again.txt", shown.as_bytes()).unwrap();
        assert_eq!(ran_in(at, &["pack", "again.txt"]).status, 0);
        assert_eq!(fs::read(at.join("again.net.bin")).unwrap(), packed);
        let own = ran_in(at, &["show", "t.txt"]).out;
        assert!(
            own.starts_with(&format!("rule: {rule}\n\nconditions:\n    ready\n")),
            "{own}"
        );
        let idle = ran_in(at, &["list", "t.txt", "idle"]);
        assert_eq!((idle.status, idle.out.lines().count()), (0, 2));
    }
    let (out, err) = refused(at, &["pack", "t.net.bin"]);
    assert_eq!(out, "");
    assert!(
        err.ends_with("this is no text table; it looks like a table of records\n"),
        "{err}"
    );
    let needs = ran_in(at, &["list", "t.net.bin"]);
    assert!(
        needs
            .err
            .contains("so no run stands in it and RUN must be given\n"),
        "{}",
        needs.err
    );
}

#[test]
fn a_step_that_the_old_rule_stops_is_told() {
    let (out, err, judged) = told_of_run(&format!("rule: old\n{PARTING}"));
    assert_eq!(out, "refused 12 at 0 by 0\n");
    let what = "  what: condition 0 `ready` still holds, and the event would set it again: contact; \
                it is a precondition too, but the table follows the old rule\n  where: step 0 of run `round`";
    assert!(err.starts_with(what), "{err}");
    assert!(judged.contains(what), "{judged}");
}

#[test]
fn a_repeat_that_does_not_lift_is_told_by_what_it_marks_for_another() {
    let begins = "conditions: a, b [p], c [p], d [p], e\n\
                  x: {a, b} -> {a, b, c, d, e}\ny: {b, c} -> {}\n";
    for (rest, line, what) in [
        (
            "z: {e} -> {}\nstart: {a, b}\nrun r: x, y, z, x\n",
            "refused 15 at 3\n",
            "event 0 `x` came before, at step 0, and marks condition 1 `b`, which event 1 `y` uses",
        ),
        (
            "z: {e} -> {}\nstart: {a, b}\nrun r: x, z, x, y, z, z\n",
            "refused 11 at 5 by 4\n",
            "condition 4 `e` does not hold, and the event needs it",
        ),
        (
            "z: {a, c, d} -> {a, d}\n3: {a} -> {a, c}\nstart: {a, c, d}\nrun r: z, z, 3, 3\n",
            "refused 15 at 3\n",
            "event 3 came before, at step 2, and marks condition 2 `c`, which event 1 `y` uses",
        ),
    ] {
        let (out, err, judged) = told_of_run(&format!("{begins}{rest}"));
        assert_eq!(out, line);
        assert!(err.starts_with(&format!("  what: {what}")), "{err}");
        let is_repeat = line.starts_with("refused 15 ");
        let has_run = !err.contains("; the unfolded net has no such run\n");
        assert_eq!(has_run, !is_repeat);
        assert_eq!(judged.contains(", does not lift: refused 15 "), is_repeat);
        assert!(
            judged.contains(&format!("{line}  what: {what}")),
            "{judged}"
        );
    }
}

#[test]
fn a_repeat_of_records_is_told_by_numbers() {
    let folder = Folder::new().unwrap();
    let net = fs::read(Path::new(TOP).join("examples/net-b.txt")).unwrap();
    let table = text::read(&net).unwrap();
    folder.write("net.bin", &table.bytes()).unwrap();
    let twice = &table.runs[table.run_called("twice").unwrap()];
    folder.write("twice.bin", &twice.bytes()).unwrap();
    let (out, err) = refused(folder.path(), &["list", "net.bin", "twice.bin"]);
    assert_eq!(out, "refused 15 at 1\n");
    assert_eq!(
        err,
        "  what: event 0 came before, at step 0, and marks condition 1, which event 1 uses; the unfolded net has no such run\n  \
         where: step 1 of twice.bin, counted from 0: event 0\n"
    );
}

#[test]
fn a_stopped_step_of_records_is_told_by_its_condition() {
    let folder = files_of_many_kinds();
    folder
        .write("early.bin", &[4, 0, 4, 0, 0, 0, 2, 0])
        .unwrap();
    let (out, err) = refused(folder.path(), &["list", "net.bin", "early.bin"]);
    assert_eq!(out, "refused 11 at 1 by 3\n");
    assert_eq!(
        err,
        "  what: condition 3 does not hold, and the event needs it\n  \
         where: step 1 of early.bin, counted from 0: event 2\n"
    );
}

#[test]
fn text_with_a_control_character_is_told() {
    let folder = Folder::new().unwrap();
    folder
        .write("t.txt", b"conditions: a\x0c\nstart: {}\n")
        .unwrap();
    let (out, err) = refused(folder.path(), &["judge", "t.txt"]);
    assert_eq!(out, "refused 1 at 0\n");
    assert!(
        err.ends_with(
            "the first record; it is not taken as text, since byte 13 is a control character\n"
        ),
        "{err}"
    );
    for (bytes, why) in [
        (&b""[..], "the file is empty"),
        (
            b"conditions: a\0\nstart: {}\n",
            "it is not taken as text, since byte 13 is a control character",
        ),
        (
            b"\xff\xfec\0o\0n\0",
            "it looks like text in UTF-16, which must be saved as UTF-8",
        ),
    ] {
        folder.write("u.txt", bytes).unwrap();
        let (_, err) = refused(folder.path(), &["judge", "u.txt"]);
        assert!(
            err.ends_with(&format!("the first record; {why}\n")),
            "{err}"
        );
    }
    let packed = ran_in(folder.path(), &["pack", "t.txt"]);
    let said = "dovetrellis: t.txt: byte 13 is a control character, so this is no text\n";
    assert_eq!(
        (packed.status, packed.out.as_str(), packed.err.as_str()),
        (1, "", said)
    );
}

/// A folder with net A as text and as records, its run, an empty file, text in UTF-16, a link to nothing and a folder.
fn files_of_many_kinds() -> Folder {
    let folder = Folder::new().unwrap();
    let net = fs::read(Path::new(TOP).join("examples/net-a.txt")).unwrap();
    let table = text::read(&net).unwrap();
    folder.write("net.txt", &net).unwrap();
    folder.write("net.bin", &table.bytes()).unwrap();
    folder.write("round.bin", &table.runs[0].bytes()).unwrap();
    folder.write("empty.bin", b"").unwrap();
    folder.write("wide.txt", b"\xff\xfec\0o\0n\0").unwrap();
    std::os::unix::fs::symlink("nowhere", folder.path().join("link")).unwrap();
    fs::create_dir(folder.path().join("inner")).unwrap();
    folder
}

#[test]
fn why_a_file_cannot_be_read_is_told() {
    let folder = files_of_many_kinds();
    for (path, said) in [
        ("nothing-like-it.txt", "there is no such file"),
        ("nte.txt", "there is no such file (is 'net.txt' meant?)"),
        ("inner/x/net.txt", "there is no folder 'inner/x'"),
        (
            "innre/net.txt",
            "there is no folder 'innre' (is 'inner' meant?)",
        ),
        ("inner", "this is a folder, and a file is needed"),
        ("net.txt/x", "a file stands where its folder should"),
        ("link", "this is a link to a file that is not there"),
    ] {
        for command in ["judge", "list", "pack", "show", "unfold", "export"] {
            let ran = ran_in(folder.path(), &[command, path]);
            let said = format!("dovetrellis: {path}: {said}\n");
            assert_eq!((ran.status, ran.out.as_str(), ran.err), (2, "", said));
        }
    }
    let empty = ran_in(folder.path(), &["judge", ""]);
    assert_eq!(empty.err, "dovetrellis: the name of a file is empty\n");
    let link = ran_in(folder.path(), &["list", "net.txt", "link"]);
    assert!(
        link.err
            .contains("'link' is neither a run nor a file; the runs"),
        "{}",
        link.err
    );
    let endless = ran_in(folder.path(), &["judge", "/dev/zero"]);
    let said = "dovetrellis: /dev/zero: over 64000000 bytes, and files are taken up to that\n";
    assert_eq!((endless.status, endless.err.as_str()), (2, said));
}

#[test]
fn what_cannot_be_written_is_told() {
    let folder = files_of_many_kinds();
    fs::create_dir(folder.path().join("net.net.bin")).unwrap();
    let packed = ran_in(folder.path(), &["pack", "net.txt"]);
    let said = "dovetrellis: ./net.net.bin cannot be written: Is a directory\n";
    assert_eq!((packed.status, packed.err.as_str()), (2, said));
    let full = fs::File::options().write(true).open("/dev/full").unwrap();
    let mut command = Command::new(env!("CARGO_BIN_EXE_dovetrellis"));
    let output = command.arg("help").stdout(full).output().unwrap();
    let said = "dovetrellis: the answer cannot be written: No space left on device\n";
    assert_eq!(String::from_utf8_lossy(&output.stderr), said);
    assert_eq!(output.status.code(), Some(2));
}

#[test]
fn a_step_that_is_no_event_is_told_with_the_events() {
    let folder = Folder::new().unwrap();
    for (events, said) in [
        ("", "there is no such event: the table has none\n"),
        (
            "x: {a} -> {}\ny: {a} -> {}\n",
            "there is no such event: the table has events 0 to 1\n",
        ),
    ] {
        let text = format!("conditions: a\n{events}start: {{}}\nrun r: 2\n");
        folder.write("t.txt", text.as_bytes()).unwrap();
        let (out, err) = refused(folder.path(), &["list", "t.txt"]);
        assert_eq!(out, "refused 10 at 0\n");
        assert!(err.contains(said), "{err}");
        let judged = ran_in(folder.path(), &["judge", "t.txt"]).out;
        assert!(judged.contains(said), "{judged}");
    }
}

#[test]
fn files_in_each_others_place_are_told() {
    let folder = files_of_many_kinds();
    for (words, said) in [
        (
            &["list", "net.bin"][..],
            "net.bin is no text, so no run stands in it and RUN must be given\n",
        ),
        (
            &["list", "round.bin"],
            "RUN must be given; it looks like the record of a run\n",
        ),
        (
            &["list", "empty.bin"],
            "RUN must be given; the file is empty\n",
        ),
        (
            &["list", "round", "net.txt"],
            "'round' is no file; the table comes first, then the run\n",
        ),
        (
            &["list", "net.bin", "nite"],
            "'nite' is neither a run nor a file; net.bin is no text, so its runs are files\n",
        ),
        (
            &["list", "net.bin", "ruond.bin"],
            "nor a file (is 'round.bin' meant?); net.bin is no text",
        ),
        (
            &["pack", "net.bin"],
            "net.bin: this is no text table; it looks like a table of records\n",
        ),
        (
            &["pack", "round.bin"],
            "round.bin: this is no text table; it looks like the record of a run\n",
        ),
        (
            &["pack", "wide.txt"],
            "it looks like text in UTF-16, which must be saved as UTF-8\n",
        ),
        (
            &["judge", "round.bin"],
            "byte 0 of round.bin, the first record; it looks like the record of a run\n",
        ),
        (
            &["list", "round.bin", "net.bin"],
            "byte 0 of round.bin, the first record; it looks like the record of a run\n",
        ),
        (
            &["list", "net.txt", "net.bin"],
            "byte 0 of net.bin; it looks like a table of records\n",
        ),
        (
            &["show", "net.bin", "net.bin"],
            "byte 0 of net.bin; it looks like a table of records\n",
        ),
        (
            &["list", "net.bin", "empty.bin"],
            "byte 0 of empty.bin; the file is empty\n",
        ),
    ] {
        let ran = ran_in(folder.path(), words);
        assert!(
            ran.status > 0 && ran.err.contains(said),
            "{words:?}: {}",
            ran.err
        );
    }
}

#[test]
fn a_run_that_is_refused_is_not_taken_for_the_table() {
    let folder = Folder::new().unwrap();
    folder.write("odd.bin", &[1, 0, 4, 0, 0]).unwrap();
    folder.write("cut.bin", &[4, 0, 4, 0, 0]).unwrap();
    let net = format!("{TOP}/examples/net-a.txt");
    let (out, err) = refused(folder.path(), &["list", &net, "odd.bin"]);
    assert_eq!(out, "refused 3 at 0\n");
    let said = "  what: the record's length is not right for its kind: a run has 2 bytes for each step, and at most 4096 steps\n  \
        where: byte 0 of odd.bin\n";
    assert_eq!(err, said);
    let (out, err) = refused(folder.path(), &["list", &net, "cut.bin"]);
    assert_eq!(out, "refused 1 at 0\n");
    assert!(err.ends_with("  where: byte 0 of cut.bin\n"), "{err}");
    folder.write("more.bin", &[0, 0, 4, 0, 0]).unwrap();
    let (out, err) = refused(folder.path(), &["list", &net, "more.bin"]);
    assert_eq!(out, "refused 9 at 4\n");
    assert!(err.ends_with("  where: byte 4 of more.bin\n"), "{err}");
    folder.write("lifted.bin", &[0, 0, 5, 0]).unwrap();
    let (out, err) = refused(folder.path(), &["list", &net, "lifted.bin"]);
    assert_eq!(out, "refused 2 at 0\n");
    assert!(
        err.contains(" not allowed here: a run is one record of kind 4\n"),
        "{err}"
    );
    let steps = "x, ".repeat(4097);
    let text = format!("conditions: a\nx: {{}} -> {{a}}\nstart: {{}}\nrun long: {steps}\n");
    folder.write("t.txt", text.as_bytes()).unwrap();
    let (out, err) = refused(folder.path(), &["pack", "t.txt"]);
    assert!(out.ends_with("\nrefused 3 at 0\n"), "{out}");
    assert!(
        err.ends_with("  where: run `long`, whose steps begin at line 4, column 11 of t.txt\n"),
        "{err}"
    );
}

#[test]
fn too_long_a_file_is_told_by_its_bytes() {
    let folder = Folder::new().unwrap();
    let events: String = (0..128)
        .map(|e| format!("{e}: {{0..255}} -> {{}}\n"))
        .collect();
    let steps = "0, ".repeat(4097);
    let table = format!("conditions: 0..255\n{events}start: {{}}\nrun r: 0\n");
    folder.write("t.txt", table.as_bytes()).unwrap();
    let (out, err) = refused(folder.path(), &["list", "t.txt"]);
    assert_eq!(out, "refused 19 at 0\n");
    assert!(
        err.ends_with("  where: the records of t.txt, 66824 bytes\n"),
        "{err}"
    );
    let table = format!("conditions: a\n0: {{a}} -> {{a}}\nstart: {{a}}\nrun r: {steps}\n");
    folder.write("t.txt", table.as_bytes()).unwrap();
    let (out, err) = refused(folder.path(), &["list", "t.txt"]);
    assert_eq!(out, "refused 19 at 0\n");
    assert!(
        err.ends_with("  where: run `r`, 8198 bytes as a record\n"),
        "{err}"
    );
}

#[test]
fn what_is_due_in_place_of_a_wrong_record_is_told() {
    let folder = Folder::new().unwrap();
    for (bytes, what) in [
        (
            &[0, 0, 7, 0][..],
            "not allowed here: a table begins with its Conditions, kind 1, or with a Rule, kind 6\n",
        ),
        (&[0, 0, 6, 0], "its kind: a rule is 1 byte\n"),
        (
            &[1, 0, 6, 0, 2],
            "what: the rule's byte is neither 0, the paper's rule, nor 1, the old rule\n",
        ),
        (
            &[1, 0, 6, 0, 1, 1, 0, 6, 0, 1],
            "not allowed here: after the Rule the Conditions, kind 1, are due\n",
        ),
        (
            &[1, 0, 1, 0, 0, 1, 0, 6, 0, 1],
            "not allowed here: a Rule stands first or nowhere; an Event, kind 2, or the Marking, kind 3, is due\n",
        ),
        (&[0, 0, 1, 0], "its kind: there are 1 to 256 conditions\n"),
        (
            &[1, 0, 1, 0, 0, 0, 0, 4, 0],
            "not allowed here: an Event, kind 2, or the Marking, kind 3, is due\n",
        ),
        (
            &[1, 0, 1, 0, 0, 2, 0, 2, 0, 0, 0],
            "its kind: an event has 4 bytes and 2 for each condition that it counts\n",
        ),
        (
            &[1, 0, 1, 0, 0, 1, 0, 3, 0, 0],
            "its kind: a marking has 2 bytes for each condition\n",
        ),
    ] {
        folder.write("t.bin", bytes).unwrap();
        let (_, err) = refused(folder.path(), &["judge", "t.bin"]);
        assert!(err.contains(what), "{err}");
    }
}

#[test]
fn a_file_that_the_library_is_not_asked_with_is_told() {
    let folder = Folder::new().unwrap();
    folder.write("huge.bin", &[1; 4_000_001]).unwrap();
    let told = ran_in(folder.path(), &["judge", "huge.bin"]);
    assert_eq!((told.status, told.out.as_str()), (2, ""));
    assert!(told.err.contains("huge.bin: 4000001 bytes"), "{}", told.err);
}
