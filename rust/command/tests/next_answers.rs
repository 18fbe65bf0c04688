//! The command as people run it, answering as it is meant for the next version, and what the pages show of it. The environment names the
//! driver (DOVETRELLIS_DRIVER) and the listing program (DOVETRELLIS_LIST), both run by the words of RATTLE_RUN.

use std::fs;
use std::path::Path;
use std::process::Command;

use command::lister::Folder;
use command::next::VARIABLE as NEXT;

/// The top of the repository.
const TOP: &str = concat!(env!("CARGO_MANIFEST_DIR"), "/../..");

/// What came of a command.
struct Ran {
    out: String,
    err: String,
    status: i32,
}

/// Runs the command in a folder.
fn ran_in(folder: &Path, words: &[&str]) -> Ran {
    for named in ["DOVETRELLIS_DRIVER", "DOVETRELLIS_LIST"] {
        assert!(
            std::env::var_os(named).is_some(),
            "{named} names a program, as .ci/run does"
        );
    }
    let program = env!("CARGO_BIN_EXE_dovetrellis");
    let mut command = Command::new(program);
    command.env(NEXT, "1");
    command
        .args(words)
        .current_dir(folder)
        .env("DOVETRELLIS_TOP", TOP);
    let output = command.env_remove("DOVETRELLIS_SCRIPT").output().unwrap();
    Ran {
        out: String::from_utf8(output.stdout).unwrap(),
        err: String::from_utf8(output.stderr).unwrap(),
        status: output.status.code().unwrap(),
    }
}

/// Runs the command among the examples.
fn ran(words: &[&str]) -> Ran {
    ran_in(&Path::new(TOP).join("examples"), words)
}

/// What a command that must be fine writes.
fn fine(words: &[&str]) -> String {
    let ran = ran(words);
    assert_eq!(
        (ran.status, ran.err.as_str()),
        (0, ""),
        "{words:?}: {}",
        ran.out
    );
    ran.out
}

/// What a command says that must end with a status and write nothing else.
fn ends(words: &[&str], status: i32) -> String {
    let ran = ran(words);
    assert_eq!(
        (ran.status, ran.out.as_str()),
        (status, ""),
        "{words:?}: {}",
        ran.err
    );
    ran.err
}

/// The refusal and what is said of it.
fn refused(folder: &Path, words: &[&str]) -> (String, String) {
    let ran = ran_in(folder, words);
    assert_eq!(ran.status, 1, "{words:?}: {}{}", ran.out, ran.err);
    (ran.out, ran.err)
}

const LISTING: &str = "start 0\n0 0 0 1,2\n1 1 2 2,3\n2 2 3 1,2\n3 1 2 2,3\nend unfolded 3,4\n";

#[test]
fn help_and_wrong_use() {
    assert!(fine(&["help"]).contains("dovetrellis judge TABLE"));
    assert_eq!(ends(&[], 2), fine(&["--help"]));
    for (words, said) in [
        (&["examine"][..], "there is no command 'examine'"),
        (&["-v"], "there is no command '-v' and no such option"),
        (&["net-a.txt"], "there is no command 'net-a.txt'; for the file: 'judge net-a.txt'"),
        (&["list", "-v", "net-a.txt"], "there is no option '-v' here; a file of that name is './-v'"),
        (&["pack", "-v", "net-a.txt"], "there is no option '-v' here; a file of that name is './-v'"),
        (&["help", "list", "judge"], "'judge' is one word too many"),
        (&["judge"], "TABLE is missing"),
        (&["judge", "net-a.txt", "x"], "'x' is neither a run nor a file; the runs of net-a.txt are: round, empty, early, unknown"),
        (&["judge", "net-a.txt", "--stric"], "there is no option '--stric' here (is '--strict' meant?)"),
        (&["judge", "net-a.txt", "--names"], "there is no option '--names' here; a file of that name is './--names'"),
        (&["export"], "TABLE is missing"),
        (&["export", "net-a.txt", "net-a.pnml"], "'net-a.pnml' is one word too many"),
        (&["witness"], "TABLE is missing"),
        (&["witness", "net-a.txt"], "TRACE is missing"),
        (&["witness", "-", "-"], "'-' can be given once, as the standard input is read once"),
        (&["witness", "net-a.txt", "-v"], "there is no option '-v' here; a file of that name is './-v'"),
        (&["witness", "net-a.txt", "-", "x"], "'x' is one word too many"),
        (&["unfold", "net-a.txt", "round"], "'round' is one word too many"),
        (&["enabled", "net-a.txt", "round", "--at", "{0}"], "a run and --at both say where; one of them will do"),
        (&["fire", "net-a.txt", "0", "--at"], "nothing comes after --at"),
        (&["exchange", "net-a.txt", "round", "first"], "'first' is no number of a step, counted from 0"),
        (&["install", "here"], "only the script at the top of the sources does this"),
        (&["pack", "net-a.txt", "-o"], "a folder is missing after -o"),
        (&["pack", "net-a.txt", "-o", "a", "-o", "b"], "-o is there twice"),
        (&["list", "limits-over.txt"], "limits-over.txt has no run, so RUN must be given"),
        (&["list", "net-a.txt", "rond"], "'rond' is neither a run nor a file (is 'round' meant?); the runs of net-a.txt are: round, empty, early, unknown"),
    ] {
        assert_eq!(ends(words, 2), format!("dovetrellis: {said}\n'dovetrellis help' tells the commands\n"));
    }
    assert!(ends(&["pack", "net-a.txt", "-o", "net-b.txt"], 2)
        .starts_with("dovetrellis: 'net-b.txt' cannot be a folder: a file has that name\n"));
}

#[test]
fn help_tells_of_one_command() {
    let list = fine(&["help", "list"]);
    assert!(
        list.contains("does not lift; with\n") && list.contains("Where DOVETRELLIS_NEXT is 1 "),
        "{list}"
    );
    assert!(!list.contains("dovetrellis judge"), "{list}");
    for command in [
        "list", "judge", "replay", "fire", "enabled", "exchange", "unfold", "export", "witness",
        "pack", "show",
    ] {
        let said = fine(&["help", command]);
        assert!(
            said.starts_with(&format!("  dovetrellis {command} ")),
            "{said}"
        );
        assert_eq!(fine(&[command, "--help"]), said);
        assert_eq!(fine(&[command, "net-a.txt", "-h"]), said);
    }
    for command in ["install", "build", "help"] {
        let said = fine(&["help", command]);
        assert!(
            said.starts_with(&format!("  dovetrellis {command} ")),
            "{said}"
        );
    }
}

#[test]
fn the_command_that_is_meant_is_named() {
    for (word, meant) in [
        ("jugde", "judge"),
        ("judg", "judge"),
        ("lsit", "list"),
        ("List", "list"),
        ("shwo", "show"),
        ("reply", "replay"),
        ("enable", "enabled"),
        ("exchagne", "exchange"),
        ("instal", "install"),
        ("unflod", "unfold"),
        ("exprot", "export"),
        ("witnes", "witness"),
        ("bulid", "build"),
        ("--hlep", "help"),
    ] {
        let said = format!("dovetrellis: there is no command '{word}' (is '{meant}' meant?)\n");
        assert!(ends(&[word, "net-a.txt"], 2).starts_with(&said));
        assert!(ends(&["help", word], 2).starts_with(&said));
    }
}

#[test]
fn refused_runs_are_told() {
    let examples = Path::new(TOP).join("examples");
    let (out, err) = refused(&examples, &["list", "changeover.txt", "hasty"]);
    assert_eq!(out, "refused 11 at 11 by 13\n");
    assert_eq!(
        err,
        "  what: condition 13 `reference-locked` does not hold, and the event needs it\n  \
         where: step 11 of run `hasty`, counted from 0: event 10 `connect-b`, line 53, column 16 of changeover.txt\n  \
         before: steps 1 to 10: open-log, set-time, load-key, set-frequency, set-power, warm-b, tune-filter, match-load, route-audio, \
         release-a\n  \
         held: {a-warm, b-warm, combiner-free, time-set, key-loaded, frequency-set, power-set, filter-tuned, load-matched, \
         audio-routed, log-opened, signed-in}\n"
    );
    let (out, err) = refused(&examples, &["list", "changeover.txt", "careful"]);
    assert_eq!(out, "refused 15 at 3\n");
    assert_eq!(
        err,
        "  what: event 0 `set-time` came before, at step 2, and marks condition 7 `time-set`, which event 10 `connect-b` uses; \
         the unfolded net has no such run\n  \
         where: step 3 of run `careful`, counted from 0: event 0 `set-time`, line 56, column 34 of changeover.txt\n  \
         plays: it ends in {a-feeds, b-off, time-set, log-opened, signed-in}; 'list --names' lists it\n"
    );
    let (out, err) = refused(&examples, &["list", "unused.txt"]);
    assert_eq!(out, "refused 13 at 0\n");
    assert!(
        err.contains("where: event 0, line 5 of unused.txt\n"),
        "{err}"
    );
}

/// What stands between the fences of a page, in order.
fn blocks(page: &str) -> Vec<String> {
    let text = fs::read_to_string(Path::new(TOP).join(page)).unwrap();
    text.split("```\n")
        .skip(1)
        .step_by(2)
        .map(String::from)
        .collect()
}

#[test]
fn the_story_of_the_hand_control_is_judged_strictly() {
    let story = blocks("examples/README.md");
    let strictly = ran_in(Path::new(TOP), &["judge", "examples/hand.txt", "--strict"]);
    assert_eq!(strictly.out, story[story.len() - 3]);
    assert_eq!((strictly.err.as_str(), strictly.status), ("", 0));
}

/// The lines that a page shows as typed, each with the lines that are shown as written then.
fn typed(page: &str) -> Vec<(String, String)> {
    let text = fs::read_to_string(Path::new(TOP).join(page)).unwrap();
    let shown = |line: &str| line.strip_prefix("    ").map(|line| format!("{line}\n"));
    let written = |rest: &str| rest.lines().map_while(shown).collect::<String>();
    text.split("\n    $ ")
        .skip(1)
        .filter_map(|typed| typed.split_once('\n'))
        .map(|(line, rest)| (line.to_string(), written(rest)))
        .collect()
}

/// A machine may have no Python; then a line that needs it is not tried.
fn can_be_typed(line: &str) -> bool {
    let python = Command::new("python3").arg("--version").output();
    !line.contains("| python3 ") || python.is_ok()
}

#[test]
fn what_the_page_shows_as_typed_writes_what_it_shows() {
    let typed = typed("README.md");
    assert_eq!(typed.len(), 4);
    for (line, written) in typed.into_iter().filter(|(line, _)| can_be_typed(line)) {
        let program = env!("CARGO_BIN_EXE_dovetrellis");
        let line = line.replace("./dovetrellis", program);
        let mut shell = Command::new("sh");
        shell.args(["-c", &format!("({line}) 2>&1")]);
        let output = shell
            .current_dir(TOP)
            .env_remove("DOVETRELLIS_SCRIPT")
            .output()
            .unwrap();
        assert_eq!(String::from_utf8_lossy(&output.stdout), written, "{line}");
    }
}

#[test]
fn the_version_is_told() {
    let version = env!("CARGO_PKG_VERSION");
    let mut command = Command::new(env!("CARGO_BIN_EXE_dovetrellis"));
    let told = |command: &mut Command| {
        let output = command.output().unwrap();
        String::from_utf8(output.stdout).unwrap()
    };
    command.arg("--version").env_remove("DOVETRELLIS_BUILT");
    assert_eq!(told(&mut command), format!("dovetrellis {version}\n"));
    command.env("DOVETRELLIS_BUILT", "commit 1234567, kit 8");
    let built = format!("dovetrellis {version} (commit 1234567, kit 8)\n");
    assert_eq!(told(&mut command), built);
    assert_eq!(fine(&["-V"]), fine(&["--version"]));
}

#[test]
fn every_example_is_judged() {
    let judged = |name: &str| fine(&["judge", name]);
    assert_eq!(
        judged("net-e.txt"),
        "accepted: 3 conditions and 3 events\n\
         digest: sha256-288747048710d02f19b489fa46d8367e4fbcf8f9f72c3d8e016a787f8e57b1d8\n\
         unfolds to 5 conditions and 5 events\nthe unfolded net reaches every marking that the table reaches\n\
         run `first`: 3 steps, ends in {2}, lifts\nrun `second`: 3 steps, ends in {2}, lifts\nruns: 2 lift\n"
    );
    assert!(judged("net-d.txt").contains("unfolds to 31 conditions and 1035 events\n"));
    assert!(judged("limits.txt").contains(" and 65535 events\n"));
    assert!(judged("limits-over.txt").contains("does not unfold: refused 14 at 0\n"));
    assert!(judged("changeover.txt").contains("unfolds to 27 conditions and 1037 events\n"));
    assert!(judged("changeover.txt").contains(
        "run `hasty`: refused 11 at 11 by 13\n  \
         what: condition 13 `reference-locked` does not hold, and the event needs it\n"
    ));
    assert!(judged("unused.txt").contains(
        "run `once`: 1 step, ends in {0}, does not lift, as the table does not unfold\n"
    ));
    let told = judged("net-b.txt");
    assert!(
        told.contains(
            "run `twice`: 2 steps, ends in {0, 1}, does not lift: refused 15 at 1\n  \
             what: event 0 came before, at step 0, and marks condition 1, which event 1 uses; "
        ),
        "{told}"
    );
    assert!(
        judged("net-c.txt").ends_with("run `twice`: 2 steps, ends in {0}, lifts\nruns: 2 lift\n")
    );
}

#[test]
fn what_is_packed_is_shown() {
    let folder = Folder::new().unwrap();
    let at = folder.path();
    let example = format!("{TOP}/examples/net-a.txt");
    let ran = ran_in(at, &["pack", &example, "-o", "packed"]);
    let written = "made the folder packed\npacked/net-a.net.bin (54 bytes)\n\
        digest: sha256-203391a34d28a57df9cb93ca64c5bf522bddc1caab744995f97c3a715a6394e7\npacked/net-a.round.run.bin (12 bytes)\npacked/net-a.empty.run.bin (4 bytes)\n\
        packed/net-a.early.run.bin (8 bytes)\npacked/net-a.unknown.run.bin (8 bytes)\n";
    assert_eq!((ran.status, ran.out.as_str()), (0, written), "{}", ran.err);
    let (net, round) = ("packed/net-a.net.bin", "packed/net-a.round.run.bin");
    assert_eq!(ran_in(at, &["list", net, round]).out, LISTING);
    let shown = ran_in(at, &["show", net, round]).out;
    assert!(
        shown.ends_with("\nstart: {0}\n\nrun: 0, 1, 2, 1\n"),
        "{shown}"
    );
    folder.write("again.txt", shown.as_bytes()).unwrap();
    assert_eq!(ran_in(at, &["pack", "again.txt"]).status, 0);
    let read = |name: &str| fs::read(at.join(name)).unwrap();
    assert_eq!(read("again.net.bin"), read(net));
    assert_eq!(read("again.0.run.bin"), read(round));
}

#[test]
fn refusals_of_a_text_name_its_lines() {
    let folder = Folder::new().unwrap();
    for (text, line, place) in [
        (
            "conditions:\nstart: {}\n",
            "refused 3 at 0\n",
            "the conditions of t.txt\n",
        ),
        (
            "conditions: a\nx: {a} -> {1}\nstart: {}\n",
            "refused 5 at 5\n",
            "event 0 `x`, line 2, column 12 of t.txt\n",
        ),
        (
            "conditions: a\n0: {} -> {}\nstart: {}\n",
            "refused 7 at 5\n",
            "event 0, line 2 of t.txt\n",
        ),
        (
            "conditions: a\nstart: {a, 7}\n",
            "refused 5 at 5\n",
            "`start:`, line 2, column 12 of t.txt\n",
        ),
        (
            "conditions: 0..16 [p]\n\nx: {0} -> {}\ny: {0..16} -> {}\nstart: {}\n",
            "refused 8 at 31\n",
            "event 1 `y`, line 4 of t.txt\n",
        ),
        (
            "conditions: a\n\nrule: 2\nstart: {}\n",
            "refused 4 at 0\n",
            "`rule:`, line 3 of t.txt\n",
        ),
        (
            "rule: old\nconditions: a\nx: {a} -> {1}\nstart: {}\n",
            "refused 5 at 10\n",
            "event 0 `x`, line 3, column 12 of t.txt\n",
        ),
    ] {
        folder.write("t.txt", text.as_bytes()).unwrap();
        for command in ["judge", "unfold", "show"] {
            let (out, err) = refused(folder.path(), &[command, "t.txt"]);
            assert_eq!(out, line, "{text}");
            assert!(err.ends_with(&format!("\n  where: {place}")), "{err}");
        }
        let (out, _) = refused(folder.path(), &["pack", "t.txt"]);
        assert!(
            out.starts_with("./t.net.bin (") && out.ends_with(line),
            "{out}"
        );
    }
}

/// What `list` answers and says of the first run of a text, and what `judge` answers of it.
fn told_of_run(text: &str) -> (String, String, String) {
    let folder = Folder::new().unwrap();
    folder.write("t.txt", text.as_bytes()).unwrap();
    let (out, err) = refused(folder.path(), &["list", "t.txt"]);
    let judged = ran_in(folder.path(), &["judge", "t.txt"]);
    assert_eq!((judged.status, judged.err.as_str()), (0, ""));
    (out, err, judged.out)
}

#[test]
fn a_stopped_step_is_told_by_its_condition() {
    for (table, line, what, lines) in [
        (
            "conditions: a, b, c [p]\nx: {a} -> {c, b}\nstart: {a, b, c}\nrun r: x\n",
            "refused 12 at 0 by 1\n",
            "  what: condition 1 `b` still holds, and the event would set it again: contact\n",
            4,
        ),
        (
            "conditions: a, b, key-loaded [p]\nx: {a} -> {a}\ny: {a, b, key-loaded} -> {}\n\
             start: {a, b}\nrun r: x, x, y\n",
            "refused 11 at 2 by 2\n",
            "  what: condition 2 `key-loaded` does not hold, and the event needs it\n",
            4,
        ),
        (
            "conditions: 0..3\n0: {0} -> {1}\n1: {1, 2, 3} -> {}\nstart: {0}\nrun r: 0, 1\n",
            "refused 11 at 1 by 2\n",
            "  what: condition 2 does not hold, and the event needs it\n",
            5,
        ),
        (
            "conditions: 0..3\n0: {3} -> {0, 1, 2, 3}\nstart: {2, 1, 3}\nrun r: 0\n",
            "refused 12 at 0 by 1\n",
            "  what: condition 1 still holds, and the event would set it again: contact\n",
            4,
        ),
        (
            "conditions: idle, on\nx: {idle} -> {on}\nstart: {}\nrun r: x\n",
            "refused 11 at 0 by 0\n",
            "  what: condition 0 `idle` does not hold, and the event needs it\n",
            4,
        ),
    ] {
        let (out, err, judged) = told_of_run(table);
        assert_eq!(out, line);
        assert!(
            err.starts_with(&format!("{what}  where: step ")) && err.lines().count() == lines,
            "{err}"
        );
        let both = format!("run `r`: {line}{what}  where: step ");
        assert!(judged.contains(&both), "{judged}");
    }
}

/// A table with which the two rules part, and two runs.
const PARTING: &str = "conditions: ready, sent, key [p]\n\
    send: {ready, key} -> {ready, sent}\nclear: {sent, key} -> {key}\nstart: {ready, key}\n\
    run round: send, clear\nrun idle:\n";

/// What `judge` answers but for the digest, which stands on its second line and differs with the rule.
fn without_digest(told: &str) -> String {
    let lines = told.lines().enumerate();
    let kept = lines.filter(|(at, line)| *at != 1 || !line.starts_with("digest: sha256-"));
    kept.map(|(_, line)| format!("{line}\n")).collect()
}

#[test]
fn the_rule_is_told_where_a_table_states_one() {
    let folder = Folder::new().unwrap();
    let ran = |command: &str, text: &str| {
        folder.write("t.txt", text.as_bytes()).unwrap();
        let ran = ran_in(folder.path(), &[command, "t.txt"]);
        assert_eq!((ran.status, ran.err.as_str()), (0, ""));
        ran.out
    };
    let judged = |text: &str| without_digest(&ran("judge", text));
    let bare = judged(PARTING);
    let accepted = "accepted: 3 conditions and 2 events\n";
    let (first, rest) = bare.split_at(accepted.len());
    assert_eq!(first, accepted);
    let played = "run `round`: 2 steps, ends in {ready, key}, lifts\n";
    assert!(
        rest.starts_with("unfolds to ") && rest.contains(played),
        "{rest}"
    );
    let paper = judged(&format!("rule: paper\n{PARTING}"));
    assert_eq!(paper, format!("{accepted}follows the paper's rule\n{rest}"));
    let old = judged(&format!("{PARTING}rule: old\n"));
    assert!(
        old.starts_with(&format!("{accepted}follows the old rule\nunfolds to ")),
        "{old}"
    );
    assert!(old.contains(
        "run `round`: refused 12 at 0 by 0\n  what: condition 0 `ready` still holds, and the event would set it again: contact; \
         it is a precondition too, but the table follows the old rule\n  where: step 0 of run `round`"
    ), "{old}");
    let unfolded = ran("unfold", PARTING);
    let (counts, lists) = unfolded.split_at(unfolded.find("\n\n").unwrap() + 1);
    assert_eq!(
        ran("unfold", &format!("{PARTING}rule: 0\n")),
        format!("{counts}follows the paper's rule\n{lists}")
    );
    assert_eq!(
        ran("unfold", &format!("{PARTING}rule: 1\n")),
        format!("{counts}follows the old rule; copies of persistent conditions keep the paper's\n{lists}")
    );
}

#[test]
fn a_table_with_a_rule_is_packed_shown_and_listed() {
    let folder = Folder::new().unwrap();
    let at = folder.path();
    for (rule, byte) in [("old", 1), ("paper", 0)] {
        let text = format!("{PARTING}rule: {rule}\n");
        folder.write("t.txt", text.as_bytes()).unwrap();
        assert_eq!(ran_in(at, &["pack", "t.txt"]).status, 0);
        let packed = fs::read(at.join("t.net.bin")).unwrap();
        assert_eq!(packed[..5], [1, 0, 6, 0, byte]);
        let shown = ran_in(at, &["show", "t.net.bin"]).out;
        assert!(
            shown.starts_with(&format!("rule: {rule}\n\nconditions: 0, 1, 2 [p]\n")),
            "{shown}"
        );
        folder.write("again.txt", shown.as_bytes()).unwrap();
        assert_eq!(ran_in(at, &["pack", "again.txt"]).status, 0);
        assert_eq!(fs::read(at.join("again.net.bin")).unwrap(), packed);
        let own = ran_in(at, &["show", "t.txt"]).out;
        assert!(
            own.starts_with(&format!(
                "table: {}\n\nrule: {rule}\n\nconditions:\n    ready\n",
                text::digest(&packed)
            )),
            "{own}"
        );
        let idle = ran_in(at, &["list", "t.txt", "idle"]);
        assert_eq!((idle.status, idle.out.lines().count()), (0, 2));
    }
    let (out, err) = refused(at, &["pack", "t.net.bin"]);
    assert_eq!(out, "");
    assert!(
        err.ends_with("this is no text table; it looks like a table of records\n"),
        "{err}"
    );
    let needs = ran_in(at, &["list", "t.net.bin"]);
    assert!(
        needs
            .err
            .contains("so no run stands in it and RUN must be given\n"),
        "{}",
        needs.err
    );
}

#[test]
fn a_repeat_of_records_is_told_by_numbers() {
    let folder = Folder::new().unwrap();
    let net = fs::read(Path::new(TOP).join("examples/net-b.txt")).unwrap();
    let table = text::read(&net).unwrap();
    folder.write("net.bin", &table.bytes()).unwrap();
    let twice = &table.runs[table.run_called("twice").unwrap()];
    folder.write("twice.bin", &twice.bytes()).unwrap();
    let (out, err) = refused(folder.path(), &["list", "net.bin", "twice.bin"]);
    assert_eq!(out, "refused 15 at 1\n");
    assert_eq!(
        err,
        "  what: event 0 came before, at step 0, and marks condition 1, which event 1 uses; the unfolded net has no such run\n  \
         where: step 1 of twice.bin, counted from 0: event 0\n  \
         plays: it ends in {0, 1}; 'list --names' lists it\n"
    );
}

#[test]
fn a_stopped_step_of_records_is_told_by_its_condition() {
    let folder = files_of_many_kinds();
    folder
        .write("early.bin", &[4, 0, 4, 0, 0, 0, 2, 0])
        .unwrap();
    let (out, err) = refused(folder.path(), &["list", "net.bin", "early.bin"]);
    assert_eq!(out, "refused 11 at 1 by 3\n");
    assert_eq!(
        err,
        "  what: condition 3 does not hold, and the event needs it\n  \
         where: step 1 of early.bin, counted from 0: event 2\n  \
         before: step 0: 0\n  held: {1, 2}\n"
    );
}

#[test]
fn text_with_a_control_character_is_told() {
    let folder = Folder::new().unwrap();
    folder
        .write("t.txt", b"conditions: a\x0c\nstart: {}\n")
        .unwrap();
    let (out, err) = refused(folder.path(), &["judge", "t.txt"]);
    assert_eq!(out, "refused 1 at 0\n");
    assert!(
        err.ends_with(
            "the first record; it is not taken as text, since byte 13 is a control character\n"
        ),
        "{err}"
    );
    for (bytes, why) in [
        (&b""[..], "the file is empty"),
        (
            b"conditions: a\0\nstart: {}\n",
            "it is not taken as text, since byte 13 is a control character",
        ),
        (
            b"conditions: a # b\x7f\nstart: {}\n",
            "it is not taken as text, since byte 17 is a control character",
        ),
        (
            b"\xff\xfec\0o\0n\0",
            "it looks like text in UTF-16, which must be saved as UTF-8",
        ),
    ] {
        folder.write("u.txt", bytes).unwrap();
        let (_, err) = refused(folder.path(), &["judge", "u.txt"]);
        assert!(
            err.ends_with(&format!("the first record; {why}\n")),
            "{err}"
        );
    }
    let packed = ran_in(folder.path(), &["pack", "t.txt"]);
    let said = "dovetrellis: t.txt: byte 13 is a control character, so this is no text\n";
    assert_eq!(
        (packed.status, packed.out.as_str(), packed.err.as_str()),
        (1, "", said)
    );
}

/// A folder with net A as text and as records, its run, an empty file, text in UTF-16, a link to nothing and a folder.
fn files_of_many_kinds() -> Folder {
    let folder = Folder::new().unwrap();
    let net = fs::read(Path::new(TOP).join("examples/net-a.txt")).unwrap();
    let table = text::read(&net).unwrap();
    folder.write("net.txt", &net).unwrap();
    folder.write("net.bin", &table.bytes()).unwrap();
    folder.write("round.bin", &table.runs[0].bytes()).unwrap();
    folder.write("empty.bin", b"").unwrap();
    folder.write("wide.txt", b"\xff\xfec\0o\0n\0").unwrap();
    std::os::unix::fs::symlink("nowhere", folder.path().join("link")).unwrap();
    fs::create_dir(folder.path().join("inner")).unwrap();
    folder
}

#[test]
fn what_cannot_be_written_is_told() {
    let folder = files_of_many_kinds();
    fs::create_dir(folder.path().join("net.net.bin")).unwrap();
    let packed = ran_in(folder.path(), &["pack", "net.txt"]);
    let said = "dovetrellis: ./net.net.bin cannot be written: Is a directory\n";
    assert_eq!((packed.status, packed.err.as_str()), (2, said));
    let said = "dovetrellis: the answer cannot be written: No space left on device\n";
    let top = Path::new(TOP).join("examples");
    for words in [
        &["help"][..],
        &["judge", "rack-old.txt"],
        &["judge", "--strict", "rack-old.txt"],
        &["judge", "--json", "--strict", "rack-old.txt"],
    ] {
        let full = fs::File::options().write(true).open("/dev/full").unwrap();
        let mut command = Command::new(env!("CARGO_BIN_EXE_dovetrellis"));
        command.env(NEXT, "1");
        command.args(words).current_dir(&top).stdout(full);
        let output = command.env_remove("DOVETRELLIS_SCRIPT").output().unwrap();
        assert_eq!(String::from_utf8_lossy(&output.stderr), said, "{words:?}");
        assert_eq!(output.status.code(), Some(2), "{words:?}");
    }
}

#[test]
fn a_step_that_is_no_event_is_told_with_the_events() {
    let folder = Folder::new().unwrap();
    for (events, said) in [
        ("", "there is no such event: the table has none\n"),
        (
            "x: {a} -> {}\n",
            "there is no such event: the table has event 0 alone\n",
        ),
        (
            "x: {a} -> {}\ny: {a} -> {}\n",
            "there is no such event: the table has events 0 to 1\n",
        ),
    ] {
        let text = format!("conditions: a\n{events}start: {{}}\nrun r: 2\n");
        folder.write("t.txt", text.as_bytes()).unwrap();
        let (out, err) = refused(folder.path(), &["list", "t.txt"]);
        assert_eq!(out, "refused 10 at 0\n");
        assert!(err.contains(said), "{err}");
        let judged = ran_in(folder.path(), &["judge", "t.txt"]).out;
        assert!(judged.contains(said), "{judged}");
        let (_, fired) = refused(folder.path(), &["fire", "t.txt", "2"]);
        assert!(fired.contains(said), "{fired}");
        folder.write("trace", b"t2").unwrap();
        let (_, traced) = refused(folder.path(), &["witness", "t.txt", "trace"]);
        let said = said.replace("the table", "the unfolding");
        assert!(traced.contains(&said), "{traced}");
    }
}
