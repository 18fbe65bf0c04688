//! `list` by names, of several runs, and what is told of a run that is refused.

mod common;

use common::{folder_with, ran, ran_in};

#[test]
fn a_run_is_listed_by_names() {
    let night = ran(&["list", "--names", "changeover.txt", "night"]);
    assert_eq!((night.status, night.err.as_str()), (0, ""));
    let lines: Vec<&str> = night.out.lines().collect();
    assert_eq!(lines.len(), 16);
    assert_eq!(lines[0], "start {a-feeds, b-off}");
    assert_eq!(lines[1], "0 sign-in (9) {a-feeds, b-off, signed-in}");
    assert!(lines[13].starts_with("12 connect-b (1033) {a-warm, b-feeds, time-set, "));
    assert_eq!(
        lines[15],
        "end unfolded {2, 5, 8, 10, 12, 14, 16, 18, 20, 22, 24, 26}"
    );
    let round = ran(&["list", "net-a.txt", "--names"]);
    let expected = "start {0}\n0 0 (0) {1, 2}\n1 1 (2) {2, 3}\n2 2 (3) {1, 2}\n3 1 (2) {2, 3}\nend unfolded {3, 4}\n";
    assert_eq!((round.status, round.out.as_str()), (0, expected));
    let empty = ran(&["list", "--names", "net-a.txt", "empty"]);
    assert_eq!(empty.out, "start {0}\nend unfolded {0}\n");
}

#[test]
fn names_and_numbers_tell_the_same() {
    for (name, run) in [
        ("net-a-marked.txt", "pair"),
        ("net-c.txt", "twice"),
        ("net-d.txt", "all"),
        ("net-e.txt", "second"),
        ("net-o.txt", "again"),
        ("limits.txt", "all"),
    ] {
        let plain = ran(&["list", name, run]).out;
        let names = ran(&["list", "--names", name, run]).out;
        let unfolded = |line: &str| line.split(' ').nth(2).map(String::from);
        let numbers = plain
            .lines()
            .skip(1)
            .filter(|line| !line.starts_with("end"));
        let named = names
            .lines()
            .skip(1)
            .filter(|line| !line.starts_with("end"));
        let numbers: Vec<_> = numbers
            .map(|line| unfolded(line).map(|n| format!("({n})")))
            .collect();
        assert_eq!(numbers, named.map(unfolded).collect::<Vec<_>>(), "{name}");
    }
}

#[test]
fn a_refused_run_is_listed_up_to_the_stop() {
    let hasty = ran(&["list", "--names", "changeover.txt", "hasty"]);
    assert_eq!(hasty.status, 1);
    let lines: Vec<&str> = hasty.out.lines().collect();
    assert_eq!(lines.len(), 13);
    assert!(lines[11].starts_with("10 release-a (1035) {a-warm, b-warm, combiner-free, "));
    assert_eq!(lines[12], "refused 11 at 11 by 13");
    assert_eq!(
        hasty.err,
        "  what: condition 13 `reference-locked` does not hold, and the event needs it\n  \
         where: step 11 of run `hasty`, counted from 0: event 10 `connect-b`, line 53, column 16 of changeover.txt\n"
    );
    let unknown = ran(&["list", "--names", "net-a.txt", "unknown"]);
    let listed = "start {0}\n0 0 (0) {1, 2}\nrefused 10 at 1\n";
    assert_eq!((unknown.status, unknown.out.as_str()), (1, listed));
    let text = b"conditions: a, b [p]\nx: {a} -> {a, b}\ny: {b} -> {}\nz: {b} -> {a}\nstart: {a}\nrun r: x, x, z\n";
    let folder = folder_with(&[("t.txt", text)]);
    let told = ran_in(folder.path(), &["list", "--names", "t.txt"]);
    let listed = "start {a}\n0 x {a, b}\n1 x {a, b}\nrefused 12 at 2 by 0\n";
    assert_eq!((told.status, told.out.as_str()), (1, listed));
}

#[test]
fn a_run_that_plays_but_does_not_lift_is_listed() {
    let careful = ran(&["list", "--names", "changeover.txt", "careful"]);
    assert_eq!(careful.status, 1);
    assert!(
        careful.out.ends_with(
            "\n3 set-time {a-feeds, b-off, time-set, log-opened, signed-in}\n\
             plays, but does not lift: refused 15 at 3\n"
        ),
        "{}",
        careful.out
    );
    assert!(careful
        .err
        .starts_with("  what: event 0 `set-time` came before"));
    let once = ran(&["list", "--names", "unused.txt"]);
    let listed = "start {}\n0 0 {0}\nplays, but does not lift: refused 13 at 0\n";
    assert_eq!((once.status, once.out.as_str()), (1, listed));
    assert!(
        once.err
            .ends_with("  where: event 0, line 5 of unused.txt\n"),
        "{}",
        once.err
    );
}

#[test]
fn several_runs_are_listed_each_under_its_name() {
    let both = ran(&["list", "net-e.txt", "first", "second"]);
    let alone = |run: &str| ran(&["list", "net-e.txt", run]).out;
    let expected = format!(
        "# run `first`\n{}\n# run `second`\n{}",
        alone("first"),
        alone("second")
    );
    assert_eq!(
        (both.status, both.out, both.err.as_str()),
        (0, expected, "")
    );
    let mixed = ran(&["list", "net-a.txt", "empty", "early", "round"]);
    let round = ran(&["list", "net-a.txt"]).out;
    let expected = format!(
        "# run `empty`\nstart 0\nend unfolded 0\n\n# run `early`\nrefused 11 at 1 by 3\n\n# run `round`\n{round}"
    );
    assert_eq!((mixed.status, mixed.out), (1, expected));
    let named = ran(&["list", "--names", "net-a.txt", "empty", "early"]);
    let expected = "# run `empty`\nstart {0}\nend unfolded {0}\n\n# run `early`\nstart {0}\n0 0 (0) {1, 2}\nrefused 11 at 1 by 3\n";
    assert_eq!((named.status, named.out.as_str()), (1, expected));
    let net = format!("{}/examples/net-a.txt", common::TOP);
    let folder = folder_with(&[("log.txt", b"run a: 0\nrun b: 0, 1\n"), ("bare.txt", b"0")]);
    let logs = ran_in(folder.path(), &["list", &net, "log.txt", "bare.txt"]);
    let headers: Vec<&str> = logs
        .out
        .lines()
        .filter(|line| line.starts_with('#'))
        .collect();
    assert_eq!(
        headers,
        ["# run `a` of log.txt", "# run `b` of log.txt", "# bare.txt"]
    );
    assert_eq!(logs.status, 0);
}

#[test]
fn a_refused_table_is_refused_once_for_all_runs() {
    let folder = folder_with(&[(
        "t.txt",
        b"conditions: a\nx: {} -> {}\nstart: {}\nrun a: x\nrun b:\n",
    )]);
    for words in [
        &["list", "t.txt", "a", "b"][..],
        &["list", "--names", "t.txt", "a", "b"],
    ] {
        let told = ran_in(folder.path(), words);
        assert_eq!((told.status, told.out.as_str()), (1, "refused 7 at 5\n"));
        assert_eq!(told.err.lines().count(), 2, "{}", told.err);
    }
}

#[test]
fn the_steps_before_a_stop_are_told() {
    let hasty = ran(&["list", "changeover.txt", "hasty"]);
    let lines: Vec<&str> = hasty.err.lines().skip(2).collect();
    let before = "  before: steps 1 to 10: open-log, set-time, load-key, set-frequency, set-power, warm-b, tune-filter, match-load, \
         route-audio, release-a";
    let held = "  held: {a-warm, b-warm, combiner-free, time-set, key-loaded, frequency-set, power-set, filter-tuned, load-matched, \
         audio-routed, log-opened, signed-in}";
    assert_eq!(lines, [before, held]);
    for (steps, told) in [
        (
            "y",
            "  before: nothing, it is the first step\n  held: {a}\n",
        ),
        ("x, x", "  before: step 0: x\n  held: {b}\n"),
        ("x, y, 7", "  before: steps 0 to 1: x, y\n  held: {a}\n"),
        (
            "x, y, x, y, x, y, x, y, x, y, y",
            "  before: steps 0 to 9: x, y, x, y, x, y, x, y, x, y\n  held: {a}\n",
        ),
        (
            "x, y, x, y, x, y, x, y, x, y, x, x",
            "  before: steps 1 to 10: y, x, y, x, y, x, y, x, y, x\n  held: {b}\n",
        ),
    ] {
        let text = format!("conditions: a, b\nx: {{a}} -> {{b}}\ny: {{b}} -> {{a}}\nstart: {{a}}\nrun r: {steps}\n");
        let folder = folder_with(&[("t.txt", text.as_bytes())]);
        let stopped = ran_in(folder.path(), &["list", "t.txt"]);
        assert_eq!((stopped.status, stopped.out.lines().count()), (1, 1));
        assert!(stopped.err.ends_with(told), "{}", stopped.err);
        assert_eq!(stopped.err.lines().count(), 4, "{}", stopped.err);
    }
}

#[test]
fn where_a_run_ends_that_does_not_lift_is_told() {
    let careful = ran(&["list", "changeover.txt", "careful"]);
    assert_eq!(
        (careful.status, careful.out.as_str()),
        (1, "refused 15 at 3\n")
    );
    let plays = "\n  plays: it ends in {a-feeds, b-off, time-set, log-opened, signed-in}; 'list --names' lists it\n";
    assert!(careful.err.ends_with(plays), "{}", careful.err);
    let unused = ran(&["list", "unused.txt"]);
    assert!(
        unused.err.contains(
            "marks only what no event reads; 'list --names' lists its runs all the same\n"
        ),
        "{}",
        unused.err
    );
}

/// A text table of more bytes than the program takes, which is accepted.
fn large() -> String {
    let event = |e: usize| format!("e{e}: {{0..255}} -> {{0..255}}\n");
    let events: String = (0..64).map(event).collect();
    format!("conditions: 0..255\n{events}start: {{0..255}}\nrun r: e0, e63\nrun s: e0, 64\n")
}

#[test]
fn a_table_that_is_too_large_for_the_program_is_listed_by_names() {
    let folder = folder_with(&[("t.txt", large().as_bytes())]);
    let told = ran_in(folder.path(), &["list", "t.txt"]);
    assert_eq!((told.status, told.out.as_str()), (1, "refused 19 at 0\n"));
    assert_eq!(
        told.err,
        "  what: the program 'list' takes tables of up to 65536 bytes; 'list --names', 'judge' and 'replay' take larger ones\n  \
         where: the records of t.txt, 66824 bytes\n"
    );
    let named = ran_in(folder.path(), &["list", "--names", "t.txt"]);
    let listed = "start {0..255}\n0 e0 (0) {0..255}\n1 e63 (63) {0..255}\nend unfolded {0..255}\n";
    assert_eq!((named.status, named.out.as_str()), (0, listed));
    let stopped = ran_in(folder.path(), &["list", "--names", "t.txt", "s"]);
    let listed = "start {0..255}\n0 e0 (0) {0..255}\nrefused 10 at 1\n";
    assert_eq!((stopped.status, stopped.out.as_str()), (1, listed));
    let judged = ran_in(folder.path(), &["judge", "t.txt"]);
    assert!(judged
        .out
        .starts_with("accepted: 256 conditions and 64 events\n"));
    assert!(judged.out.ends_with("\nruns: 1 lifts, 1 is refused\n"));
}
