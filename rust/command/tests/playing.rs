//! `replay`, `fire`, `enabled` and `exchange`, on tables of their own and against the second implementation. The environment names the
//! driver (DOVETRELLIS_DRIVER), run by the words of RATTLE_RUN.

use std::collections::BTreeSet;
use std::os::fd::OwnedFd;
use std::os::unix::net::UnixStream;
use std::process::Command;

use command::lister::Folder;
use command::next::VARIABLE as NEXT;
use second::game::{exchanged, fire, markings_along, play, Game};
use second::generator::{any_marking, any_walk, cases_given, small_net, walk, Random};
use second::lent::{list_of, read_marking};
use second::records::{record_bytes, word_bytes, RUN};
use second::table::{table_bytes, Event, Net, Rule};
use text::set_text;

/// The table of a button whose first use is lost in the unfolded net, with runs that are played, refused or empty.
const LAMP: &str = "conditions: hand-off, hand-on, k [p], n0, n1, armed, lamp-off, lamp-on\n\
    press: {hand-off} -> {hand-on, k}\n\
    one: {hand-on, n0} -> {hand-off, n1}\n\
    two: {hand-on, n1} -> {hand-off, armed}\n\
    use: {lamp-off, k} -> {lamp-on}\n\
    start: {hand-off, n0, lamp-off}\n\
    run armed: press, one, press, two\n\
    run hasty: press, use, two, one\n\
    run idle:\n\
    run unknown: press, 9\n\
    run lamp: press, one, use\n";

/// What came of a command: its output, what it said, and its exit status.
type Came = (String, String, i32);

/// The command in a folder.
fn command_in(folder: &Folder, words: &[&str]) -> Command {
    let mut command = Command::new(env!("CARGO_BIN_EXE_dovetrellis"));
    command.args(words).current_dir(folder.path());
    command.env_remove("DOVETRELLIS_SCRIPT");
    command
}

/// What came of the command in a folder.
fn ran_in(folder: &Folder, words: &[&str]) -> Came {
    let output = command_in(folder, words).output().unwrap();
    let [out, err] = [output.stdout, output.stderr].map(|bytes| String::from_utf8(bytes).unwrap());
    (out, err, output.status.code().unwrap())
}

/// A folder with a text table `t.txt`.
fn folder_with(text: &str) -> Folder {
    let folder = Folder::new().unwrap();
    folder.write("t.txt", text.as_bytes()).unwrap();
    folder
}

/// What came of the command on the table of the button.
fn ran(words: &[&str]) -> Came {
    ran_in(&folder_with(LAMP), words)
}

/// What a command on the table of the button writes that must be fine.
fn fine(words: &[&str]) -> String {
    let (out, err, status) = ran(words);
    assert_eq!((status, err.as_str()), (0, ""), "{words:?}: {out}");
    out
}

const ARMED: &str = "start {hand-off, n0, lamp-off}\n\
    0 press {hand-on, k, n0, lamp-off}\n\
    1 one {hand-off, k, n1, lamp-off}\n\
    2 press {hand-on, k, n1, lamp-off}\n\
    3 two {hand-off, k, armed, lamp-off}\n\
    4 steps, ends in {hand-off, k, armed, lamp-off}\n";

const HASTY: &str = "start {hand-off, n0, lamp-off}\n\
    0 press {hand-on, k, n0, lamp-off}\n\
    1 use {hand-on, k, n0, lamp-on}\n\
    refused 11 at 2 by 4\n";

const HASTY_SAID: &str = "  what: condition 4 `n1` does not hold, and the event needs it\n  \
    where: step 2 of run `hasty`, counted from 0: event 2 `two`, line 8, column 24 of t.txt\n";

// ---- replay

#[test]
fn a_run_is_played_in_the_table_alone() {
    assert_eq!(fine(&["replay", "t.txt"]), ARMED);
    assert_eq!(fine(&["replay", "t.txt", "armed"]), ARMED);
    assert_eq!(
        fine(&["replay", "t.txt", "idle"]),
        "start {hand-off, n0, lamp-off}\n0 steps, ends in {hand-off, n0, lamp-off}\n"
    );
    assert!(!ARMED.contains("lift"));
}

#[test]
fn a_refused_run_is_played_up_to_its_stop() {
    assert_eq!(
        ran(&["replay", "t.txt", "hasty"]),
        (HASTY.to_string(), HASTY_SAID.to_string(), 1)
    );
    let (out, err, status) = ran(&["replay", "t.txt", "unknown"]);
    let first = &ARMED[..ARMED.find("1 one").unwrap()];
    assert_eq!((out, status), (format!("{first}refused 10 at 1\n"), 1));
    assert!(
        err.starts_with("  what: there is no such event: the table has events 0 to 3\n"),
        "{err}"
    );
}

#[test]
fn of_several_runs_each_is_played() {
    let (out, err, status) = ran(&["replay", "t.txt", "hasty", "armed", "unknown"]);
    let begun = format!("# run `hasty`\n{HASTY}\n# run `armed`\n{ARMED}\n# run `unknown`\nstart ");
    assert!(out.starts_with(&begun), "{out}");
    assert!(out.ends_with("\nrefused 10 at 1\n"), "{out}");
    assert!(err.starts_with(HASTY_SAID), "{err}");
    assert!(
        err.contains("where: step 1 of run `unknown`, counted from 0: "),
        "{err}"
    );
    assert_eq!((err.lines().count(), status), (4, 1));
    let two = fine(&["replay", "t.txt", "armed", "idle"]);
    assert!(two.starts_with(&format!("# run `armed`\n{ARMED}\n# run `idle`\nstart ")));
}

#[test]
fn runs_of_records_are_read_by_the_library() {
    let folder = folder_with(LAMP);
    let table = text::read(LAMP.as_bytes()).unwrap();
    folder.write("t.bin", &table.bytes()).unwrap();
    folder.write("armed.bin", &table.runs[0].bytes()).unwrap();
    folder.write("cut.bin", &[4, 0, 4, 0, 0]).unwrap();
    let (out, _, status) = ran_in(&folder, &["replay", "t.bin", "armed.bin"]);
    let begins = "start {0, 3, 6}\n0 0 {1..3, 6}\n1 1 {0, 2, 4, 6}\n";
    assert!(out.starts_with(begins) && status == 0, "{out}");
    let (out, err, status) = ran_in(&folder, &["replay", "t.txt", "cut.bin", "armed"]);
    let expected = format!("# cut.bin\nrefused 1 at 0\n\n# run `armed`\n{ARMED}");
    assert_eq!((out, status), (expected, 1));
    assert!(err.ends_with("  where: byte 0 of cut.bin\n"), "{err}");
}

#[test]
fn runs_of_logs_are_played() {
    let folder = folder_with(LAMP);
    let digest = text::digest(&text::read(LAMP.as_bytes()).unwrap().bytes());
    let log =
        format!("table: {digest}\nrun: press, one, press, two\n\nrun late: press, use, two\n");
    folder.write("log.txt", log.as_bytes()).unwrap();
    let (out, err, status) = ran_in(&folder, &["replay", "t.txt", "log.txt"]);
    let hasty = HASTY.replace("hasty", "late");
    let expected = format!("# run `0` of log.txt\n{ARMED}\n# run `late` of log.txt\n{hasty}");
    assert_eq!((out, status), (expected, 1));
    let place = "step 2 of run `late` of log.txt, counted from 0: event 2 `two`, line 4, column 23 of log.txt\n";
    assert!(err.ends_with(place), "{err}");
    folder
        .write("steps.txt", b"press\none\npress # again\ntwo\n")
        .unwrap();
    let steps = ran_in(&folder, &["replay", "t.txt", "steps.txt"]);
    assert_eq!(steps, (ARMED.to_string(), String::new(), 0));
    let other = log.replace("table: sha256-", "table: sha256-0");
    folder.write("other.txt", &other.as_bytes()[..40]).unwrap();
    for words in [
        &["replay", "t.txt", "other.txt"][..],
        &["enabled", "t.txt", "other.txt"],
        &["exchange", "t.txt", "other.txt", "0"],
    ] {
        let (out, err, status) = ran_in(&folder, words);
        assert_eq!((out.as_str(), status), ("", 1));
        assert!(err.contains("this is for the table sha256-0"), "{err}");
    }
}

#[test]
fn a_table_that_is_refused_is_not_played() {
    let folder = folder_with("conditions: a\nx: {} -> {}\nstart: {}\nrun r: x\n");
    for words in [
        &["replay", "t.txt"][..],
        &["fire", "t.txt", "x"],
        &["fire", "t.txt", "unknown", "--at", "{b}"],
        &["enabled", "t.txt"],
        &["enabled", "t.txt", "r"],
        &["exchange", "t.txt", "r", "0"],
    ] {
        let (out, err, status) = ran_in(&folder, words);
        assert_eq!((out.as_str(), status), ("refused 7 at 5\n", 1), "{words:?}");
        assert!(
            err.ends_with("where: event 0 `x`, line 2 of t.txt\n"),
            "{err}"
        );
    }
}

#[test]
fn a_table_that_does_not_unfold_is_played() {
    let folder =
        folder_with("conditions: a, k [p]\nx: {} -> {k}\ny: {} -> {a}\nstart: {}\nrun r: x, y\n");
    let (out, _, status) = ran_in(&folder, &["replay", "t.txt"]);
    let played = "start {}\n0 x {k}\n1 y {a, k}\n2 steps, ends in {a, k}\n";
    assert_eq!((out.as_str(), status), (played, 0));
    let (out, _, status) = ran_in(&folder, &["exchange", "t.txt", "r", "0"]);
    let told = "run: y, x\n# 2 steps, ends in {a, k}, as before\n\
                # neither run lifts: refused 13 at 0 before, refused 13 at 0 now\n";
    assert!(out.ends_with(told) && status == 0, "{out}");
}

// ---- fire

#[test]
fn one_event_is_fired() {
    for (words, after) in [
        (&["press"][..], "{hand-on, k, n0, lamp-off}\n"),
        (&["0"], "{hand-on, k, n0, lamp-off}\n"),
        (&["use", "--at", "{lamp-off, k}"], "{k, lamp-on}\n"),
        (&["--at", "k, 6", "3"], "{k, lamp-on}\n"),
        (&["press", "--at={hand-off,k}"], "{hand-on, k}\n"),
        (&["one", "--at", "1,3..3"], "{hand-off, n1}\n"),
    ] {
        assert_eq!(fine(&[&["fire", "t.txt"], words].concat()), after);
    }
}

#[test]
fn a_firing_that_is_refused_is_told() {
    let at = "{hand-off, n0, lamp-off}";
    for (words, line, what, place) in [
        (
            &["one"][..],
            "refused 11 at 1 by 1",
            "condition 1 `hand-on` does not hold, and the event needs it",
            format!("event 1 `one`, line 3 of t.txt, at {at}"),
        ),
        (
            &["press", "--at", "hand-off, hand-on"],
            "refused 12 at 1 by 1",
            "condition 1 `hand-on` still holds, and the event would set it again: contact",
            "event 0 `press`, line 2 of t.txt, at {hand-off, hand-on}".to_string(),
        ),
        (
            &["4"],
            "refused 10 at 0",
            "there is no such event: the table has events 0 to 3",
            format!("event 4 of t.txt, at {at}"),
        ),
        (
            &["two", "--at", "{}"],
            "refused 11 at 1 by 1",
            "condition 1 `hand-on` does not hold, and the event needs it",
            "event 2 `two`, line 4 of t.txt, at {}".to_string(),
        ),
    ] {
        let came = ran(&[&["fire", "t.txt"], words].concat());
        let said = format!("  what: {what}\n  where: {place}\n");
        assert_eq!(came, (format!("{line}\n"), said, 1));
    }
}

#[test]
fn words_that_name_nothing_are_told() {
    for (words, said) in [
        (
            &["fire", "t.txt", "pres"][..],
            "'pres', column 1: expected the name or number of an event, found `pres`, which is none (is `press` meant?)",
        ),
        (
            &["fire", "t.txt", "armed"],
            "'armed', column 1: expected the name or number of an event, found `armed`, which is none",
        ),
        (
            &["fire", "t.txt", "press", "--at", "{hand-off, amred}"],
            "'{hand-off, amred}', column 12: expected the name or number of a condition, found `amred`, which is none (is `armed` meant?)",
        ),
        (
            &["enabled", "t.txt", "--at", "k, 8"],
            "'k, 8', column 4: expected the name or number of a condition, found `8`, and the last condition is 7",
        ),
        (
            &["enabled", "t.txt", "--at", "{k,\n 8}"],
            "'{k,\\n 8}', line 2, column 2: expected the name or number of a condition, found `8`, and the last condition is 7",
        ),
        (
            &["enabled", "t.txt", "--at", ""],
            "'', column 1: expected a marking, which is `{}` where nothing holds, found the end of the word",
        ),
    ] {
        let came = ran(words);
        assert_eq!(came, (String::new(), format!("dovetrellis: {said}\n"), 1));
    }
}

#[test]
fn a_firing_that_the_old_rule_stops_is_told() {
    let folder = folder_with(
        "rule: old\nconditions: ready, 1\nsend: {ready} -> {ready}\n1: {1} -> {}\nstart: {ready}\n",
    );
    let (out, err, status) = ran_in(&folder, &["fire", "t.txt", "send"]);
    assert_eq!((out.as_str(), status), ("refused 12 at 0 by 0\n", 1));
    let old = "it is a precondition too, but the table follows the old rule";
    assert!(err.contains(&format!("contact; {old}\n")), "{err}");
    let (out, _, status) = ran_in(&folder, &["enabled", "t.txt"]);
    let told = format!(
        "at {{ready}}\n0 of 2 events can fire\nsend: contact on ready, which holds already; {old}\n\
         1: stopped by condition 1, which does not hold\n"
    );
    assert_eq!((out, status), (told, 0));
}

// ---- enabled

#[test]
fn what_can_fire_comes_first_and_then_what_stops_the_others() {
    assert_eq!(
        fine(&["enabled", "t.txt"]),
        "at {hand-off, n0, lamp-off}\n1 of 4 events can fire\npress: can fire\n\
         one: stopped by hand-on, which does not hold\n\
         two: stopped by hand-on, which does not hold\n\
         use: stopped by k, which does not hold\n"
    );
    assert_eq!(
        fine(&["enabled", "t.txt", "lamp"]),
        "at {hand-off, k, n1, lamp-on}\n1 of 4 events can fire\npress: can fire\n\
         one: stopped by hand-on, which does not hold\n\
         two: stopped by hand-on, which does not hold\n\
         use: stopped by lamp-off, which does not hold\n"
    );
    assert_eq!(
        fine(&[
            "enabled",
            "t.txt",
            "--at",
            "hand-on, n1, armed, lamp-off, k"
        ]),
        "at {hand-on, k, n1, armed, lamp-off}\n1 of 4 events can fire\nuse: can fire\n\
         press: stopped by hand-off, which does not hold\n\
         one: stopped by n0, which does not hold\n\
         two: contact on armed, which holds already\n"
    );
}

#[test]
fn after_a_refused_run_nothing_is_told_but_the_refusal() {
    assert_eq!(
        ran(&["enabled", "t.txt", "hasty"]),
        (
            "refused 11 at 2 by 4\n".to_string(),
            HASTY_SAID.to_string(),
            1
        )
    );
    let (out, err, status) = ran(&["enabled", "t.txt", "armed", "--at", "{}"]);
    assert_eq!((out.as_str(), status), ("", 2));
    assert!(err.contains("both say where"), "{err}");
}

// ---- exchange

#[test]
fn steps_that_do_not_touch_change_places() {
    let out = fine(&["exchange", "t.txt", "lamp", "1"]);
    let told = "run: press, use, one\n# 3 steps, ends in {hand-off, k, n1, lamp-on}, as before\n\
        # lifted, the two runs differ at steps 1, 2 alone: unfolded events 1, 4 before, 4, 1 now\n";
    assert!(out.ends_with(told), "{out}");
}

#[test]
fn an_exchanged_run_that_does_not_lift_is_told_as_such() {
    let folder = folder_with(&format!("{LAMP}run twice: press, one, use, press\n"));
    let (out, _, status) = ran_in(&folder, &["exchange", "t.txt", "twice", "2"]);
    let told =
        "run: press, one, press, use\n# 4 steps, ends in {hand-on, k, n1, lamp-on}, as before\n\
        # neither run lifts: refused 15 at 3 before, refused 15 at 2 now\n";
    assert!(out.ends_with(told) && status == 0, "{out}");
}

/// A table whose neighbouring steps depend on each other in every way, by its runs.
const TIED: &str = "conditions: a, b, c, k [p], m [p], n [p]\n\
    x: {a} -> {b, k, m, n}\ny: {b} -> {c, k, m}\nz: {k, m} -> {}\nw: {} -> {k, m}\nv: {} -> {n, m}\n\
    start: {a, n}\n\
    run far: x, y\nrun read: w, z\nrun mark: w, v, w, v\nrun both: x, z, z, w\nrun one: x\nrun none:\n";

#[test]
fn why_steps_may_not_change_places_is_told() {
    let folder = folder_with(TIED);
    let new = "which did not hold before step 0";
    let both = "the persistent condition 3 `k` and condition 4 `m`";
    let ties = [
        format!("event 0 `x` and event 1 `y` both take or put the ordinary condition 1 `b`; event 0 `x` and event 1 `y` both mark {both}, {new}"),
        format!("event 2 `z` reads {both}, {new}"),
        format!("event 3 `w` and event 4 `v` both mark the persistent condition 4 `m`, {new}"),
        "both are steps of event 2 `z`".to_string(),
    ];
    for ((run, step, pair), tie) in [
        ("far", 0, "event 0 `x` and event 1 `y`"),
        ("read", 0, "event 3 `w` and event 2 `z`"),
        ("mark", 0, "event 3 `w` and event 4 `v`"),
        ("both", 1, "event 2 `z` and event 2 `z`"),
    ]
    .into_iter()
    .zip(ties)
    {
        let came = ran_in(&folder, &["exchange", "t.txt", run, &step.to_string()]);
        let said = format!(
            "  what: the two steps depend on each other and may not change places: {tie}\n  \
             where: steps {step} and {} of run `{run}`, counted from 0: {pair}\n",
            step + 1
        );
        assert_eq!(came, (format!("refused 17 at {step}\n"), said, 1));
    }
    let (out, _, status) = ran_in(&folder, &["exchange", "t.txt", "mark", "1"]);
    assert!(out.contains("run: w, w, v, v\n") && status == 0, "{out}");
}

#[test]
fn a_run_without_the_two_steps_is_told_by_its_length() {
    let folder = folder_with(TIED);
    for (run, step, what) in [
        ("far", "1", "the run has 2 steps, so K is at most 0"),
        ("both", "3", "the run has 4 steps, so K is at most 2"),
        ("one", "0", "the run has 1 step, and two are needed"),
        ("none", "7", "the run has 0 steps, and two are needed"),
        (
            "far",
            "18446744073709551615",
            "the run has 2 steps, so K is at most 0",
        ),
    ] {
        let came = ran_in(&folder, &["exchange", "t.txt", run, step]);
        let said = format!("  what: {what}\n  where: run `{run}`\n");
        assert_eq!(came, (format!("refused 10 at {step}\n"), said, 1));
    }
}

#[test]
fn a_refused_run_has_no_steps_to_exchange() {
    for (run, line) in [
        ("hasty", "refused 11 at 2 by 4\n"),
        ("unknown", "refused 10 at 1\n"),
    ] {
        for step in ["0", "1", "9"] {
            let (out, err, status) = ran(&["exchange", "t.txt", run, step]);
            assert_eq!((out.as_str(), status), (line, 1));
            assert!(
                err.contains(&format!(" of run `{run}`, counted from 0: ")),
                "{err}"
            );
        }
    }
    let (_, err, status) = ran(&["exchange", "t.txt", "armed", "-1"]);
    assert_eq!(status, 2, "{err}");
}

// ---- an output that is closed

#[test]
fn an_answer_that_nobody_reads_is_an_error() {
    let folder = folder_with(LAMP);
    for words in [
        &["replay", "t.txt"][..],
        &["replay", "t.txt", "hasty", "armed"],
        &["fire", "t.txt", "press"],
        &["enabled", "t.txt"],
        &["exchange", "t.txt", "lamp", "1"],
        &["judge", "t.txt"],
        &["unfold", "t.txt"],
        &["show", "t.txt"],
        &["pack", "t.txt"],
    ] {
        let (answer, reader) = UnixStream::pair().unwrap();
        drop(reader);
        let mut command = command_in(&folder, words);
        command.env(NEXT, "1");
        let output = command.stdout(OwnedFd::from(answer)).output().unwrap();
        let said = String::from_utf8(output.stderr).unwrap();
        let last = said.lines().last().unwrap_or_default();
        let closed = "dovetrellis: the output was closed before all was written";
        assert_eq!((last, output.status.code()), (closed, Some(2)), "{words:?}");
    }
}

// ---- against the second implementation

/// A net as a command takes it, with a run of it.
fn folder_of(net: &Net, run: &[u16]) -> Folder {
    let folder = Folder::new().unwrap();
    folder.write("t.bin", &table_bytes(net)).unwrap();
    let run = record_bytes(RUN, &word_bytes(run));
    folder.write("run.bin", &run).unwrap();
    folder
}

/// A marking as it is written without names.
fn told(marking: &[bool]) -> String {
    let held: Vec<u16> = list_of(marking).iter().map(|b| *b as u16).collect();
    set_text(&held)
}

/// What a replay must write of a run, and its exit status.
fn replayed(net: &Net, run: &[u16]) -> (String, i32) {
    let (played, last, status) = match play(net, net.start(), run) {
        Ok(end) => {
            let plural = if run.len() == 1 { "" } else { "s" };
            let last = format!("{} step{plural}, ends in {}\n", run.len(), told(&end));
            (run, last, 0)
        }
        Err(refusal) => {
            let by = refusal.by.map_or(String::new(), |b| format!(" by {b}"));
            let last = format!("refused {} at {}{by}\n", refusal.number, refusal.place);
            (&run[..refusal.place], last, 1)
        }
    };
    let markings = markings_along(net, net.start(), played).unwrap();
    let mut lines = format!("start {}\n", told(&markings[0]));
    for (step, event) in played.iter().enumerate() {
        lines += &format!("{step} {event} {}\n", told(&markings[step + 1]));
    }
    (lines + &last, status)
}

/// What `enabled` must write at a marking.
fn enabled(net: &Net, marking: &[bool]) -> String {
    let (mut can, mut cannot) = (String::new(), String::new());
    let mut count = 0;
    for event in 0..net.events.len() as u16 {
        let Err(stop) = fire(net, marking, event) else {
            can += &format!("{event}: can fire\n");
            count += 1;
            continue;
        };
        let by = stop.by.unwrap();
        let Event { preconditions, .. } = &net.events[usize::from(event)];
        let old = match net.rule() == Rule::Old && preconditions.contains(&by) {
            true => "; it is a precondition too, but the table follows the old rule",
            false => "",
        };
        cannot += &match stop.number {
            11 => format!("{event}: stopped by condition {by}, which does not hold\n"),
            _ => format!("{event}: contact on condition {by}, which holds already{old}\n"),
        };
    }
    let all = net.events.len();
    let at = told(marking);
    format!("at {at}\n{count} of {all} events can fire\n{can}{cannot}")
}

#[test]
fn generated_runs_are_played_as_the_second_implementation_plays_them() {
    let mut random = Random::given();
    let mut seen = BTreeSet::new();
    for _ in 0..cases_given(60) {
        let net = small_net(&mut random);
        let way = any_walk(&mut random);
        let run = walk(&mut random, &net, net.events.len(), &way);
        let folder = folder_of(&net, &run);
        let (out, _, status) = ran_in(&folder, &["replay", "t.bin", "run.bin"]);
        seen.insert(status);
        assert_eq!((out, status), replayed(&net, &run));
        let marking = any_marking(&mut random, net.persistent.len());
        let marking = read_marking(&marking, net.persistent.len());
        let Ok(marking) = marking else { continue };
        let (out, err, _) = ran_in(&folder, &["enabled", "t.bin", "--at", &told(&marking)]);
        assert_eq!((out, err), (enabled(&net, &marking), String::new()));
    }
    assert_eq!(seen.len(), 2);
}

/// The numbers of the premises of which a told reason says that they fail.
fn premises_told(err: &str) -> Vec<usize> {
    let said = [
        "both are steps of",
        "both take or put the ordinary",
        "reads the persistent",
        "both mark the persistent",
    ];
    (0..4).filter(|at| err.contains(said[*at])).collect()
}

/// The numbers of the premises that fail for steps k and k + 1, as docs/REFUSALS.md has them.
fn premises(net: &Net, run: &[u16], k: usize) -> Vec<usize> {
    let before = play(net, net.start(), &run[..k]).unwrap();
    let [e, f] = [run[k], run[k + 1]].map(|event| net.event(event).unwrap());
    let touches = |event: &Event, b: u16| {
        event.preconditions.contains(&b) || event.postconditions.contains(&b)
    };
    let fails = |test: &dyn Fn(u16, bool, bool) -> bool| {
        let conditions = 0..net.persistent.len();
        conditions
            .into_iter()
            .any(|b| test(b as u16, net.persistent[b], before[b]))
    };
    if run[k] == run[k + 1] {
        return vec![0];
    }
    let tests = [
        false,
        fails(&|b, persistent, _| !persistent && touches(&e, b) && touches(&f, b)),
        fails(&|b, persistent, held| persistent && !held && f.preconditions.contains(&b)),
        fails(&|b, persistent, held| {
            persistent && !held && e.postconditions.contains(&b) && f.postconditions.contains(&b)
        }),
    ];
    (0..4).filter(|at| tests[*at]).collect()
}

#[test]
fn generated_steps_are_exchanged_as_the_second_implementation_exchanges_them() {
    let mut random = Random::given();
    let mut seen = BTreeSet::new();
    let mut done = 0;
    while done < cases_given(60) {
        let net = small_net(&mut random);
        let way = any_walk(&mut random);
        let run = walk(&mut random, &net, net.events.len(), &way);
        if run.len() < 2 || play(&net, net.start(), &run).is_err() {
            continue;
        }
        done += 1;
        let k = random.below(run.len() - 1);
        let folder = folder_of(&net, &run);
        let (out, err, status) = ran_in(&folder, &["exchange", "t.bin", "run.bin", &k.to_string()]);
        match exchanged(&net, &run, k) {
            Ok(other) => {
                seen.insert(9);
                let words: Vec<&str> = out.split_whitespace().collect();
                let steps: Vec<String> = other.iter().map(u16::to_string).collect();
                let written = format!("run: {} # {} steps, ends in ", steps.join(", "), run.len());
                assert!(words.join(" ").contains(&written), "{out}");
                assert!(out.contains(", as before\n"), "{out}");
                assert_eq!(status, 0);
            }
            Err(refusal) => {
                assert_eq!((refusal.number, status), (17, 1));
                assert_eq!(out, format!("refused 17 at {k}\n"));
                let told = premises_told(&err);
                assert_eq!(told, premises(&net, &run, k), "{err}");
                seen.extend(told);
            }
        }
    }
    assert_eq!(seen, BTreeSet::from([0, 1, 2, 3, 9]));
}
