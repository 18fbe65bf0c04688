//! What `judge` tells of a table and of runs: the digest, the warnings, the events whose repeats may be lost, and the summary.

mod common;

use std::collections::BTreeSet;

use command::lossy;
use command::source::{read, Source};
use command::warnings::warnings;
use common::{folder_with, ran, ran_in};
use second::game::{fire, Game};
use second::generator::{small_net, Random};
use second::table::{table_bytes, Net};
use text::Table;

/// A table as the command takes it.
fn source(text: &str) -> Source {
    let folder = folder_with(&[("t.txt", text.as_bytes())]);
    let path = folder.path().join("t.txt").display().to_string();
    read(&path).unwrap_or_else(|stop| panic!("{stop:?}"))
}

/// What `judge` answers of a text, which must be accepted.
fn judged(text: &str) -> String {
    let folder = folder_with(&[("t.txt", text.as_bytes())]);
    let ran = ran_in(folder.path(), &["judge", "t.txt"]);
    assert_eq!((ran.status, ran.err.as_str()), (0, ""), "{}", ran.out);
    ran.out
}

#[test]
fn the_digest_is_that_of_the_records() {
    let digest = "digest: sha256-203391a34d28a57df9cb93ca64c5bf522bddc1caab744995f97c3a715a6394e7";
    let told = ran(&["judge", "net-a.txt"]).out;
    assert_eq!(told.lines().nth(1), Some(digest));
    let table = text::read(include_bytes!("../../../examples/net-a.txt")).unwrap();
    let folder = folder_with(&[("net.bin", &table.bytes())]);
    let told = ran_in(folder.path(), &["judge", "net.bin"]).out;
    assert_eq!(told.lines().nth(1), Some(digest));
    let other = ran(&["judge", "net-a-marked.txt"]).out;
    assert!(!other.contains(digest), "{other}");
}

#[test]
fn runs_that_are_given_are_tried_in_place_of_the_texts_own() {
    let told = ran(&["judge", "net-a.txt", "early", "round"]);
    assert_eq!((told.status, told.err.as_str()), (0, ""));
    let runs = told.out.split_once("run `").unwrap().1;
    assert_eq!(
        runs,
        "early`: refused 11 at 1 by 3\n  what: condition 3 does not hold, and the event needs it\n  \
         where: step 1 of run `early`, counted from 0: event 2, line 12, column 15 of net-a.txt\n\
         run `round`: 4 steps, ends in {2, 3}, lifts\nruns: 1 lifts, 1 is refused\n"
    );
    let net = format!("{}/examples/net-a.txt", common::TOP);
    let folder = folder_with(&[
        ("log.txt", b"0, 1, 2\n"),
        ("two.txt", b"run a: 0\nrun b: 2\n"),
        ("steps.bin", &[4, 0, 4, 0, 0, 0, 1, 0]),
        ("odd.bin", &[1, 0, 4, 0, 0]),
    ]);
    let words = ["judge", &net, "log.txt", "two.txt", "steps.bin", "odd.bin"];
    let told = ran_in(folder.path(), &words);
    assert_eq!((told.status, told.err.as_str()), (0, ""));
    for line in [
        "log.txt: 3 steps, ends in {1, 2}, lifts\n",
        "run `a` of two.txt: 1 step, ends in {1, 2}, lifts\n",
        "run `b` of two.txt: refused 11 at 0 by 3\n",
        "steps.bin: 2 steps, ends in {2, 3}, lifts\n",
        "odd.bin: refused 3 at 0\n  what: the record's length is not right for its kind: ",
        "runs: 3 lift, 2 are refused\n",
    ] {
        assert!(told.out.contains(&format!("\n{line}")), "{}", told.out);
    }
    assert!(!told.out.contains("round"), "{}", told.out);
    let none = ran(&["judge", "net-a.txt", "rond"]);
    assert_eq!((none.status, none.out.as_str()), (2, ""));
    assert!(none.err.contains("(is 'round' meant?)"), "{}", none.err);
}

#[test]
fn only_a_strict_judge_ends_with_1_for_a_refused_run() {
    let odd = folder_with(&[("odd.bin", &[1, 0, 4, 0, 0])]);
    let odd = odd.path().join("odd.bin").display().to_string();
    for (words, status) in [
        (&["net-a.txt"][..], 1),
        (&["net-a.txt", "round", "empty"], 0),
        (&["net-a.txt", "round", "unknown"], 1),
        (&["net-a.txt", &odd], 1),
        (&["net-b.txt", "twice"], 0),
        (&["unused.txt"], 0),
        (&["limits-over.txt"], 0),
        (&["rack-old.txt"], 1),
        (&["rack.txt"], 0),
    ] {
        let plain = ran(&[&["judge"], words].concat());
        assert_eq!((plain.status, plain.err.as_str()), (0, ""), "{words:?}");
        let strict = ran(&[&["judge", "--strict"], words].concat());
        assert_eq!((strict.status, &strict.out), (status, &plain.out));
        assert_eq!(strict.err, "");
    }
    let folder = folder_with(&[("t.txt", b"conditions: a\nx: {} -> {}\nstart: {}\nrun: x\n")]);
    for words in [&["judge", "t.txt"][..], &["judge", "t.txt", "--strict"]] {
        let told = ran_in(folder.path(), words);
        assert_eq!((told.status, told.out.as_str()), (1, "refused 7 at 5\n"));
    }
}

#[test]
fn the_runs_are_summed_up() {
    let table = "conditions: a, b [p]\nx: {a} -> {a, b}\ny: {b} -> {}\nz: {b} -> {a}\nstart: {a}\n";
    let (lifts, plays, refused) = ("run: x, y\n", "run: x, x\n", "run: z\n");
    for (runs, summary) in [
        (vec![lifts], "runs: 1 lifts"),
        (vec![lifts, lifts], "runs: 2 lift"),
        (vec![plays], "runs: 1 only plays"),
        (vec![plays, plays, plays], "runs: 3 only play"),
        (vec![refused], "runs: 1 is refused"),
        (vec![refused, refused], "runs: 2 are refused"),
        (vec![lifts, refused, lifts], "runs: 2 lift, 1 is refused"),
        (
            vec![refused, plays, lifts, lifts, lifts],
            "runs: 3 lift, 1 only plays, 1 is refused",
        ),
    ] {
        let told = judged(&format!("{table}{}", runs.concat()));
        assert_eq!(told.lines().last(), Some(summary));
        assert_eq!(told.matches("\nruns: ").count(), 1);
    }
    assert!(!judged(table).contains("runs:"));
}

/// The judge's warnings on a table are these and no others.
fn warned(table: &str, expected: &[&str]) {
    let told = judged(table);
    let lines = told
        .lines()
        .filter_map(|line| line.strip_prefix("warning: "));
    assert_eq!(lines.collect::<Vec<_>>(), expected, "{table}");
}

#[test]
fn conditions_that_look_like_a_slip_are_told() {
    warned(
        "conditions: a, b\nx: {a} -> {b}\ny: {b} -> {a}\nstart: {a}\n",
        &[],
    );
    warned(
        "conditions: a, done\nx: {a} -> {done}\nstart: {a}\n",
        &["no event needs done, which is only put"],
    );
    warned(
        "conditions: a, b, c, d [p], e [p]\nx: {a} -> {b, c, d}\ny: {a} -> {d, e}\nstart: {a, e}\n",
        &[
            "no event reads d, e, which are persistent",
            "no event needs b, c, which are only put",
        ],
    );
    warned(
        "conditions: a, spare, 2\nx: {a} -> {a}\nstart: {a, spare}\n",
        &["no event needs or puts spare, condition 2"],
    );
}

#[test]
fn events_that_no_run_fires_are_told() {
    warned(
        "conditions: a, k [p], b, c\nuse: {a, k} -> {b}\nthen: {b} -> {c}\n2: {c, a} -> {a}\nstart: {a}\n",
        &[
            "nothing sets k, which an event needs: it does not hold at the start, and no event puts it",
            "no run can fire use (k never holds), then (b never holds), event 2 (c never holds)",
        ],
    );
    warned(
        "conditions: a, k [p], l\nuse: {a, k, l} -> {a}\nstart: {a}\n",
        &[
            "nothing sets k, l, which events need: they do not hold at the start, and no event puts them",
            "no run can fire use (k never holds)",
        ],
    );
    warned(
        "conditions: a, b, c\nx: {b} -> {a, b, c}\ny: {c} -> {a}\nz: {a} -> {}\nstart: {}\n",
        &["no run can fire x (b never holds), y (c never holds), z (a never holds)"],
    );
}

#[test]
fn an_event_that_the_old_rule_never_lets_pass_is_told() {
    let table = "conditions: a, b, k [p]\nx: {a, k} -> {a, b, k}\ny: {b} -> {}\nz: {k} -> {a, k}\nstart: {k}\n";
    let x = "x (takes a and puts it again, which the old rule never lets pass)";
    let warning = format!("no run can fire {x}, y (b never holds)");
    warned(&format!("rule: old\n{table}"), &[&warning]);
    warned(&format!("rule: paper\n{table}"), &[]);
    warned(table, &[]);
}

#[test]
fn many_of_a_kind_are_told_by_the_first_ten() {
    let told = judged("conditions: 0..30\nx: {0} -> {0, 3..12}\nstart: {0}\n");
    let unused =
        "1, condition 2, condition 13, condition 14, condition 15, condition 16, condition 17, \
        condition 18, condition 19, condition 20 and 10 more\n";
    assert!(
        told.contains(&format!(
            "\nwarning: no event needs or puts condition {unused}"
        )),
        "{told}"
    );
    let put = "3, condition 4, condition 5, condition 6, condition 7, condition 8, condition 9, \
        condition 10, condition 11, condition 12, which are only put\n";
    assert!(
        told.contains(&format!("\nwarning: no event needs condition {put}")),
        "{told}"
    );
}

/// The numbers after a word, each time that it comes in front of one and of what follows.
fn numbers(line: &str, before: &str, after: &str) -> Vec<u16> {
    let parts = line.split(before).skip(1);
    let numbers = parts.filter_map(|part| part.split_once(after)?.0.parse().ok());
    numbers.collect()
}

/// The markings that the runs of a net reach, and the events that fire in them, as far as so many markings.
fn reached(net: &Net) -> (BTreeSet<Vec<bool>>, BTreeSet<u16>) {
    let (mut seen, mut fired) = (BTreeSet::from([net.start()]), BTreeSet::new());
    let mut open = vec![net.start()];
    while let Some(marking) = open.pop() {
        for event in 0..net.events.len() as u16 {
            let Ok(next) = fire(net, &marking, event) else {
                continue;
            };
            fired.insert(event);
            if seen.len() < 2_000 && seen.insert(next.clone()) {
                open.push(next);
            }
        }
    }
    (seen, fired)
}

#[test]
fn what_is_warned_of_is_true_of_every_run() {
    let mut random = Random::given();
    let mut warned = 0;
    for _ in 0..2_000 {
        let net = small_net(&mut random);
        let table = Table::of_bytes(&table_bytes(&net)).unwrap();
        let (markings, fired) = reached(&net);
        for line in warnings(&table) {
            for event in numbers(&line, "event ", " (") {
                assert!(!fired.contains(&event), "{line}: {net:?}");
                warned += 1;
            }
            for condition in numbers(&line, "condition ", " never holds") {
                let holds = |marking: &Vec<bool>| marking[usize::from(condition)];
                assert!(!markings.iter().any(holds), "{line}: {net:?}");
                warned += 1;
            }
        }
    }
    assert!(warned > 500, "{warned}");
}

/// The table that a checker once said "holds" of, though a run of it that comes twice to `press` is armed.
const PRESS: &str = "conditions: hand-off, hand-on, k [p], n0, n1, armed, lamp-off, lamp-on\n\
    press: {hand-off} -> {hand-on, k}\none: {hand-on, n0} -> {hand-off, n1}\n\
    two: {hand-on, n1} -> {hand-off, armed}\nuse: {lamp-off, k} -> {lamp-on}\n\
    start: {hand-off, n0, lamp-off}\nrun r: press, one, press, two\n";

#[test]
fn events_whose_repeats_may_be_lost_are_told() {
    let table = source(PRESS);
    let whole = "the unfolded net reaches every marking that the table reaches";
    assert_eq!(lossy::told(&table, &[]), [whole]);
    let press =
        "the unfolded net may lack runs in which press comes again: it marks k, which use reads";
    assert_eq!(lossy::told(&table, &[0]), [press]);
    let told = judged(PRESS);
    let unfolds = format!("\nunfolds to 9 conditions and 5 events\n{press}\nwarning: ");
    assert!(told.contains(&unfolds) && !told.contains(whole), "{told}");
    let once = judged(&PRESS.replace("-> {hand-off,", "-> {"));
    assert!(once.contains(whole) && !once.contains("may lack"), "{once}");
    let net = source("conditions: 0, 1, 2 [p]\n0: {0} -> {1, 2}\n1: {1, 2} -> {0}\nstart: {0}\n");
    let event = "the unfolded net may lack runs in which event 0 comes again: it marks condition 2, which event 1 reads";
    assert_eq!(lossy::told(&net, &[0]), [event]);
    let many: String = (0..13)
        .map(|e| format!("e{e}: {{a}} -> {{b, k}}\n"))
        .collect();
    let many = source(&format!(
        "conditions: a, b, k [p]\n{many}back: {{b, k}} -> {{a}}\nstart: {{a}}\n"
    ));
    let lines = lossy::told(&many, &(0..13).collect::<Vec<u16>>());
    assert_eq!(lines.len(), 11);
    assert!(lines[9].ends_with("e9 comes again: it marks k, which back reads"));
    assert_eq!(lines[10], "and so it may where these do: e10, e11, e12");
}

#[test]
fn conditions_that_the_unfolded_net_does_not_tell_of_are_named() {
    let whole = "the unfolded net reaches every marking that the table reaches";
    let one = "conditions: a, b, c [p], k [p]\nx: {a, k} -> {b, c}\nstart: {a, k}\n";
    let told = judged(one);
    let line = format!("\n{whole}, but does not tell of c, which no event reads\n");
    assert!(told.contains(&line), "{told}");
    let two = one.replace("k [p]", "k [p], 4 [p]");
    let told = judged(&two);
    let line = format!("\n{whole}, but does not tell of c, condition 4, which no event reads\n");
    assert!(told.contains(&line), "{told}");
    let none = judged(&one.replace("c [p]", "c"));
    assert!(none.contains(&format!("\n{whole}\n")), "{none}");
    let many = one.replace("k [p]", "k [p], 4..14 [p]");
    let told = lossy::told(&source(&many), &[]);
    let end = "condition 11, condition 12 and 2 more, which no event reads";
    assert!(told[0].ends_with(end), "{told:?}");
}

#[test]
fn nothing_is_said_of_a_net_that_there_is_not() {
    for name in ["unused.txt", "limits-over.txt"] {
        let told = ran(&["judge", name]).out;
        assert!(!told.contains("the unfolded net"), "{told}");
    }
    let told = ran(&["judge", "changeover.txt"]).out;
    let whole = "unfolds to 27 conditions and 1037 events\n\
        the unfolded net reaches every marking that the table reaches\nwarning: ";
    assert!(told.contains(whole), "{told}");
}

#[test]
fn a_forgotten_precondition_is_among_the_warnings() {
    let told = ran(&["judge", "changeover-wrong.txt"]).out;
    let warning = "\nwarning: no event needs a-off, b-feeds, combiner-free, which are only put\n";
    assert!(told.contains(warning), "{told}");
}

#[test]
fn names_that_only_look_alike_are_warned_of() {
    let told = judged("conditions: arm, \u{430}rm\nx: {arm} -> {\u{430}rm}\ny: {\u{430}rm} -> {arm}\nstart: {arm}\n");
    assert!(
        told.contains("warning: line 1, column 18: condition `\u{430}rm` looks like `arm` at line 1, column 13, but its first letter is U+0430"),
        "{told}"
    );
}
