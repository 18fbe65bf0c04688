//! What the command writes with --json: how values are written, and the fields of judge, list and unfold.

mod common;
mod reader;

use std::path::Path;

use command::json::Json;
use common::{folder_with, ran, ran_in, Ran};
use reader::{read, Value};

/// What a command writes that ends with a status and says nothing on the error output.
fn answered(ran: Ran, status: i32) -> String {
    assert_eq!((ran.status, ran.err.as_str()), (status, ""), "{}", ran.out);
    assert!(ran.out.ends_with("}\n"), "{}", ran.out);
    ran.out
}

/// What stands under each of some paths of an answer, in short.
fn told(json: &str, paths: &[&str]) -> Vec<String> {
    let read = read(json);
    paths.iter().map(|path| read.at(path).told()).collect()
}

#[test]
fn values_are_written_as_json_has_them() {
    let text = |text: &str| Json::from(text).to_string();
    for (value, written) in [
        (Json::Null, "null"),
        (true.into(), "true"),
        (false.into(), "false"),
        (u64::MAX.into(), "18446744073709551615"),
        (Json::List(vec![]), "[]"),
        (Json::Object(vec![]), "{}"),
        ([7_u16, 8, 9].as_slice().into(), "[7, 8, 9]"),
        (Some(5_u16).into(), "5"),
        (None::<u16>.into(), "null"),
        (
            Json::Object(vec![
                ("a", 1_u16.into()),
                ("b", Json::List(vec![Json::Null])),
            ]),
            "{\"a\": 1, \"b\": [null]}",
        ),
    ] {
        assert_eq!(value.to_string(), written);
    }
    assert_eq!(text(""), "\"\"");
    assert_eq!(text("a \"b\" \\c/"), "\"a \\\"b\\\" \\\\c/\"");
    assert_eq!(text("\n\r\t"), "\"\\n\\r\\t\"");
    assert_eq!(
        text("\0\u{1f}\u{7f}\u{85}"),
        "\"\\u0000\\u001f\\u007f\\u0085\""
    );
    assert_eq!(text("Ω→😀\u{2028}"), "\"Ω→😀\u{2028}\"");
}

#[test]
fn every_character_comes_back() {
    let all: String = (0..=0x1f6ff).filter_map(char::from_u32).collect();
    let json = Json::from(all.as_str()).to_string();
    assert!(read(&json) == Value::Text(all));
}

#[test]
fn a_file_of_any_name_is_told() {
    let name = "a \"b\"\\\n\u{1}é.txt";
    let folder = folder_with(&[(name, b"conditions: a\nx: {} -> {}\nstart: {}\n")]);
    let answer = answered(ran_in(folder.path(), &["judge", "--json", name]), 1);
    assert_eq!(answer.lines().count(), 1);
    let place = format!("event 0 `x`, line 2 of {name}");
    assert_eq!(told(&answer, &["refused/where"]), [place]);
}

const DIGEST: &str = "sha256-54e70ef9e5a32dee31d925e4d3207671edde31288075c58fa0fe9b52b31e899c";

#[test]
fn a_table_is_judged() {
    let answer = answered(ran(&["judge", "net-b.txt", "--json"]), 0);
    let what = "event 0 came before, at step 0, and marks condition 1, which event 1 uses; the unfolded net has no such run";
    let place = "step 1 of run `twice`, counted from 0: event 0, line 10, column 15 of net-b.txt";
    let expected = format!(
        "{{\"accepted\": true, \"digest\": \"{DIGEST}\", \
         \"conditions\": [{{\"name\": null, \"persistent\": false}}, {{\"name\": null, \"persistent\": true}}], \
         \"events\": [{{\"name\": null}}, {{\"name\": null}}], \"rule\": null, \
         \"unfolding\": {{\"conditions\": 3, \"events\": 3}}, \"lossy\": [], \"warnings\": [], \
         \"runs\": [{{\"name\": \"once\", \"called\": \"run `once`\", \"steps\": 2, \"outcome\": \"lifts\", \
         \"end\": [0, 1], \"lifted\": [0, 2], \"refused\": null}}, \
         {{\"name\": \"twice\", \"called\": \"run `twice`\", \"steps\": 2, \"outcome\": \"plays\", \
         \"end\": [0, 1], \"lifted\": null, \"refused\": {{\"number\": 15, \"place\": 1, \"by\": null, \
         \"line\": \"refused 15 at 1\", \"what\": \"{what}\", \"where\": \"{place}\"}}}}], \"refused\": null}}\n"
    );
    assert_eq!(answer, expected);
}

#[test]
fn names_rules_warnings_and_refused_runs_are_told() {
    let answer = answered(ran(&["judge", "--json", "rack-old.txt"]), 0);
    for (path, expected) in [
        ("rule", "old"),
        (
            "conditions/*/name",
            "[feeds, half-power, full-power, key-loaded]",
        ),
        ("conditions/*/persistent", "[false, false, false, true]"),
        ("events/*/name", "[load-key, raise, lower]"),
        ("unfolding", "{conditions 5, events 4}"),
        ("runs/*/outcome", "[refused, lifts]"),
        ("runs/*/steps", "[4, 1]"),
        ("runs/*/end", "[null, [0, 1, 3]]"),
        ("runs/*/lifted", "[null, [0]]"),
        ("runs/0/refused/number", "12"),
        ("runs/0/refused/place", "1"),
        ("runs/0/refused/by", "0"),
        ("runs/0/refused/line", "refused 12 at 1 by 0"),
        ("refused", "null"),
    ] {
        assert_eq!(told(&answer, &[path]), [expected], "{path}");
    }
    let warnings = told(&answer, &["warnings"]).concat();
    assert!(
        warnings.starts_with("[no run can fire raise (takes feeds "),
        "{warnings}"
    );
    let paper = folder_with(&[("t.txt", b"rule: paper\nconditions: a\nstart: {a}\n")]);
    let answer = answered(ran_in(paper.path(), &["judge", "--json", "t.txt"]), 0);
    assert_eq!(told(&answer, &["rule", "runs"]), ["paper", "[]"]);
    answered(
        ran(&["judge", "--json", "--strict", "rack-old.txt", "up"]),
        1,
    );
}

#[test]
fn lossy_events_are_told_by_their_numbers() {
    let text = "conditions: a, b, k [p], c, l [p]\nuse: {k, l} -> {c}\ngo: {a} -> {b, k}\nback: {b} -> {a}\nmark: {} -> {l}\n\
        once: {c} -> {a, l}\nstart: {a}\n";
    let folder = folder_with(&[("t.txt", text.as_bytes())]);
    let answer = answered(ran_in(folder.path(), &["judge", "--json", "t.txt"]), 0);
    assert_eq!(told(&answer, &["lossy"]), ["[1, 4]"]);
}

#[test]
fn what_is_refused_is_told() {
    let folder = folder_with(&[("t.txt", b"conditions: a\nx: {} -> {}\nstart: {}\nrun: x\n")]);
    let digest = "sha256-";
    for command in ["judge", "list", "unfold"] {
        let plain = ran_in(folder.path(), &[command, "t.txt"]);
        assert_eq!((plain.status, plain.out.as_str()), (1, "refused 7 at 5\n"));
        let answer = answered(ran_in(folder.path(), &[command, "t.txt", "--json"]), 1);
        let begins = format!("{{\"accepted\": false, \"digest\": \"{digest}");
        assert!(answer.starts_with(&begins), "{answer}");
        let ends = ", \"refused\": {\"number\": 7, \"place\": 5, \"by\": null, \"line\": \"refused 7 at 5\", \
             \"what\": \"the event has neither a precondition nor a postcondition\", \"where\": \"event 0 `x`, line 2 of t.txt\"}}\n";
        assert!(answer.ends_with(ends), "{answer}");
    }
}

#[test]
fn a_table_that_does_not_unfold_is_told() {
    let answer = answered(ran(&["judge", "--json", "unused.txt"]), 0);
    let paths = [
        "accepted",
        "unfolding",
        "refused/number",
        "runs/0/outcome",
        "runs/0/refused/number",
    ];
    assert_eq!(told(&answer, &paths), ["true", "null", "13", "plays", "13"]);
    let answer = answered(ran(&["unfold", "--json", "limits-over.txt"]), 1);
    assert_eq!(told(&answer, &paths[..3]), ["true", "null", "14"]);
    let answer = answered(ran(&["list", "--json", "unused.txt"]), 1);
    let paths = ["start", "steps", "end", "outcome", "refused/line"];
    let steps = "[{event 0, name null, unfolded null, marking [0]}]";
    assert_eq!(
        told(&answer, &paths),
        ["[]", steps, "null", "plays", "refused 13 at 0"]
    );
}

#[test]
fn an_unfolding_is_counted() {
    let answer = answered(ran(&["unfold", "net-b.txt", "--json"]), 0);
    let counts = "\"unfolding\": {\"conditions\": 3, \"events\": 3}, \"refused\": null";
    let expected = format!("{{\"accepted\": true, \"digest\": \"{DIGEST}\", {counts}}}\n");
    assert_eq!(answer, expected);
}

#[test]
fn a_run_is_listed() {
    let answer = answered(ran(&["list", "net-b.txt", "once", "--json"]), 0);
    let step = |event: u16, unfolded: u16, marking: &str| {
        format!("{{\"event\": {event}, \"name\": null, \"unfolded\": {unfolded}, \"marking\": {marking}}}")
    };
    let steps = [step(0, 0, "[0, 1]"), step(1, 2, "[0, 1]")].join(", ");
    let expected = format!(
        "{{\"name\": \"once\", \"called\": \"run `once`\", \"start\": [0], \"steps\": [{steps}], \
         \"end\": {{\"unfolded\": [0, 2]}}, \"outcome\": \"lifts\", \"refused\": null}}\n"
    );
    assert_eq!(answer, expected);
    let answer = answered(ran(&["list", "--json", "rack-old.txt"]), 1);
    let paths = [
        "steps/*/name",
        "steps/*/unfolded",
        "end",
        "outcome",
        "refused/line",
    ];
    let refused = [
        "[load-key]",
        "[0]",
        "null",
        "refused",
        "refused 12 at 1 by 0",
    ];
    assert_eq!(told(&answer, &paths), refused);
}

#[test]
fn several_runs_are_listed_on_a_line_each() {
    let runs = ["list", "--json", "net-a.txt", "round", "early", "empty"];
    let answer = answered(ran(&runs), 1);
    let lines: Vec<&str> = answer.lines().collect();
    assert_eq!(lines.len(), 3);
    for (line, expected) in lines.iter().zip([
        ["round", "[0, 1, 2, 1]", "{unfolded [3, 4]}", "lifts"],
        ["early", "[0]", "null", "refused"],
        ["empty", "[]", "{unfolded [0]}", "lifts"],
    ]) {
        let paths = ["name", "steps/*/event", "end", "outcome"];
        assert_eq!(told(line, &paths), expected);
    }
    let fine = ran(&["list", "--json", "net-a.txt", "round", "empty"]);
    assert_eq!(answered(fine, 0).lines().count(), 2);
    let folder = folder_with(&[("odd.bin", &[1, 0, 4, 0, 0])]);
    let net = format!("{}/examples/net-a.txt", common::TOP);
    let answer = ran_in(folder.path(), &["list", "--json", &net, "odd.bin"]);
    let paths = ["name", "called", "start", "steps", "refused/number"];
    let odd = ["null", "odd.bin", "[0]", "[]", "3"];
    assert_eq!(told(&answered(answer, 1), &paths), odd);
}

/// The names of all fields of a value and of what it holds.
fn fields(value: &Value) -> Vec<String> {
    match value {
        Value::Word(_) | Value::Text(_) => Vec::new(),
        Value::List(items) => items.iter().flat_map(fields).collect(),
        Value::Object(own) => {
            let all =
                |(name, value): &(String, Value)| [vec![name.clone()], fields(value)].concat();
            own.iter().flat_map(all).collect()
        }
    }
}

#[test]
fn the_page_has_every_field() {
    let page = include_str!("../../../docs/JSON.md");
    for words in [
        &["judge", "changeover.txt"][..],
        &["list", "changeover.txt"],
        &["list", "changeover.txt", "hasty"],
        &["unfold", "limits-over.txt"],
    ] {
        let answer = ran(&[words, &["--json"]].concat()).out;
        for field in fields(&read(&answer)) {
            assert!(page.contains(&format!("`{field}`")), "{field}");
        }
    }
}

#[test]
fn the_status_is_the_same_with_json_and_without() {
    let examples = Path::new(common::TOP).join("examples");
    for (name, run) in [
        ("net-a.txt", "round"),
        ("net-a.txt", "early"),
        ("net-b.txt", "twice"),
        ("net-o.txt", "late"),
        ("unused.txt", "once"),
        ("changeover.txt", "night"),
        ("changeover.txt", "hasty"),
    ] {
        for words in [
            &["judge", name][..],
            &["list", name, run],
            &["judge", name, run, "--strict"],
        ] {
            let plain = ran_in(&examples, words);
            let json = ran_in(&examples, &[words, &["--json"]].concat());
            assert_eq!(json.status, plain.status, "{words:?}");
            assert!(
                json.out.starts_with("{\"") && json.err.is_empty(),
                "{words:?}"
            );
        }
    }
}

#[test]
fn wrong_use_stays_text() {
    for (words, status, said) in [
        (&["judge", "--json"][..], 2, "TABLE is missing"),
        (
            &["judge", "--json", "nothing-like-it.txt"],
            2,
            "there is no such file",
        ),
        (
            &["list", "--json", "net-a.txt", "rond"],
            2,
            "(is 'round' meant?)",
        ),
        (
            &["unfold", "--json", "--names", "net-a.txt"],
            2,
            "there is no option '--names' here",
        ),
        (&["unfold", "--json", "README.md"], 1, "expected"),
    ] {
        let told = ran(words);
        assert_eq!((told.status, told.out.as_str()), (status, ""));
        assert!(
            told.err.starts_with("dovetrellis: ") && told.err.contains(said),
            "{}",
            told.err
        );
    }
}
