//! Several troubles of one text: each is told, in the order of the text, and none that is only another's consequence.

use text::{lines, read_all, read_log};

/// The troubles of a text that must be wrong, as lines.
fn told(text: &str) -> Vec<String> {
    lines(&read_all(text.as_bytes()).expect_err("this text is wrong"))
}

/// The troubles of a text, each by its place and what is found.
fn found(text: &str) -> Vec<String> {
    let troubles = read_all(text.as_bytes()).expect_err("this text is wrong");
    let brief = |t: &text::Trouble| format!("{}:{} {}", t.place.line, t.place.column, t.found);
    troubles.iter().map(brief).collect()
}

#[test]
fn each_statement_in_error_is_told() {
    let text = "conditions: a, b [p], c\n\
        press: {a -> {b}\n\
        hold: {a, d} -> {b}\n\
        one {a} -> {c}\n\
        two: {a} - {c}\n\
        three = {a} -> {c}\n\
        four: {c} -> {a} again\n\
        five: {c, c} -> {0, a}\n\
        start: [a}\n\
        rule: odl\n\
        table: sha1-0\n\
        run r: press, hold, one, two, three, four, five, six\n\
        run s: hold; five\n\
        run s: hold, hlod\n";
    let condition = "expected the name or number of a condition, found";
    assert_eq!(
        told(text),
        [
            "line 2, column 11: expected `,` or `}`, found `->`".to_string(),
            format!("line 3, column 11: {condition} `d`, which is none"),
            "line 4, column 5: expected `:`, since `one` begins an event, found `{`".to_string(),
            "line 5, column 10: expected `->`, found `-` alone".to_string(),
            "line 6, column 7: expected `:`, since `three` begins an event, found `=`".to_string(),
            "line 7, column 18: expected the end of the line, found `again`".to_string(),
            "line 8, column 11: expected each condition once in a list, found `c` a second time".to_string(),
            "line 8, column 21: expected each condition once in a list, found `a` a second time".to_string(),
            "line 9, column 8: expected `[p]`, found `[a`".to_string(),
            "line 10, column 7: expected `old`, `paper` or a number of at most 255, since `rule:` is the table's rule where no \
             `{` follows, found `odl` (is `old` meant?)".to_string(),
            "line 11, column 8: expected `sha256-` and 8 to 64 hexadecimal digits, since `table:` is the table's digest where no \
             `{` follows, found `sha1-0`".to_string(),
            "line 12, column 50: expected the name or number of an event, found `six`, which is none".to_string(),
            "line 13, column 12: expected a name, a number or one of `{ } , : -> .. [p] #`, found `;`".to_string(),
            "line 14, column 14: expected the name or number of an event, found `hlod`, which is none (is `hold` meant?)".to_string(),
        ]
    );
}

#[test]
fn names_in_a_statement_in_error_are_not_missed_elsewhere() {
    for (text, places) in [
        (
            "conditions: a, b; c, d\nx: {a, c} -> {e}\nstart: {d}\n",
            vec!["1:17 `;`"],
        ),
        (
            "conditions a, b\nx: {a} -> {e}\nstart: {b}\nrun r: y\n",
            vec!["1:12 `a`", "4:8 `y`, which is none"],
        ),
        (
            "condition: a, b\nx: {a} -> {b}\nstart: {b}\n",
            vec!["1:12 `a`"],
        ),
        (
            "places:\n  a\n  b [p]\nx: {a} -> {b}\nstart: {b}\n",
            vec!["2:3 `a`"],
        ),
        (
            "? conditions: a\nx: {a} -> {}\nstart: {a}\n",
            vec!["1:1 `?`"],
        ),
        (
            "conditions: a\npress {a} -> {}\nstart: {a, b}\nrun r: press\n",
            vec!["2:7 `{`", "3:12 `b`, which is none"],
        ),
        (
            "conditions: a\nx: {a\ny = {a} -> {}\nstart: {a}\nrun r: x, y\n",
            vec!["3:1 `y`"],
        ),
        (
            "conditions: a\nx: {a\ny: {a} -> {}\nstart: {a}\nrun r: x, y, z\n",
            vec!["3:1 `y`", "5:14 `z`, which is none"],
        ),
        (
            "conditions: a\nx: {\n  a;\n  b;\n} -> {}\nstart: {a}\nrun r: x\n",
            vec!["3:4 `;`"],
        ),
        (
            "conditions: a\nx {a} -> {}\n1: {a} -> {}\nstart: {a}\nrun r: 1\n",
            vec!["2:3 `{`"],
        ),
        (
            "conditions: 0; 1\nconditions: 2, 3\nx: {0} -> {}\nstart: {}\n",
            vec!["1:14 `;`"],
        ),
        (
            "conditions: a # b\rc: {a} -> {}\nstart: {a}\nrun r: c\n",
            vec!["1:18 a carriage return alone"],
        ),
    ] {
        assert_eq!(found(text), places, "{text}");
    }
}

#[test]
fn a_missing_part_is_not_told_beside_a_statement_in_error() {
    assert_eq!(found("Start: {a}\nconditions: a\n"), ["2:1 `conditions`"]);
    assert_eq!(
        found("x: {a} -> {}\nstart: {a}\nrun r: x, y\n"),
        ["3:11 `y`, which is none", "4:1 the end of the text"]
    );
    assert_eq!(
        found("conditions: a\nx: {b} -> {}\n"),
        ["2:5 `b`, which is none", "3:1 the end of the text"]
    );
}

#[test]
fn a_number_or_name_out_of_place_is_told_once() {
    for (text, places) in [
        ("conditions: 0, 2, 3, 4\nstart: {}\n", vec!["1:16 `2`"]),
        (
            "conditions: 0, 2, 3\nconditions: 4\n5: {0} -> {}\n6: {0} -> {}\nstart: {}\n",
            vec!["1:16 `2`", "3:1 `5`"],
        ),
        (
            "conditions: a, a, 2\nstart: {a, 2}\n",
            vec!["1:16 `a`, which stands at line 1, column 13 already"],
        ),
        (
            "conditions: a\nx: {a} -> {}\nx: {} -> {a}\n2: {a} -> {a}\nstart: {}\n",
            vec!["3:1 `x`, which stands at line 2, column 1 already"],
        ),
        (
            "conditions: 0..65535, a, b\nstart: {}\n",
            vec!["1:13 one more"],
        ),
        (
            "conditions: 0..3\nx: {0..2, 1..3, 2} -> {}\nstart: {}\n",
            vec!["2:11 `1` a second time", "2:17 `2` a second time"],
        ),
        (
            "conditions: a\nstart: {}\nstart: {}\nstart: {}\n",
            vec!["3:1 a second one", "4:1 a second one"],
        ),
    ] {
        assert_eq!(found(text), places, "{text}");
    }
}

#[test]
fn twenty_are_told_and_the_others_counted() {
    let text = |count: usize| {
        let lists: String = (0..count)
            .map(|e| format!("e{e}: {{b}} -> {{}}\n"))
            .collect();
        format!("conditions: a\nstart: {{a}}\n{lists}")
    };
    assert_eq!(told(&text(20)).len(), 20);
    let more = told(&text(21));
    assert_eq!((more.len(), more[20].as_str()), (21, "and 1 more"));
    assert!(
        more[0].starts_with("line 3, column 6: ") && more[19].starts_with("line 22, column 7: ")
    );
    let many = told(&text(5_000));
    assert_eq!(
        (many.len(), many[20].as_str()),
        (21, "and 980 more at least")
    );
    assert_eq!(told(&"x:\n".repeat(5_000))[20], "and 980 more at least");
    let unclosed = told(&"run: {\n".repeat(300_000));
    assert_eq!(
        (unclosed.len(), unclosed[20].as_str()),
        (21, "and 980 more at least")
    );
}

#[test]
fn of_a_text_that_is_none_the_rest_is_not_looked_at() {
    let strange = "; ".repeat(999);
    let later = "start: {a}\nconditions: a, b\nx: {b} -> {}\n";
    let text = |strange: &str| format!("run r: x\ny: {{a}} -> {{c}}\nz {strange}\n{later}");
    assert_eq!(
        found(&text(&strange)),
        ["2:12 `c`, which is none", "3:3 `;`"]
    );
    assert_eq!(found(&text(&format!("{strange};"))), ["3:3 `;`"]);
    let long = "<place id=\"p1\"/>\n".repeat(1_000_000);
    assert_eq!(found(&long), ["1:1 `<`"]);
}

#[test]
fn a_likely_name_is_told_beside_each_of_the_first() {
    let broken = "x;\n".repeat(30).replace("x", "e: {");
    let lists: String = (0..30)
        .map(|e| format!("e{e}: {{key-loded}} -> {{}}\n"))
        .collect();
    let text = format!("conditions: key-loaded\nstart: {{}}\n{lists}{broken}");
    let told = told(&text);
    assert_eq!(told.len(), 21);
    assert!(told[..20]
        .iter()
        .all(|line| line.ends_with("(is `key-loaded` meant?)")));
}

#[test]
fn several_troubles_of_a_log() {
    let table = read_all(b"conditions: a\nload: {} -> {a}\nwork: {a} -> {}\nstart: {}\n").unwrap();
    let told = |text: &str| lines(&read_log(text.as_bytes(), &table).unwrap_err()).join("\n");
    assert_eq!(
        told("run a load\nrun b: laod, work; load\nrun c: wokr\nstart: {}\nrun d: {load}\nrun e: work\n"),
        "line 1, column 7: expected `:` after `a`, the run's name, found `load`\n\
         line 2, column 18: expected a name, a number or one of `{ } , : -> .. [p] #`, found `;`\n\
         line 3, column 8: expected the name or number of an event, found `wokr`, which is none (is `work` meant?)\n\
         line 4, column 1: expected steps or `run`, found `start`, which begins a statement of a table\n\
         line 5, column 8: expected the name or number of an event, as this list has no braces, found `{`"
    );
    assert_eq!(
        told("load; work\n"),
        "line 1, column 5: expected a name, a number or one of `{ } , : -> .. [p] #`, found `;`"
    );
    let other = b"table: sha256-01234567\nload; work\nrun a: off";
    assert_eq!(text::log_digest(other).unwrap().0, "sha256-01234567");
}
