//! Text tables: the notation, what is packed as written, every trouble with its place, and back from bytes.

use second::generator::{any_net, any_walk, damaged, walk, Random};
use second::records::{word_bytes, RUN};
use second::table::{read_table, table_bytes};
use text::{is_text, read, steps_of, Part, Place, Table};

/// Net A in words, with its run.
const NET_A: &str = "# Net A in words.

conditions: idle, on, key-loaded [p], done

load: {idle} -> {on, key-loaded}   # marks the persistent condition
work: {on, key-loaded} -> {done}
again: {done} → {on}

start: {idle}
run night: load, work, again, work
";

/// The table of a text that must be sound.
fn table(text: &str) -> Table {
    read(text.as_bytes()).unwrap_or_else(|trouble| panic!("{trouble}\n{text}"))
}

/// The trouble of a text, as it is told.
fn told(text: &[u8]) -> String {
    read(text).expect_err("this text is wrong").to_string()
}

/// The number of the refusal that a text's table gets, or 0.
fn refused(text: &str) -> u8 {
    read_table(&table(text).bytes()).map_or_else(|refusal| refusal.number, |_| 0)
}

#[test]
fn net_a_is_packed() {
    let net = table(NET_A);
    let bytes = [
        4, 0, 1, 0, 0, 0, 1, 0, 10, 0, 2, 0, 1, 0, 2, 0, 0, 0, 1, 0, 2, 0, 10, 0, 2, 0, 2, 0, 1, 0,
        1, 0, 2, 0, 3, 0, 8, 0, 2, 0, 1, 0, 1, 0, 3, 0, 1, 0, 2, 0, 3, 0, 0, 0,
    ];
    assert_eq!(net.bytes(), bytes);
    assert_eq!(net.runs[0].bytes(), [8, 0, 4, 0, 0, 0, 1, 0, 2, 0, 1, 0]);
    assert_eq!(net.run_called("night"), Some(0));
    assert_eq!(net.events[1].place, Place { line: 6, column: 1 });
    assert_eq!(
        net.runs[0].places[3],
        Place {
            line: 10,
            column: 31
        }
    );
}

#[test]
fn net_a_is_shown() {
    let bytes = table(NET_A).bytes();
    let shown = Table::of_bytes(&bytes).unwrap().text();
    let expected = "conditions: 0, 1, 2 [p], 3\n\n0: {0} -> {1, 2}\n1: {1, 2} -> {3}\n2: {3} -> {1}\n\nstart: {0}\n";
    assert_eq!(shown, expected);
    assert_eq!(table(&shown).bytes(), bytes);
}

#[test]
fn one_table_in_many_layouts() {
    let bytes = table(NET_A).bytes();
    for text in [
        "conditions: 0, 1, 2 [p], 3\n0:{0}->{1,2}\n1:{1,2}->{3}\n2:{3}->{1}\nstart:{0}",
        "conditions: 0..1\nconditions:\n  2 [p]\n\n  3,\nstart: {0}\n0: {0} -> {2, 1}\n1: {1..2} -> {3}\n2: {3} -> {1}\n",
        "\u{feff}start: { a }\r\nu: {\r\n  a\r\n} -> {\r\n b\r\n p, }\r\nv: {p, b}\n  -> {d}\nw: {d} -> {b}\nconditions: a, b # two\n, p [p]\n d",
    ] {
        assert_eq!(table(text).bytes(), bytes, "{text}");
    }
}

#[test]
fn runs_in_many_layouts() {
    let text = "conditions: a\nx: {} -> {a}\ny: {a} -> {}\nstart: {}\nrun: x, y\n  0\n  1, x\nrun none:\nrun far: 65535\n";
    let net = table(text);
    let steps: Vec<_> = net.runs.iter().map(|run| run.steps.clone()).collect();
    assert_eq!(steps, [vec![0, 1, 0, 1, 0], vec![], vec![65_535]]);
    assert_eq!(net.run_called("0"), Some(0));
    assert_eq!(net.run_called("far"), Some(2));
    assert_eq!(net.run_called("1"), None);
    assert_eq!(steps_of(&net.runs[0].bytes()), Some(vec![0, 1, 0, 1, 0]));
}

/// A text without a rule, into which a statement is put before a line, counted from 0.
fn with_statement(line: usize, statement: &str) -> String {
    let mut lines: Vec<&str> = NET_A.lines().collect();
    lines.insert(line, statement);
    lines.join("\n")
}

#[test]
fn a_rule_is_packed_first_wherever_it_stands() {
    let bare = table(NET_A);
    assert_eq!((bare.rule, bare.is_old()), (None, false));
    for (statement, byte) in [
        ("rule: old", 1),
        ("rule: paper", 0),
        ("  rule : 1  # the racks", 1),
        ("rule: 0", 0),
        ("rule:2", 2),
        ("rule: 255", 255),
    ] {
        for line in 0..=NET_A.lines().count() {
            let net = table(&with_statement(line, statement));
            assert_eq!(
                net.bytes(),
                [&[1, 0, 6, 0, byte], &bare.bytes()[..]].concat()
            );
            assert_eq!((net.rule, net.is_old()), (Some(byte), byte == 1));
            assert_eq!(net.rule_place.line, line + 1);
            assert_eq!(net.runs[0].bytes(), bare.runs[0].bytes());
        }
    }
}

#[test]
fn a_rule_is_shown_first() {
    let bare = Table::of_bytes(&table(NET_A).bytes()).unwrap().text();
    assert!(bare.starts_with("conditions: "));
    for (byte, word) in [(0, "paper"), (1, "old"), (9, "9")] {
        let net = table(&format!("{NET_A}\nrule: {byte}\n"));
        let shown = Table::of_bytes(&net.bytes()).unwrap();
        assert_eq!(shown.text(), format!("rule: {word}\n\n{bare}"));
        assert_eq!(table(&shown.text()).bytes(), net.bytes());
        assert!(net
            .text()
            .starts_with(&format!("rule: {word}\n\nconditions:\n")));
    }
    for payload in [&[][..], &[0, 0]] {
        let record = second::records::record_bytes(6, payload);
        let bytes = [record, table(NET_A).bytes()].concat();
        assert_eq!(Table::of_bytes(&bytes), None);
    }
    let twice = table(&with_statement(0, "rule: 1")).bytes();
    assert_eq!(Table::of_bytes(&[&twice[..5], &twice].concat()), None);
}

#[test]
fn rule_is_a_name_as_before() {
    let events = "conditions: rule, old [p]\nrule: {rule} -> {old}\nstart: {rule}\nrun rule: rule";
    for text in [
        events.to_string(),
        events.replace("rule: {rule} -> ", "rule:\n\n  {rule}\n -> "),
        events.replace("rule: {rule} -> ", "rule : # whose?\n{rule\n} -> "),
        events.replace("rule, old", "\n  rule\n  old"),
        events.replace("{rule} -> {old}", "{\n  rule\n} -> {\nold\n}"),
        events.replace("start: {rule}", "start: {\n  rule\n}"),
        events.replace("run rule: rule", "run rule:\n\n  rule\n"),
    ] {
        let net = table(&text);
        assert_eq!((net.rule, net.events.len()), (None, 1), "{text}");
        assert_eq!(net.bytes(), table(events).bytes(), "{text}");
        assert_eq!(net.event_name(0), "rule");
        assert_eq!(net.condition_name(0), "rule");
        assert_eq!(
            (net.run_called("rule"), &net.runs[0].steps[..]),
            (Some(0), &[0][..])
        );
    }
    let both = table(&events.replace("start:", "rule: old\nstart:"));
    assert_eq!((both.rule, both.event_name(0).as_str()), (Some(1), "rule"));
    assert_eq!(both.bytes()[5..], table(events).bytes());
    let after_list = "conditions:\n  a\n  rule\nrule: old\nx: {a} -> {}\nstart: {}\nrun r: x\nrule: {a} -> {rule}";
    let net = table(after_list);
    assert_eq!((net.conditions.len(), net.events.len()), (2, 2));
    assert_eq!((net.rule, net.rule_place.line), (Some(1), 4));
}

#[test]
fn troubles_of_rules() {
    let whose = "since `rule:` is the table's rule where no `{` follows";
    for (text, expected) in [
        ("rule:", format!("line 4, column 6: expected `old`, `paper` or a number of at most 255, {whose}, found the end of the text")),
        ("rule:\nold", format!("line 4, column 6: expected `old`, `paper` or a number of at most 255, {whose}, found the end of the line")),
        ("rule: Old", format!("line 4, column 7: expected `old`, `paper` or a number of at most 255, {whose}, found `Old` (is `old` meant?)")),
        ("rule: papre", format!("line 4, column 7: expected `old`, `paper` or a number of at most 255, {whose}, found `papre` (is `paper` meant?)")),
        ("rule: a -> {}", format!("line 4, column 7: expected `old`, `paper` or a number of at most 255, {whose}, found `a`")),
        ("rule: 256", format!("line 4, column 7: expected `old`, `paper` or a number of at most 255, {whose}, found `256`")),
        ("rule: 65536", "line 4, column 7: expected a number of at most 65535, found `65536`".to_string()),
        ("rule: 0..1", "line 4, column 8: expected the end of the line, found `..`".to_string()),
        ("rule: old, paper", "line 4, column 10: expected the end of the line, found `,`".to_string()),
        ("rule old", "line 4, column 6: expected `:`, since `rule` begins the table's rule or an event, found `old`".to_string()),
        ("rule: {a}", "line 4, column 10: expected `->`, since `rule` begins an event, found the end of the text".to_string()),
        ("Rule: old", "line 4, column 7: expected `{`, since `Rule` begins an event (is `rule` meant?), found `old`".to_string()),
        ("ruel: old", "line 4, column 7: expected `{`, since `ruel` begins an event (is `rule` meant?), found `old`".to_string()),
        ("rule: old\nrule: old", "line 5, column 1: expected one `rule:` at most, found a second one".to_string()),
        ("rule: old\n\nrule: {a} -> {}\nrule: 0", "line 7, column 1: expected one `rule:` at most, found a second one".to_string()),
        ("rule: {a} -> {}\nrule: {a} -> {}", "line 5, column 1: expected a name that no other event has, found `rule`, which stands at line 4, column 1 already".to_string()),
    ] {
        let before = "conditions: a, b [p]\nx: {a} -> {b}\nstart: {a}\n";
        assert_eq!(told(format!("{before}{text}").as_bytes()), expected);
    }
}

#[test]
fn what_the_judge_refuses_is_packed_as_written() {
    assert_eq!(refused("rule: 1\nconditions: a\nstart: {}"), 0);
    assert_eq!(refused("rule: 2\nconditions: a\nstart: {}"), 4);
    assert_eq!(refused("conditions:\nstart: {}\nrule: 255"), 4);
    assert_eq!(refused("conditions:\nstart: {}"), 3);
    assert_eq!(refused("conditions: 0..255\nstart: {}"), 0);
    assert_eq!(refused("conditions: 0..256\nstart: {}"), 3);
    assert_eq!(refused("conditions: a\nx: {a} -> {1}\nstart: {}"), 5);
    assert_eq!(refused("conditions: a\nstart: {65535}"), 5);
    assert_eq!(refused("conditions: a\nx: {} -> {}\nstart: {}"), 7);
    assert_eq!(
        refused("conditions: 0..16 [p]\nx: {0..16} -> {}\nstart: {}"),
        8
    );
    assert_eq!(
        refused("conditions: 0..16 [p]\nx: {0..15} -> {}\nstart: {}"),
        0
    );
    let events = |count: usize| {
        (0..count)
            .map(|e| format!("{e}: {{0}} -> {{}}\n"))
            .collect::<String>()
    };
    assert_eq!(
        refused(&format!("conditions: 0\n{}start: {{}}", events(256))),
        0
    );
    assert_eq!(
        refused(&format!("conditions: 0\n{}start: {{}}", events(257))),
        6
    );
}

#[test]
fn a_part_that_is_missing_is_told() {
    assert_eq!(
        told(b""),
        "line 1, column 1: expected `conditions:` somewhere, found the end of the text"
    );
    assert_eq!(
        told(b"conditions: a\n"),
        "line 2, column 1: expected `start:` somewhere, found the end of the text"
    );
    assert_eq!(
        told(b"conditions: a\n# caf\xe9\nstart: {}"),
        "line 2, column 6: expected text in UTF-8, found the byte 0xe9, which is none (save the file as UTF-8)"
    );
}

#[test]
fn a_carriage_return_alone_hides_no_line() {
    for (text, place) in [
        (
            "conditions: a # one\rx: {a} -> {}\nstart: {}",
            "line 1, column 20",
        ),
        ("conditions: a\rstart: {}", "line 1, column 14"),
        ("conditions: a\r\nstart: {}\r", "line 2, column 10"),
    ] {
        let said = "expected a line feed at the end of the line, found a carriage return alone";
        assert_eq!(told(text.as_bytes()), format!("{place}: {said}"));
    }
    assert_eq!(table("conditions: a # one\r\nstart: {a}\r\n").start, [0]);
    for odd in ['\u{85}', '\u{2028}', '\u{2029}'] {
        let text = format!("conditions: a # one{odd}x: {{a}} -> {{}}\nstart: {{}}");
        let said = format!("found U+{:04X} alone", u32::from(odd));
        let told = told(text.as_bytes());
        assert!(
            told.starts_with("line 1, column 20: ") && told.ends_with(&said),
            "{told}"
        );
    }
}

#[test]
fn troubles_of_conditions() {
    for (text, expected) in [
        ("conditions a", "column 12: expected `:`, found `a`"),
        ("conditions: a b", "column 15: expected `[p]`, `,` or the end of the line, found `b`"),
        ("conditions: a [p] b", "column 19: expected `,` or the end of the line, found `b`"),
        ("conditions: a [q]", "column 15: expected `[p]`, found `[q`"),
        ("conditions: a.b", "column 14: expected `..`, found `.b`"),
        ("conditions: a--b", "column 14: expected `->`, or a single dash within a name, found `--`"),
        ("conditions: {a}", "column 13: expected the name or number of a condition, as this list has no braces, found `{`"),
        ("conditions: a,\u{a0}b", "column 15: expected a name, a number or one of `{ } , : -> .. [p] #`, found U+00A0, which is a blank but no space"),
        ("conditions: a\u{308}", "column 14: expected a name, a number or one of `{ } , : -> .. [p] #`, found the accent U+0308, which must be one character with its letter"),
        ("conditions: a – b", "column 15: expected a name, a number or one of `{ } , : -> .. [p] #`, found `–`, which is U+2013"),
        ("conditions: a,, b", "column 15: expected the name or number of a condition, found `,`"),
        ("conditions: a, 2", "column 16: expected 1, the number of the condition that stands here, or a name, found `2`"),
        ("conditions: 0..3, 3", "column 19: expected 4, the number of the condition that stands here, or a name, found `3`"),
        ("conditions: start", "column 13: expected the name or number of a condition, found `start`, which is a word of the notation and cannot be a name (`start-1` can)"),
        ("conditions: 5..3", "column 16: expected a number from 5 on, where the range ends, found `3`"),
        ("conditions: 7up", "column 13: expected a number, or a name that begins with a letter, found `7up`"),
        ("conditions: a; b", "column 14: expected a name, a number or one of `{ } , : -> .. [p] #`, found `;`"),
        ("conditions: a, a", "column 16: expected a name that no other condition has, found `a`, which stands at line 2, column 13 already"),
    ] {
        let expected = format!("line 2, {expected}");
        assert_eq!(told(format!("start: {}\n{text}", "{}").as_bytes()), expected);
    }
}

#[test]
fn troubles_of_other_statements() {
    let before = "conditions: a, b [p]\nx: {a} -> {b}\nstart: {a}\n";
    for (statement, expected) in [
        ("y {a}", "line 4, column 3: expected `:`, since `y` begins an event, found `{`"),
        ("runs r: x", "line 4, column 6: expected `:`, since `runs` begins an event (is `run` meant?), found `r`"),
        ("y: a", "line 4, column 4: expected `{`, since `y` begins an event, found `a`"),
        ("condition:\n  c", "line 5, column 3: expected `{`, since `condition` begins an event (is `conditions` meant?), found `c`"),
        ("Start: {a}", "line 4, column 11: expected `->`, since `Start` begins an event (is `start` meant?), found the end of the text"),
        ("y: {a} {b}", "line 4, column 8: expected `->`, since `y` begins an event, found `{`"),
        ("y: {a} - {b}", "line 4, column 8: expected `->`, found `-` alone"),
        ("y: {a b} -> {}", "line 4, column 7: expected `,` or `}`, found `b`"),
        ("y: {a [p]} -> {}", "line 4, column 7: expected `,` or `}`, found `[p]`"),
        ("y: {a} -> {b", "line 4, column 13: expected `,` or `}`, found the end of the text"),
        ("y: {a} -> {b\nz: {a} -> {}", "line 5, column 1: expected `}` for the `{` at line 4, column 11, found `z`"),
        ("y: {a,\n  b\nrun r: x", "line 6, column 1: expected `}` for the `{` at line 4, column 4, found `run`"),
        ("y: {a} -> {b\n", "line 5, column 1: expected `}` for the `{` at line 4, column 11, found the end of the text"),
        ("y: {a} -> {b} z", "line 4, column 15: expected the end of the line, found `z`"),
        ("y: {a, a} -> {}", "line 4, column 8: expected each condition once in a list, found `a` a second time"),
        ("y: {b, 0..1} -> {}", "line 4, column 8: expected each condition once in a list, found `b` a second time"),
        ("y: {aa} -> {}", "line 4, column 5: expected the name or number of a condition, found `aa`, which is none (is `a` meant?)"),
        ("y: {xyz} -> {}", "line 4, column 5: expected the name or number of a condition, found `xyz`, which is none"),
        ("y: {65536} -> {}", "line 4, column 5: expected a number of at most 65535, found `65536`"),
        ("y: {0..65535} -> {}", "line 4, column 4: expected at most 32765 conditions, which fill a record, found 65536"),
        ("0: {a} -> {}", "line 4, column 1: expected 1, the number of the event that stands here, or a name, found `0`"),
        ("x: {a} -> {}", "line 4, column 1: expected a name that no other event has, found `x`, which stands at line 2, column 1 already"),
        ("start: {a}", "line 4, column 1: expected one `start:`, found a second one"),
        ("run r: x, z", "line 4, column 11: expected the name or number of an event, found `z`, which is none"),
        ("run r: x, 0..1", "line 4, column 12: expected `,` or the end of the line, found `..`"),
        ("run r: {x}", "line 4, column 8: expected the name or number of an event, as this list has no braces, found `{`"),
        ("run {x}", "line 4, column 5: expected a name for the run, or `:`, found `{`"),
        ("run r: x\nrun  r: x", "line 5, column 6: expected a name that no other run has, found `r`, which stands at line 4, column 5 already"),
        ("run r: x y: {a} -> {}", "line 4, column 10: expected `,` or the end of the line, found `y`"),
        ("run r: x, y: {a} -> {}", "line 4, column 12: expected `,` or the end of the line, found `:`"),
        ("} -> {", "line 4, column 1: expected `conditions:`, `start:`, `run`, `rule:` or an event's name, found `}`"),
    ] {
        assert_eq!(told(format!("{before}{statement}").as_bytes()), expected);
    }
}

#[test]
fn a_word_of_the_notation_is_no_name() {
    for word in ["conditions", "start", "run"] {
        let why = format!("is a word of the notation and cannot be a name (`{word}-1` can)");
        let found = format!("found `{word}`, which {why}");
        let since = format!("since `{word}` {why}, found");
        for (text, place, said) in [
            (
                format!("conditions: a, {word}"),
                "line 1, column 16",
                &found,
            ),
            (
                format!("conditions:\n  {word}\n  a"),
                "line 2, column",
                &since,
            ),
            (
                format!("conditions:\n  {word} [p], a"),
                "line 2, column",
                &since,
            ),
            (format!("{word}: {{a}} -> {{}}"), "line 1, column", &since),
            (
                format!("x: {{a, {word}}} -> {{}}"),
                "line 1, column 8",
                &found,
            ),
            (
                format!("x: {{\n  a,\n  {word},\n}} -> {{}}"),
                "line 3, column 3",
                &found,
            ),
            (
                format!("x: {{\n  a\n  {word}\n}} -> {{}}"),
                "line 3, column 3",
                &found,
            ),
            (format!("run {word}: x"), "line 1, column 5", &found),
            (format!("run r: x, {word}"), "line 1, column 11", &found),
            (format!("run r:\n  x\n  {word}\n"), "line 3, column", &since),
        ] {
            let told = told(text.as_bytes());
            assert!(
                told.starts_with(place) && told.contains(said),
                "{text}\n{told}"
            );
        }
        let other = format!("conditions: {word}-1\n{word}-1: {{}} -> {{{word}-1}}\nstart: {{}}");
        assert_eq!(table(&other).condition_name(0), format!("{word}-1"));
    }
}

#[test]
fn a_long_name_is_told_by_its_beginning() {
    let (long, told_so) = ("ä".repeat(61), format!("`{}...`", "ä".repeat(60)));
    for text in [
        format!("conditions: {long}, {long}\nstart: {{}}"),
        format!("conditions: a\nstart: {{{long}}}"),
        format!("conditions: {long}\nstart: {{0, {long}}}"),
        format!("conditions: a {long}\nstart: {{}}"),
        format!("conditions: 7{long}\nstart: {{}}"),
    ] {
        let told = told(text.as_bytes());
        assert!(told.contains(&told_so[3..]) && told.len() < 300, "{told}");
    }
    let name = "b".repeat(60);
    assert!(
        told(format!("conditions: a\nstart: {{{name}}}").as_bytes()).contains(&format!("`{name}`"))
    );
}

#[test]
fn the_nearest_known_name_is_told() {
    let table = "conditions: on, set, key-loaded, größe\nstart: {}\n";
    for (wrong, near) in [
        ("no", "on"),
        ("ste", "set"),
        ("key-laoded", "key-loaded"),
        ("ky-loadde", "key-loaded"),
        ("grösse", "größe"),
    ] {
        let said = format!("found `{wrong}`, which is none (is `{near}` meant?)");
        let told = told(format!("{table}x: {{{wrong}}} -> {{}}").as_bytes());
        assert!(told.ends_with(&said), "{told}");
    }
    for wrong in ["off", "tes", "o", "loaded"] {
        let told = told(format!("{table}x: {{{wrong}}} -> {{}}").as_bytes());
        assert!(told.ends_with("which is none"), "{told}");
    }
    let run = told(format!("{table}seal: {{}} -> {{on}}\nrun: sael").as_bytes());
    assert!(
        run.ends_with("found `sael`, which is none (is `seal` meant?)"),
        "{run}"
    );
    assert_eq!(
        text::nearest(&"a".repeat(101), ["a".repeat(101).as_str()].into_iter()),
        None
    );
}

#[test]
fn columns_count_characters() {
    let text = "conditions: größe, größe";
    assert!(told(format!("{text}\nstart: {{}}").as_bytes())
        .starts_with("line 1, column 20: expected a name that"));
}

#[test]
fn parts_are_found_by_offset() {
    let net = table(NET_A);
    let parts: Vec<_> = [0, 8, 22, 36, 48, 54, 9]
        .iter()
        .map(|o| net.part_at(*o))
        .collect();
    let event = |e| Some(Part::Event(e));
    assert_eq!(
        parts,
        [
            Some(Part::Conditions),
            event(0),
            event(1),
            event(2),
            Some(Part::Start),
            None,
            None
        ]
    );
    let ruled = table(&format!("{NET_A}rule: old\n"));
    let parts: Vec<_> = [0, 5, 13, 53, 8]
        .iter()
        .map(|o| ruled.part_at(*o))
        .collect();
    let expected = [
        Some(Part::Rule),
        Some(Part::Conditions),
        event(0),
        Some(Part::Start),
        None,
    ];
    assert_eq!(parts, expected);
}

#[test]
fn generated_tables_come_back() {
    let mut random = Random::given();
    for _ in 0..3_000 {
        let net = any_net(&mut random);
        let bytes = table_bytes(&net);
        assert!(!is_text(&bytes));
        let mut shown = Table::of_bytes(&bytes).unwrap();
        let way = any_walk(&mut random);
        let steps = walk(&mut random, &net, net.events.len(), &way);
        let run_bytes = second::records::record_bytes(RUN, &word_bytes(&steps));
        assert_eq!(steps_of(&run_bytes), Some(steps.clone()));
        shown.runs.push(text::Run {
            steps,
            ..text::Run::default()
        });
        let text = shown.text();
        assert!(is_text(text.as_bytes()));
        let again = table(&text);
        assert_eq!(again.bytes(), bytes, "{text}");
        assert_eq!(again.runs[0].bytes(), run_bytes, "{text}");
        assert_eq!(again.text(), text);
    }
}

/// Names one condition or one event `rule` now and then.
fn name_rule(random: &mut Random, table: &mut Table) {
    let (condition, event) = (random.below(9), random.below(9));
    if let Some(condition) = table.conditions.get_mut(condition) {
        condition.name = Some("rule".to_string());
    }
    if let Some(event) = table.events.get_mut(event) {
        event.name = Some("rule".to_string());
    }
}

#[test]
fn names_come_back() {
    let mut random = Random::given();
    for _ in 0..2_000 {
        let net = second::generator::small_net(&mut random);
        let mut shown = Table::of_bytes(&table_bytes(&net)).unwrap();
        for (number, condition) in shown.conditions.iter_mut().enumerate() {
            condition.name = random.percent(60).then(|| format!("c-{number}_é"));
        }
        for (number, event) in shown.events.iter_mut().enumerate() {
            event.name = random.percent(60).then(|| format!("e{number}"));
        }
        name_rule(&mut random, &mut shown);
        let text = shown.text();
        let again = table(&text);
        assert_eq!(again.bytes(), shown.bytes(), "{text}");
        assert_eq!(again.text(), text);
        let names = |t: &Table| {
            t.conditions
                .iter()
                .map(|c| c.name.clone())
                .collect::<Vec<_>>()
        };
        assert_eq!(names(&again), names(&shown));
    }
}

#[test]
fn damaged_text_is_told_or_taken() {
    let mut random = Random::given();
    let marks: Vec<char> = "{}[]p,:->.#\n 09az→é".chars().collect();
    let ruled = format!("rule: old\n{}", NET_A.replace("work", "rule"));
    let mut wrong = 0;
    for case in 0..30_000 {
        let mut text: Vec<char> = [NET_A, &ruled][case % 2].chars().collect();
        for _ in 0..random.between(1, 3) {
            let at = random.below(text.len());
            match random.below(3) {
                0 => text[at] = marks[random.below(marks.len())],
                1 => text.insert(at, marks[random.below(marks.len())]),
                _ => drop(text.remove(at)),
            }
        }
        let text: String = text.into_iter().collect();
        match read(text.as_bytes()) {
            Ok(net) => assert_eq!(table(&net.text()).bytes(), net.bytes()),
            Err(trouble) => {
                wrong += 1;
                let lines: Vec<&str> = text.split('\n').collect();
                let line = lines[trouble.place.line - 1];
                let column = trouble.place.column;
                assert!(
                    (1..=line.chars().count() + 1).contains(&column),
                    "{trouble}\n{text}"
                );
            }
        }
    }
    assert!(wrong > 5_000);
}

#[test]
fn damaged_bytes_are_no_panic() {
    let mut random = Random::given();
    for _ in 0..20_000 {
        let net = second::generator::small_net(&mut random);
        if net.events.is_empty() {
            continue;
        }
        let broken = damaged(&mut random, &net);
        if let Some(shown) = Table::of_bytes(&broken.bytes) {
            shown.text();
        }
        let _ = read(&broken.bytes);
        let _ = steps_of(&broken.bytes);
    }
}
