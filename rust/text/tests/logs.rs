//! Runs in a text of their own, and the digests that texts state.

use second::generator::Random;
use text::{digest, log_digest, read_all, read_log, Log, Place, Table};

/// A table with names, and one without.
const NET: &str =
    "conditions: idle, on, key [p]\nload: {idle} -> {on, key}\nwork: {on, key} -> {}\n\
    table: {} -> {on}\nstart: {idle}\n";
const BARE: &str = "conditions: 0, 1\n0: {0} -> {1}\n1: {1} -> {0}\nstart: {0}\n";

/// The table of a text that must be sound.
fn table(text: &str) -> Table {
    read_all(text.as_bytes()).unwrap_or_else(|troubles| panic!("{troubles:?}\n{text}"))
}

/// The runs of a text that must be sound, for the table with names.
fn log(text: &str) -> Log {
    read_log(text.as_bytes(), &table(NET)).unwrap_or_else(|t| panic!("{t:?}\n{text}"))
}

/// The name and the steps of each run.
fn runs(text: &str) -> Vec<(Option<String>, Vec<u16>)> {
    let runs = log(text).runs.into_iter();
    runs.map(|run| (run.name, run.steps)).collect()
}

/// The troubles of a text as runs of a table, each on a line.
fn told_of(net: &str, text: &[u8]) -> String {
    let troubles = read_log(text, &table(net)).expect_err("this text is wrong");
    let lines: Vec<String> = troubles.iter().map(|t| t.to_string()).collect();
    lines.join("\n")
}

/// The troubles of a text as runs of the table with names.
fn told(text: &str) -> String {
    told_of(NET, text.as_bytes())
}

#[test]
fn digests_are_as_the_standard_has_them() {
    let two_blocks = "abcdbcdecdefdefgefghfghighijhijkijkljklmklmnlmnomnopnopq";
    for (bytes, digits) in [
        (
            String::new(),
            "e3b0c44298fc1c149afbf4c8996fb92427ae41e4649b934ca495991b7852b855",
        ),
        (
            "abc".to_string(),
            "ba7816bf8f01cfea414140de5dae2223b00361a396177a9cb410ff61f20015ad",
        ),
        (
            two_blocks.to_string(),
            "248d6a61d20638b8e5c026930c3e6039a33ce45964ff2167f6ecedd419db06c1",
        ),
        (
            "a".repeat(1_000_000),
            "cdc76e5c9914fb9281a1c7e284d73e67f1809a48a497200e046d39ccc7112cd0",
        ),
    ] {
        assert_eq!(digest(bytes.as_bytes()), format!("sha256-{digits}"));
    }
    let lengths: std::collections::BTreeSet<String> =
        (0..200).map(|n| digest(&vec![0; n])).collect();
    assert_eq!(lengths.len(), 200);
}

#[test]
fn steps_alone_are_one_run() {
    for text in [
        "load, work, load",
        "load\nwork\nload\n",
        "# at night\n\n  load, # first\r\n  work,\r\n  0\r\n",
        "\u{feff}0, 1\n0,",
        "load\ntable: sha256-00000000\nwork\nload\n",
    ] {
        assert_eq!(runs(text), [(None, vec![0, 1, 0])], "{text}");
    }
    let places: Vec<(usize, usize)> = log("# at night\nload, work\n table").runs[0]
        .places
        .iter()
        .map(|place| (place.line, place.column))
        .collect();
    assert_eq!(places, [(2, 1), (2, 7), (3, 2)]);
    assert_eq!(runs("65535"), [(None, vec![65_535])]);
}

#[test]
fn runs_of_a_log_are_as_those_of_a_table() {
    let text = "run night: load, work\n  table\nrun:\nrun day: 1\nrun: 0, 0";
    let some = |name: &str| Some(name.to_string());
    let expected = [
        (some("night"), vec![0, 1, 2]),
        (None, vec![]),
        (some("day"), vec![1]),
        (None, vec![0, 0]),
    ];
    assert_eq!(runs(text), expected);
    let names: Vec<String> = (0..4).map(|index| log(text).run_name(index)).collect();
    assert_eq!(names, ["night", "1", "day", "3"]);
    let within = table(&format!("{NET}{text}"));
    let steps = |runs: &[text::Run]| runs.iter().map(|r| r.bytes()).collect::<Vec<_>>();
    assert_eq!(steps(&within.runs), steps(&log(text).runs));
    assert_eq!(runs("run:"), [(None, vec![])]);
}

#[test]
fn troubles_of_logs() {
    let step = "expected the name or number of an event, found";
    let kind = "expected steps or `run`, found";
    for (text, expected) in [
        ("lod, work\n wrok", format!("line 1, column 1: {step} `lod`, which is none (is `load` meant?)\nline 2, column 2: {step} `wrok`, which is none (is `work` meant?)")),
        ("run night: load, off", format!("line 1, column 18: {step} `off`, which is none")),
        ("", "line 1, column 1: expected a run: its steps, or `run:` for a run without steps, found the end of the text".to_string()),
        ("# nothing\n\n", "line 3, column 1: expected a run: its steps, or `run:` for a run without steps, found the end of the text".to_string()),
        ("table: sha256-12345678", "line 1, column 23: expected a run: its steps, or `run:` for a run without steps, found the end of the text".to_string()),
        ("load\nrun night: load", "line 2, column 1: expected steps, since this text begins with steps that no `run` states, found `run`".to_string()),
        ("run night: load\ntable: sha256-12345678\nwork", "line 3, column 1: expected `run`, since other runs of this text begin with it, found steps without it".to_string()),
        ("run a: load\nrun a: work", "line 2, column 5: expected a name that no other run has, found `a`, which stands at line 1, column 5 already".to_string()),
        ("load, 0..1", "line 1, column 8: expected `,` or the end of the line, found `..`".to_string()),
        ("load work", "line 1, column 6: expected `,` or the end of the line, found `work`".to_string()),
        ("{load}", format!("line 1, column 1: {step} `{{`")),
        ("night: load", format!("line 1, column 1: {kind} `night` and a colon, which begin an event (is `run night:` meant?)")),
        ("load\nstart: {}", format!("line 2, column 1: {kind} `start`, which begins a statement of a table")),
        ("load\nwork {0} -> {1}\nload", format!("line 2, column 1: {kind} `work`, which begins a statement of a table")),
        ("table {0} -> {1}", format!("line 1, column 1: {kind} `table`, which begins a statement of a table")),
        ("load\ntable work", format!("line 2, column 1: {kind} `table`, which begins a statement of a table")),
        ("load work\ntable: sha256-0", "line 1, column 6: expected `,` or the end of the line, found `work`\nline 2, column 8: expected `sha256-` and 8 to 64 hexadecimal digits, since `table:` is the table's digest where no `{` follows, found `sha256-0`, which has 1 digit".to_string()),
        ("rule: old\nload", format!("line 1, column 1: {kind} `rule`, which begins a statement of a table")),
        ("0: {0} -> {1}", format!("line 1, column 1: {kind} `0`, which begins a statement of a table")),
        ("table: sha256-12345678\nload\ntable: sha256-12345679", "line 3, column 1: expected the `table:` that is stated above, found another one".to_string()),
        (NET, format!("line 1, column 1: {kind} `conditions`, so this is a table, whose own runs 'dovetrellis judge' takes")),
        ("run r: load\n\n  conditions: a", format!("line 3, column 3: {kind} `conditions`, so this is a table, whose own runs 'dovetrellis judge' takes")),
    ] {
        assert_eq!(told(text), expected, "{text}");
    }
    let long = told(&"load, ".repeat(32_768));
    assert_eq!(
        long,
        "line 1, column 1: expected at most 32767 steps, which fill a record, found 32768"
    );
    let half = "load, ".repeat(20_000);
    let parted = told(&format!("{half}\ntable: sha256-01234567\n{half}"));
    assert!(
        parted.ends_with("expected at most 32767 steps, which fill a record, found 40000"),
        "{parted}"
    );
    assert_eq!(
        told_of(BARE, b"0, 1, load"),
        format!("line 1, column 7: {step} `load`, which is none, as the table's events have numbers and no names")
    );
    let without = "conditions: a\nstart: {}";
    assert_eq!(
        told_of(without, b"load"),
        format!("line 1, column 1: {step} `load`, which is none")
    );
    assert!(told_of(NET, b"load, \xe9").starts_with("line 1, column 7: expected text in UTF-8, "));
}

#[test]
fn a_text_states_the_digest_of_its_table() {
    let whole = digest(&table(NET).bytes());
    for (stated, kept) in [
        (whole.as_str(), whole.as_str()),
        ("sha256-0123abcd", "sha256-0123abcd"),
        ("sha256-0123ABCDEF", "sha256-0123abcdef"),
    ] {
        for text in [
            format!("table: {stated}\n{NET}"),
            format!("{NET}run r: load\n  table : {stated} # as of today\n"),
            NET.replace("load:", &format!("table: {stated}\nload:")),
        ] {
            let net = table(&text);
            assert_eq!(net.digest.as_ref().unwrap().0, kept);
            assert_eq!(net.bytes(), table(NET).bytes());
        }
        let text = format!("load\ntable: {stated}\n");
        let place = Place { line: 2, column: 8 };
        assert_eq!(log(&text).digest, Some((kept.to_string(), place)));
        assert_eq!(log_digest(text.as_bytes()), log(&text).digest);
    }
    assert_eq!((table(NET).digest, log("load").digest), (None, None));
    assert_eq!(log_digest(b"load"), None);
}

#[test]
fn a_stated_digest_is_shown_first() {
    let net = table(&format!("rule: old\n{NET}table: sha256-0123ABCD\n"));
    let text = net.text();
    assert!(text.starts_with("table: sha256-0123abcd\n\nrule: old\n\nconditions:\n"));
    assert_eq!(table(&text).digest.unwrap().0, "sha256-0123abcd");
    assert_eq!(table(&text).bytes(), net.bytes());
}

#[test]
fn table_is_a_name_as_before() {
    let net = "conditions: table, a\ntable: {table} -> {a}\nstart: {table}\nrun table: table\n";
    for text in [
        net.to_string(),
        net.replace("table: {table}", "table:\n\n  {table}\n"),
        net.replace("conditions: table", "conditions:\n  table\n  "),
        net.replace("run table: table", "run table:\n  table"),
    ] {
        let read = table(&text);
        assert_eq!((read.digest, read.events.len()), (None, 1), "{text}");
        assert_eq!(read.runs[0].steps, [0]);
    }
    let both = table(&format!("{net}table: sha256-01234567\n"));
    assert_eq!((both.digest.is_some(), both.events.len()), (true, 1));
}

#[test]
fn troubles_of_digests() {
    let due = "expected `sha256-` and 8 to 64 hexadecimal digits, since `table:` is the table's digest where no `{` follows, found";
    let long = format!("sha256-{}", "0".repeat(65));
    for (stated, found) in [
        ("sha256-1234567", "`sha256-1234567`, which has 7 digits"),
        (&long, &format!("`{}...`, which has 65 digits", &long[..60])),
        (
            "sha256-1234567g",
            "`sha256-1234567g`, in which `g` is no such digit",
        ),
        ("sha256", "`sha256`"),
        ("md5-12345678", "`md5-12345678`"),
        ("net-a", "`net-a`"),
        ("12", "`12`"),
        ("", "the end of the line"),
    ] {
        let text = format!("table: {stated}\n{NET}");
        let troubles = read_all(text.as_bytes()).unwrap_err();
        assert_eq!(
            troubles[0].to_string(),
            format!("line 1, column 8: {due} {found}")
        );
        assert_eq!(
            told(&format!("table: {stated}\nload")),
            troubles[0].to_string()
        );
    }
    let more = read_all(format!("{NET}table: sha256-12345678, 1").as_bytes()).unwrap_err();
    assert_eq!(
        more[0].to_string(),
        "line 6, column 23: expected the end of the line, found `,`"
    );
    let twice = format!("table: sha256-12345678\n{NET}table: sha256-12345679");
    let twice = read_all(twice.as_bytes()).unwrap_err();
    assert_eq!(
        twice[0].to_string(),
        "line 7, column 1: expected the `table:` that is stated above, found another one"
    );
    assert_eq!(twice.len(), 1);
    let again = format!("table: sha256-12345678\n{NET}table: sha256-12345678");
    assert!(read_all(again.as_bytes()).is_ok());
}

#[test]
fn damaged_logs_are_told_or_taken() {
    let mut random = Random::given();
    let marks: Vec<char> = "{}[]p,:->.=;#\n\r 09az→é".chars().collect();
    let texts = [
        "table: sha256-01234567\n# at night\nrun night: load, work\n  table\nrun: 0, 1\n",
        "load, work\ntable\ntable: sha256-01234567\n0, 1 # so far\n",
    ];
    let net = table(NET);
    let mut wrong = 0;
    for case in 0..20_000 {
        let mut text: Vec<char> = texts[case % 2].chars().collect();
        for _ in 0..random.between(1, 3) {
            let at = random.below(text.len());
            match random.below(3) {
                0 => text[at] = marks[random.below(marks.len())],
                1 => text.insert(at, marks[random.below(marks.len())]),
                _ => drop(text.remove(at)),
            }
        }
        let text: String = text.into_iter().collect();
        match read_log(text.as_bytes(), &net) {
            Ok(log) => {
                assert!(!log.runs.is_empty());
                assert_eq!(log.digest, log_digest(text.as_bytes()));
                let sound = |run: &text::Run| run.steps.len() == run.places.len();
                assert!(log.runs.iter().all(sound));
            }
            Err(troubles) => {
                wrong += 1;
                assert!(troubles.is_sorted_by_key(|trouble| trouble.place) && !troubles.is_empty());
                let lines: Vec<&str> = text.split('\n').collect();
                let stands = |t: &text::Trouble| {
                    let line = lines[t.place.line - 1].chars().count();
                    (1..=line + 1).contains(&t.place.column)
                };
                assert!(troubles.iter().all(stands), "{troubles:?}\n{text}");
            }
        }
    }
    assert!(wrong > 5_000, "{wrong}");
}
