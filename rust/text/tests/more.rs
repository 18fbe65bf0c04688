//! Text tables: more troubles, each with its place, several of one text, names that look the same, and where the elements of lists stand.

use second::generator::Random;
use text::{read_all, Table};

/// Net A in words, with its run.
const NET_A: &str = "# Net A in words.

conditions: idle, on, key-loaded [p], done

load: {idle} -> {on, key-loaded}   # marks the persistent condition
work: {on, key-loaded} -> {done}
again: {done} → {on}

start: {idle}
run night: load, work, again, work
";

/// The table of a text that must be sound.
fn table(text: &str) -> Table {
    read_all(text.as_bytes()).unwrap_or_else(|troubles| panic!("{troubles:?}\n{text}"))
}

/// The troubles of a text, as they are told, each on a line.
fn told(text: &[u8]) -> String {
    let troubles = read_all(text).expect_err("this text is wrong");
    let lines: Vec<String> = troubles.iter().map(|t| t.to_string()).collect();
    lines.join("\n")
}

#[test]
fn a_run_is_meant_by_its_name_or_its_number() {
    let text = "conditions: a\nx: {} -> {a}\nstart: {}\nrun: x\nrun none:\nrun far: 65535\n";
    let net = table(text);
    for (word, index) in [("0", 0), ("far", 2), ("1", 1), ("2", 2)] {
        assert_eq!(net.run_meant(word), Some(index), "{word}");
    }
    for word in ["3", "01", "+1", ""] {
        assert_eq!(net.run_meant(word), None, "{word}");
    }
}

#[test]
fn more_troubles_of_rules() {
    let whose = "since `rule:` is the table's rule where no `{` follows";
    for (text, expected) in [
        ("rule: оld", format!("line 4, column 7: expected `old`, `paper` or a number of at most 255, {whose}, found `оld` (its first letter is U+043E and not the `o` of `old`)")),
    ] {
        let before = "conditions: a, b [p]\nx: {a} -> {b}\nstart: {a}\n";
        assert_eq!(told(format!("{before}{text}").as_bytes()), expected);
    }
}

#[test]
fn more_troubles_of_conditions() {
    for (text, expected) in [
        ("conditions a b", "column 12: expected `:`, found `a`"),
        ("conditions = a", "column 12: expected `:`, found `=`"),
        ("conditions\n  a", "column 11: expected `:`, since `conditions` is a word of the notation and cannot be a name (`conditions-1` can), found the end of the line"),
        ("соnditions: a", "column 13: expected `{`, since `соnditions` begins an event (its first letter is U+0441 and not the `c` of `conditions`), found `a`"),
        ("conditions: a-, b", "column 14: expected `->`, or a single dash within a name, found `-,`"),
    ] {
        let expected = format!("line 2, {expected}");
        assert_eq!(told(format!("start: {}\n{text}", "{}").as_bytes()), expected);
    }
}

#[test]
fn more_troubles_of_other_statements() {
    let before = "conditions: a, b [p]\nx: {a} -> {b}\nstart: {a}\n";
    for (statement, expected) in [
                ("y = {a} -> {b}", "line 4, column 3: expected `:`, since `y` begins an event, found `=`"),
        ("y: {a} => {b}", "line 4, column 8: expected `->`, since `y` begins an event, found `=`"),
        ("y: = {a} -> {b}", "line 4, column 4: expected `{`, since `y` begins an event, found `=`"),
        ("run night x, x", "line 4, column 11: expected `:` after `night`, the run's name, found `x`"),
        ("run night\n  x, x", "line 4, column 10: expected `:` after `night`, the run's name, found the end of the line"),
        ("run night = x", "line 4, column 11: expected `:` after `night`, the run's name, found `=`"),
        ("run x, x", "line 4, column 6: expected `:` after `x`, the run's name, or before it for none, found `,`"),
        ("run r: x\ny {a} -> {b}", "line 5, column 3: expected `:`, since `y` begins an event, found `{`"),
        ("run r: x\n1 = {a} -> {b}", "line 5, column 3: expected `:`, since `1` begins an event, found `=`"),
        ("run r: x\nrule old", "line 5, column 6: expected `:`, since `rule` begins the table's rule or an event, found `old`"),
        ("run r: x\ntable sha256-01234567", "line 5, column 7: expected `:`, since `table` begins the table's digest or an event, found `sha256-01234567`"),
        ("tabel: sha256-01234567", "line 4, column 8: expected `{`, since `tabel` begins an event (is `table` meant?), found `sha256-01234567`"),
        ("conditions: c\ny {a} -> {b}\nz {c} -> {d}", "line 5, column 3: expected `:`, since `y` begins an event, found `{`\nline 6, column 3: expected `:`, since `z` begins an event, found `{`"),
    ] {
        assert_eq!(told(format!("{before}{statement}").as_bytes()), expected);
    }
}

#[test]
fn a_word_of_the_notation_is_one_trouble() {
    for word in ["conditions", "start", "run"] {
        let why = format!("is a word of the notation and cannot be a name (`{word}-1` can)");
        let found = format!("found `{word}`, which {why}");
        let since = format!("since `{word}` {why}, found");
        for (text, place, said) in [
            (
                format!("conditions: a, {word}"),
                "line 1, column 16",
                &found,
            ),
            (
                format!("conditions:\n  {word}\n  a"),
                "line 2, column",
                &since,
            ),
            (
                format!("conditions:\n  {word} [p], a"),
                "line 2, column",
                &since,
            ),
            (format!("{word}: {{a}} -> {{}}"), "line 1, column", &since),
            (
                format!("x: {{a, {word}}} -> {{}}"),
                "line 1, column 8",
                &found,
            ),
            (
                format!("x: {{\n  a,\n  {word},\n}} -> {{}}"),
                "line 3, column 3",
                &found,
            ),
            (
                format!("x: {{\n  a\n  {word}\n}} -> {{}}"),
                "line 3, column 3",
                &found,
            ),
            (format!("run {word}: x"), "line 1, column 5", &found),
            (format!("run r: x, {word}"), "line 1, column 11", &found),
            (
                format!("run r:\n  x\n  {word}\nx: {{}} -> {{0}}"),
                "line 3, column",
                &since,
            ),
        ] {
            let told = told(text.as_bytes());
            assert!(
                told.starts_with(place) && told.contains(said) && told.lines().count() == 1,
                "{text}\n{told}"
            );
        }
        let other = format!("conditions: {word}-1\n{word}-1: {{}} -> {{{word}-1}}\nstart: {{}}");
        assert_eq!(table(&other).condition_name(0), format!("{word}-1"));
    }
}

#[test]
fn a_start_without_its_colon_is_told() {
    let text = "conditions: a\nstart {a}";
    assert_eq!(
        told(text.as_bytes()),
        "line 2, column 7: expected `:`, found `{`"
    );
    let text = "conditions: a\nstart = {a}";
    assert_eq!(
        told(text.as_bytes()),
        "line 2, column 7: expected `:`, found `=`"
    );
}

#[test]
fn a_letter_that_looks_like_another_is_told_by_its_number() {
    let condition = "expected the name or number of a condition, found";
    for (known, wrong, said) in [
        (
            "arm",
            "аrm",
            "whose first letter is U+0430 and not the `a` of `arm`",
        ),
        (
            "аrm",
            "arm",
            "whose first letter is `a` and not the U+0430 of `аrm`",
        ),
        (
            "ready",
            "reаdу",
            "whose third letter is U+0430 and not the `a` of `ready`",
        ),
        (
            "power-on",
            "power-οn",
            "whose letter 7 is U+03BF and not the `o` of `power-on`",
        ),
        (
            "Ready",
            "Ｒeady",
            "whose first letter is U+FF32 and not the `R` of `Ready`",
        ),
        (
            "b2",
            "b２",
            "whose second letter is U+FF12 and not the `2` of `b2`",
        ),
        (
            "on",
            "𝐨n",
            "whose first letter is U+1D428 and not the `o` of `on`",
        ),
        (
            "x1",
            "х1",
            "whose first letter is U+0445 and not the `x` of `x1`",
        ),
        (
            "х1",
            "χ1",
            "whose first letter is U+03C7 and not the U+0445 of `х1`",
        ),
        (
            "HOT",
            "ΗOT",
            "whose first letter is U+0397 and not the `H` of `HOT`",
        ),
        (
            "IV",
            "ІV",
            "whose first letter is U+0406 and not the `I` of `IV`",
        ),
        ("arm", "ärm", "which is none (is `arm` meant?)"),
        ("arm", "аrn", "which is none"),
    ] {
        let text = format!("conditions: {known}\nstart: {{{wrong}}}");
        let expected = format!("line 2, column 9: {condition} `{wrong}`, {said}");
        assert_eq!(told(text.as_bytes()), expected);
    }
    let run = "conditions: a\nload: {} -> {a}\nstart: {}\nrun r: lоad";
    assert!(told(run.as_bytes()).ends_with(
        "an event, found `lоad`, whose second letter is U+043E and not the `o` of `load`"
    ));
}

#[test]
fn names_that_look_the_same_are_found() {
    let net = table(
        "conditions: arm, on, аrm, b\narm: {arm} -> {аrm}\nоn: {b} -> {}\non: {} -> {b}\n\
         start: {}\nrun arm: arm\nrun b: on",
    );
    let found = text::look_alikes(&net);
    let told: Vec<String> = found.iter().map(|pair| pair.to_string()).collect();
    assert_eq!(
        told,
        [
            "line 1, column 22: condition `аrm` looks like `arm` at line 1, column 13, \
             but its first letter is U+0430 and not the `a` of `arm`",
            "line 4, column 1: event `on` looks like `оn` at line 3, column 1, \
             but its first letter is `o` and not the U+043E of `оn`",
        ]
    );
    assert_eq!((found[0].of, found[0].other.as_str()), ("condition", "arm"));
    assert_eq!(text::look_alikes(&table(NET_A)), []);
}

#[test]
fn elements_of_lists_are_kept_with_their_places() {
    let net = table("conditions: a, b, c\nx: {c, 0..1} -> {\n  b}\nstart: {2, a}");
    let kept = |listed: &[text::Listed]| {
        let kept = listed
            .iter()
            .map(|l| (l.first, l.last, l.place.line, l.place.column));
        kept.collect::<Vec<_>>()
    };
    assert_eq!(
        kept(&net.events[0].listed),
        [(2, 2, 2, 5), (0, 1, 2, 8), (1, 1, 3, 3)]
    );
    assert_eq!(kept(&net.start_listed), [(2, 2, 4, 9), (0, 0, 4, 12)]);
}

#[test]
fn every_trouble_of_damaged_text_has_its_place() {
    let mut random = Random::given();
    let marks: Vec<char> = "{}[]p,:->.#\n 09az→é".chars().collect();
    let ruled = format!("rule: old\n{}", NET_A.replace("work", "rule"));
    let mut wrong = 0;
    for case in 0..30_000 {
        let mut text: Vec<char> = [NET_A, &ruled][case % 2].chars().collect();
        for _ in 0..random.between(1, 3) {
            let at = random.below(text.len());
            match random.below(3) {
                0 => text[at] = marks[random.below(marks.len())],
                1 => text.insert(at, marks[random.below(marks.len())]),
                _ => drop(text.remove(at)),
            }
        }
        let text: String = text.into_iter().collect();
        match read_all(text.as_bytes()) {
            Ok(net) => assert_eq!(table(&net.text()).bytes(), net.bytes()),
            Err(troubles) => {
                wrong += 1;
                assert!(troubles.is_sorted_by_key(|trouble| trouble.place));
                let lines: Vec<&str> = text.split('\n').collect();
                for trouble in &troubles {
                    let line = lines[trouble.place.line - 1];
                    let column = trouble.place.column;
                    assert!(
                        (1..=line.chars().count() + 1).contains(&column),
                        "{trouble}\n{text}"
                    );
                }
                assert!(!troubles.is_empty());
            }
        }
    }
    assert!(wrong > 5_000);
}
