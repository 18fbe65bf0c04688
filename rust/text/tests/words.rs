//! Single words for markings and events of a table.

use text::{read, read_event, read_set, Table};

/// A table with named and unnamed conditions and events.
fn table() -> Table {
    let text = "conditions: hand-on, k [p], 2..5, lamp\n\
                press: {} -> {k}\n1: {2} -> {3}\nrule: {4} -> {}\nstart: {}\n";
    read(text.as_bytes()).unwrap()
}

#[test]
fn markings_are_read_by_names_and_numbers() {
    for (word, set) in [
        ("{}", &[][..]),
        (" { } ", &[]),
        ("{hand-on, k}", &[0, 1]),
        ("{k,hand-on,}", &[0, 1]),
        ("hand-on, k", &[0, 1]),
        ("lamp", &[6]),
        ("{0, 1, 6}", &[0, 1, 6]),
        ("6", &[6]),
        ("2..4, lamp", &[2, 3, 4, 6]),
        ("{3..3}", &[3]),
        ("{lamp,\n k}", &[1, 6]),
    ] {
        assert_eq!(read_set(word, &table()).as_deref(), Ok(set), "{word}");
    }
}

#[test]
fn what_is_no_marking_is_told_by_its_place() {
    let condition = "expected the name or number of a condition, found";
    for (word, said) in [
        (
            "",
            "1: expected a marking, which is `{}` where nothing holds, found the end of the word"
                .to_string(),
        ),
        (
            "{kk}",
            format!("2: {condition} `kk`, which is none (is `k` meant?)"),
        ),
        (
            "k, lmap",
            format!("4: {condition} `lmap`, which is none (is `lamp` meant?)"),
        ),
        ("{press}", format!("2: {condition} `press`, which is none")),
        (
            "{k, 7}",
            format!("5: {condition} `7`, and the last condition is 6"),
        ),
        (
            "{2..9}",
            format!("5: {condition} `9`, and the last condition is 6"),
        ),
        (
            "{4..2}",
            "5: expected a number from 4 on, where the range ends, found `2`".to_string(),
        ),
        (
            "{2..}",
            "5: expected a number from 2 on, where the range ends, found `}`".to_string(),
        ),
        (
            "{k, 2..5, 3}",
            "11: expected each condition once in a list, found `3` a second time".to_string(),
        ),
        (
            "k, 1",
            "4: expected each condition once in a list, found `k` a second time".to_string(),
        ),
        (
            "{k",
            "3: expected `,` or `}`, found the end of the word".to_string(),
        ),
        (
            "k}",
            "2: expected `,` or the end of the word, found `}`".to_string(),
        ),
        (
            "{k lamp}",
            "4: expected `,` or `}`, found `lamp`".to_string(),
        ),
        ("{,}", format!("2: {condition} `,`")),
        (
            "{k} lamp",
            "5: expected the end of the word, found `lamp`".to_string(),
        ),
        (
            "65536",
            "1: expected a number of at most 65535, found `65536`".to_string(),
        ),
        (
            "k; lamp",
            "2: expected a name, a number or one of `{ } , : -> .. [p] #`, found `;`".to_string(),
        ),
    ] {
        let trouble = read_set(word, &table()).unwrap_err();
        assert_eq!(
            trouble.to_string(),
            format!("line 1, column {said}"),
            "{word}"
        );
    }
    let none = read_set("0", &Table::default()).unwrap_err();
    assert_eq!(none.found, "`0`, and there are none");
    let nameless = Table::of_bytes(&table().bytes()).unwrap();
    let none = "`k`, which is none, as the table has numbers and no names";
    assert_eq!(read_set("{k}", &nameless).unwrap_err().found, none);
    assert_eq!(read_event("k", &nameless).unwrap_err().found, none);
}

#[test]
fn events_are_read_by_name_or_number() {
    for (word, event) in [
        ("press", 0),
        ("0", 0),
        ("1", 1),
        ("rule", 2),
        (" 2 ", 2),
        ("7", 7),
        ("65535", 65535),
    ] {
        assert_eq!(read_event(word, &table()), Ok(event), "{word}");
    }
    let event = "expected the name or number of an event, found";
    for (word, said) in [
        (
            "pres",
            format!("1: {event} `pres`, which is none (is `press` meant?)"),
        ),
        ("lamp", format!("1: {event} `lamp`, which is none")),
        ("", format!("1: {event} the end of the word")),
        ("{press}", format!("1: {event} `{{`")),
        (
            "press, 1",
            "6: expected the end of the word, found `,`".to_string(),
        ),
        (
            "65536",
            "1: expected a number of at most 65535, found `65536`".to_string(),
        ),
    ] {
        let trouble = read_event(word, &table()).unwrap_err();
        assert_eq!(
            trouble.to_string(),
            format!("line 1, column {said}"),
            "{word}"
        );
    }
}
