//! Refusals in words as they are meant for the next version, as the second implementation refuses them; nothing is asked of a driver.

use command::lister::Folder;
use command::next::VARIABLE as NEXT;
use command::source::{read, Source};
use command::stop::Told;
use second::calls::judge;
use second::records::{record_bytes, RULE};
use second::table::{table_bytes, Event, Net};
use wire::Refusal;

/// A file as the command takes it, whose refusals are to be told as they are meant for the next version.
fn source(name: &str, bytes: &[u8]) -> Source {
    std::env::set_var(NEXT, "1");
    let folder = Folder::new().unwrap();
    folder.write(name, bytes).unwrap();
    let path = folder.path().join(name).display().to_string();
    let read = read(&path).unwrap_or_else(|stop| panic!("{stop:?}"));
    Source {
        path: name.to_string(),
        ..read
    }
}

/// A refusal of the second implementation as the driver would give it.
fn refusal_of(refusal: second::refusal::Refusal) -> Refusal {
    Refusal {
        number: u64::from(refusal.number),
        place: refusal.place as u64,
        by: refusal.by.map(u64::from),
    }
}

/// What is told of a table that must be refused.
fn told(source: &Source) -> Told {
    let refusal = judge(&source.bytes).expect_err("this table is refused");
    source.told(refusal_of(refusal))
}

/// The number, the place, what is meant and where it is, in one line.
fn line(source: &Source) -> String {
    let Told {
        refusal,
        what,
        place,
    } = told(source);
    format!("{refusal}: {what}: {place}")
}

#[test]
fn a_refused_rule_of_a_text_is_told_by_its_line() {
    let text = "conditions: a\nx: {a} -> {a}\n\nrule: 7\nstart: {a}\n";
    assert_eq!(
        line(&source("t.txt", text.as_bytes())),
        "refused 4 at 0: the rule's byte is neither 0, the paper's rule, nor 1, the old rule: `rule:`, line 4 of t.txt"
    );
    for (text, place) in [
        ("rule: old\nconditions:\nstart: {}\n", "refused 3 at 5: the record's length is not right for its kind: there are 1 to 256 conditions: the conditions of t.txt"),
        ("conditions: a\nrule: old\nx: {} -> {}\nstart: {}\n", "refused 7 at 10: the event has neither a precondition nor a postcondition: event 0 `x`, line 3 of t.txt"),
        ("conditions: a\nrule: {} -> {}\nstart: {}\n", "refused 7 at 5: the event has neither a precondition nor a postcondition: event 0 `rule`, line 2 of t.txt"),
        ("conditions: a\nrule: paper\nstart: {1}\n", "refused 5 at 10: a list names condition 1, and the table has condition 0 alone: `start:`, line 3, column 9 of t.txt"),
    ] {
        assert_eq!(line(&source("t.txt", text.as_bytes())), place);
    }
}

#[test]
fn a_number_that_is_no_condition_is_told_by_its_place() {
    let front = "conditions: a, b, c, d\nx: {a} -> {b}\n";
    for (rest, said) in [
        (
            "y: {7} -> {a}\nstart: {}\n",
            "refused 5 at 20: a list names condition 7, and the table has conditions 0 to 3: event 1 `y`, line 3, column 5 of t.txt",
        ),
        (
            "1: {a,\n  b} -> {c,\n  4, 3}\nstart: {9}\n",
            "refused 5 at 20: a list names condition 4, and the table has conditions 0 to 3: event 1, line 5, column 3 of t.txt",
        ),
        (
            "y: {0..7} -> {5}\nstart: {}\n",
            "refused 5 at 20: a list names conditions 0 to 7, and the table has conditions 0 to 3: event 1 `y`, line 3, column 5 of t.txt",
        ),
        (
            "start: {d, 65535, 5}\n",
            "refused 5 at 20: a list names condition 65535, and the table has conditions 0 to 3: `start:`, line 3, column 12 of t.txt",
        ),
    ] {
        let text = format!("{front}{rest}");
        assert_eq!(line(&source("t.txt", text.as_bytes())), said);
    }
}

#[test]
fn the_page_shows_what_is_told_of_a_text() {
    let path = format!("{}/../../docs/TEXT.md", env!("CARGO_MANIFEST_DIR"));
    let page = std::fs::read_to_string(path).unwrap();
    let blocks: Vec<&str> = page.split("```\n").collect();
    for (list, other, block) in [
        ("{a-feeds, b-warm, key-loaded} -> {b-feeds}", "{} -> {}", 9),
        ("b-warm, key-loaded}", "b-warm, 7}", 11),
    ] {
        let text = blocks[1].replace(list, other);
        let told = told(&source("night.txt", text.as_bytes()));
        assert_eq!(
            format!("{}\n{}\n", told.line(), told.words()),
            blocks[block]
        );
    }
}

#[test]
fn too_many_persistent_preconditions_are_counted() {
    let net = Net {
        persistent: [vec![false], vec![true; 20]].concat(),
        events: vec![
            Event {
                preconditions: vec![0],
                postconditions: vec![],
            },
            Event {
                preconditions: (0..18).collect(),
                postconditions: vec![19, 20],
            },
        ],
        start: vec![0],
        rule: None,
    };
    let what = "the event has 17 persistent preconditions, and 16 are the most";
    let bare = table_bytes(&net);
    let ruled = [record_bytes(RULE, &[0]), bare.clone()].concat();
    let cut = bare[..bare.len() - 3].to_vec();
    for (bytes, place) in [(&bare, 35), (&ruled, 40), (&cut, 35)] {
        assert_eq!(
            line(&source("t.bin", bytes)),
            format!("refused 8 at {place}: {what}: byte {place} of t.bin, the record of event 1")
        );
    }
    let text = "conditions: 0..19 [p], a\nx: {a} -> {}\ny: {2..18, a} -> {0}\nstart: {}\n";
    assert_eq!(
        line(&source("t.txt", text.as_bytes())),
        format!("refused 8 at 35: {what}: event 1 `y`, line 3 of t.txt")
    );
}
