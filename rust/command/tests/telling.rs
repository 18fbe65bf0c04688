//! Refusals in words, for tables with a Rule record and without, as the second implementation refuses them; nothing is asked of a driver.

use command::lister::Folder;
use command::source::{read, Source};
use command::stop::Told;
use second::calls::{judge, replay};
use second::generator::{damaged, small_net, Random};
use second::records::{record_bytes, RULE};
use second::table::{table_bytes, Event, Net, Rule};
use wire::Refusal;

/// A file as the command takes it.
fn source(name: &str, bytes: &[u8]) -> Source {
    let folder = Folder::new().unwrap();
    folder.write(name, bytes).unwrap();
    let path = folder.path().join(name).display().to_string();
    let read = read(&path).unwrap_or_else(|stop| panic!("{stop:?}"));
    Source {
        path: name.to_string(),
        ..read
    }
}

/// A refusal of the second implementation as the driver would give it.
fn refusal_of(refusal: second::refusal::Refusal) -> Refusal {
    Refusal {
        number: u64::from(refusal.number),
        place: refusal.place as u64,
        by: refusal.by.map(u64::from),
    }
}

/// What is told of a table that must be refused.
fn told(source: &Source) -> Told {
    let refusal = judge(&source.bytes).expect_err("this table is refused");
    source.told(refusal_of(refusal))
}

/// The number, the place, what is meant and where it is, in one line.
fn line(source: &Source) -> String {
    let Told {
        refusal,
        what,
        place,
    } = told(source);
    format!("{refusal}: {what}: {place}")
}

/// A table of one ordinary condition and one event, with these bytes before it.
fn after(front: &[u8]) -> Vec<u8> {
    let net = Net {
        persistent: vec![false],
        events: vec![Event {
            preconditions: vec![0],
            postconditions: vec![0],
        }],
        start: vec![0],
        rule: None,
    };
    [front, &table_bytes(&net)].concat()
}

#[test]
fn a_rule_record_of_a_wrong_length_or_byte_is_told() {
    let length = "refused 3 at 0: the record's length is not right for its kind: a rule is 1 byte";
    let byte =
        "refused 4 at 0: the rule's byte is neither 0, the paper's rule, nor 1, the old rule";
    for (payload, said) in [
        (&[][..], length),
        (&[0, 0], length),
        (&[2; 300], length),
        (&[2], byte),
        (&[255], byte),
    ] {
        let table = after(&record_bytes(RULE, payload));
        let expected = format!("{said}: byte 0 of t.bin, the Rule record");
        assert_eq!(line(&source("t.bin", &table)), expected);
    }
    let cut = line(&source("t.bin", &record_bytes(RULE, &[1])));
    assert!(
        cut.starts_with("refused 1 at 5: a record is due here, "),
        "{cut}"
    );
    assert!(
        cut.ends_with(": byte 5 of t.bin, the record after the Rule"),
        "{cut}"
    );
}

#[test]
fn a_rule_record_where_none_may_stand_is_told() {
    let (rule, net) = (record_bytes(RULE, &[1]), after(&[]));
    let conditions = "after the Rule the Conditions, kind 1, are due";
    let event = "a Rule stands first or nowhere; an Event, kind 2, or the Marking, kind 3, is due";
    for (bytes, place, due, called) in [
        (
            [&rule[..], &rule, &net].concat(),
            5,
            conditions,
            "the record after the Rule",
        ),
        (
            [&rule[..], &net[5..]].concat(),
            5,
            conditions,
            "the record after the Rule",
        ),
        (
            [&net[..5], &rule, &net[5..]].concat(),
            5,
            event,
            "record 1, counted from 0",
        ),
        (
            [&net[..17], &rule].concat(),
            17,
            event,
            "record 2, counted from 0",
        ),
    ] {
        let kind = "a record of this kind is not allowed here";
        let expected =
            format!("refused 2 at {place}: {kind}: {due}: byte {place} of t.bin, {called}");
        assert_eq!(line(&source("t.bin", &bytes)), expected);
    }
    let other = line(&source("t.bin", &record_bytes(RULE + 256, &[1])));
    let begins = ": a table begins with its Conditions, kind 1, or with a Rule, kind 6: byte 0 of t.bin, the first record";
    assert!(other.contains(begins), "{other}");
}

#[test]
fn records_after_a_rule_are_told_by_their_own_numbers() {
    let rule = record_bytes(RULE, &[0]);
    for (place, byte, expected) in [
        (9, 2, "refused 4 at 5: a condition's byte is neither 0, ordinary, nor 1, persistent: byte 5 of t.bin, the record after the Rule"),
        (14, 9, "refused 3 at 10: the record's length is not right for its kind: an event has 4 bytes and 2 for each condition that it counts: byte 10 of t.bin, the record of event 0"),
        (18, 7, "refused 5 at 10: a list does not ascend, or names a condition that the table does not have: byte 10 of t.bin, the record of event 0"),
        (26, 7, "refused 5 at 22: a list does not ascend, or names a condition that the table does not have: byte 22 of t.bin, the Marking record"),
    ] {
        let mut bytes = after(&rule);
        bytes[place] = byte;
        assert_eq!(line(&source("t.bin", &bytes)), expected);
    }
}

#[test]
fn a_refused_rule_of_a_text_is_told_by_its_line() {
    let text = "conditions: a\nx: {a} -> {a}\n\nrule: 7\nstart: {a}\n";
    assert_eq!(
        line(&source("t.txt", text.as_bytes())),
        "refused 4 at 0: the rule's byte is neither 0, the paper's rule, nor 1, the old rule: `rule:`, line 4 of t.txt"
    );
    for (text, place) in [
        ("rule: old\nconditions:\nstart: {}\n", "refused 3 at 5: the record's length is not right for its kind: there are 1 to 256 conditions: the conditions of t.txt"),
        ("conditions: a\nrule: old\nx: {} -> {}\nstart: {}\n", "refused 7 at 10: the event has neither a precondition nor a postcondition: event 0 `x`, line 3 of t.txt"),
        ("conditions: a\nrule: {} -> {}\nstart: {}\n", "refused 7 at 5: the event has neither a precondition nor a postcondition: event 0 `rule`, line 2 of t.txt"),
        ("conditions: a\nrule: paper\nstart: {1}\n", "refused 5 at 10: a list does not ascend, or names a condition that the table does not have: `start:`, line 3 of t.txt"),
    ] {
        assert_eq!(line(&source("t.txt", text.as_bytes())), place);
    }
}

#[test]
fn contact_is_told_by_the_rule_that_gives_it() {
    let net = "conditions: a, b, key [p]\nx: {a, key} -> {a, b, key}\nstart: {a, key}\nrun r: x\nrun s: x, x\n";
    let tells = |text: &str, run: usize| {
        let source = source("t.txt", text.as_bytes());
        let run = source.run(run);
        let refusal = replay(&source.bytes, &run.steps, &mut [0; 3]).unwrap_err();
        let told = source.run_told(&run, refusal_of(refusal));
        format!("{}: {}", told.line(), told.what)
    };
    let contact = "still holds, and the event would set it again: contact";
    assert_eq!(
        tells(&format!("rule: old\n{net}"), 0),
        format!("refused 12 at 0 by 0: condition 0 `a` {contact}; it is a precondition too, but the table follows the old rule")
    );
    for paper in [net.to_string(), format!("{net}rule: paper\n")] {
        assert_eq!(
            tells(&paper, 1),
            format!("refused 12 at 1 by 1: condition 1 `b` {contact}")
        );
    }
    let other = net.replace("{a, key} ->", "{key} ->");
    assert_eq!(
        tells(&format!("rule: old\n{other}"), 0),
        format!("refused 12 at 0 by 0: condition 0 `a` {contact}")
    );
    let lacking = net.replace("start: {a, key}", "start: {key}");
    assert_eq!(
        tells(&format!("rule: old\n{lacking}"), 0),
        "refused 11 at 0 by 0: condition 0 `a` does not hold, and the event needs it"
    );
}

#[test]
fn the_rule_is_told_where_it_is_stated() {
    let told = |front: &[u8]| source("t.bin", &after(front)).rule_told();
    assert_eq!(told(&[]), None);
    assert_eq!(told(&record_bytes(RULE, &[0])), Some("the paper's rule"));
    assert_eq!(told(&record_bytes(RULE, &[1])), Some("the old rule"));
    assert_eq!(
        source("t.txt", b"conditions: a\nrule: 1\nstart: {}").rule_told(),
        Some("the old rule")
    );
}

#[test]
fn what_is_told_of_a_damaged_table_does_not_change_for_a_rule_before_it() {
    let mut random = Random::given();
    let mut compared = 0;
    for _ in 0..2_000 {
        let mut net = small_net(&mut random);
        net.rule = None;
        let bare = damaged(&mut random, &net).bytes;
        let ruled = [&record_bytes(RULE, &[Rule::Old.byte()])[..], &bare].concat();
        if bare.get(2..4) == Some(&[6, 0]) || text::is_text(&bare) {
            continue;
        }
        let (one, other) = (told(&source("t", &bare)), told(&source("t", &ruled)));
        assert_eq!(other.refusal.place, one.refusal.place + 5);
        if one.refusal.place == 0 && one.refusal.number < 3 {
            continue;
        }
        assert_eq!(one.what, other.what);
        compared += 1;
        let event = one.place.split(" event ").nth(1);
        assert_eq!(event, other.place.split(" event ").nth(1));
    }
    assert!(compared > 1_000, "{compared}");
}
