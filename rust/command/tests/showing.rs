//! What the calls tell that are not for C, as the program `showing` writes it, against the second implementation. The environment names
//! the program: DOVETRELLIS_SHOWING, run by the words of RATTLE_RUN.

use std::collections::BTreeSet;
use std::process::Command;

use command::lister::{listing_in, Folder};
use second::generator::{
    any_marking, any_walk, cases_given, damaged, large_net, middle_net, small_net, walk, Random,
};
use second::records::{record_bytes, word_bytes, LIFTED, RULE, RUN};
use second::showing::{showing, ROOM};
use second::table::{table_bytes, Event, Net};

/// The command that runs the program.
fn program() -> Command {
    let program = std::env::var("DOVETRELLIS_SHOWING")
        .expect("DOVETRELLIS_SHOWING names the program, as .ci/run does");
    let runner = std::env::var("RATTLE_RUN").unwrap_or_default();
    let mut words = runner.split_whitespace().chain([program.as_str()]);
    let mut command = Command::new(words.next().unwrap());
    command.args(words);
    command
}

/// Runs the program on the three files and compares what it writes; gives that.
fn compared(net: &[u8], run: &[u8], marking: &[u8]) -> String {
    let folder = Folder::new().unwrap();
    folder.write("net.bin", net).unwrap();
    folder.write("run.bin", run).unwrap();
    folder.write("marking.bin", marking).unwrap();
    let written = listing_in(folder.path(), &mut program()).unwrap();
    let expected = showing(net, run, marking);
    assert!(
        written == expected,
        "wrote {written:.4000}\nexpected {expected:.4000}"
    );
    written
}

/// The record of a run.
fn run(steps: &[u16]) -> Vec<u8> {
    record_bytes(RUN, &word_bytes(steps))
}

/// An event from its two lists.
fn event(preconditions: &[u16], postconditions: &[u16]) -> Event {
    Event {
        preconditions: preconditions.to_vec(),
        postconditions: postconditions.to_vec(),
    }
}

/// A net of so many conditions in which these are persistent.
fn net(conditions: usize, persistent: &[usize], events: Vec<Event>, start: &[u16]) -> Net {
    Net {
        persistent: (0..conditions).map(|b| persistent.contains(&b)).collect(),
        events,
        start: start.to_vec(),
        rule: None,
    }
}

/// Net A's table.
fn net_a() -> Vec<u8> {
    let events = vec![
        event(&[0], &[1, 2]),
        event(&[1, 2], &[3]),
        event(&[3], &[1]),
    ];
    table_bytes(&net(4, &[2], events, &[0]))
}

/// The line that begins with these words.
fn line<'a>(text: &'a str, beginning: &str) -> &'a str {
    let mut lines = text.lines();
    lines
        .find(|line| line.starts_with(beginning))
        .unwrap_or_else(|| panic!("no line begins with {beginning}: {text}"))
}

#[test]
fn net_a_is_shown() {
    let written = compared(&net_a(), &run(&[1]), &[0, 1, 1, 0]);
    for expected in [
        "record at 0: fine 8\nrecord at 8: fine 22\n",
        "record at 54: refused 1 at 54\nsecond at 8: fine 22\n",
        "event 1: fine 22\npre 1 2 | 0\npost 3 | 0\n",
        "event 3: refused 10 at 0\npre | 0\npost | 0\n",
        "start 0 | 0\n",
        "condition 2: fine 6\npersistent\ncondition 3: fine 7\nordinary\n",
        "condition 4: refused 10 at 0\nrefused 10 at 0\n",
        "replay_from: fine 4\nend 0 0 1 1 9 9 ",
    ] {
        assert!(written.contains(expected), "no {expected} in {written}");
    }
}

#[test]
fn a_rule_record_moves_every_place() {
    let old = [record_bytes(RULE, &[1]), net_a()].concat();
    let written = compared(&old, &run(&[]), &[0; 4]);
    assert!(written.starts_with("record at 0: fine 5\nrecord at 5: fine 13\n"));
    assert_eq!(line(&written, "second"), "second at 5: fine 13");
    assert_eq!(line(&written, "event 0"), "event 0: fine 13");
    assert_eq!(line(&written, "condition 0"), "condition 0: fine 9");
}

#[test]
fn markings_that_are_none() {
    for (marking, answer) in [
        (&[0, 1, 1][..], "refused 18 at 4"),
        (&[0, 1, 1, 0, 0], "refused 18 at 4"),
        (&[], "refused 18 at 4"),
        (&[1; 300], "refused 18 at 4"),
        (&[0, 2, 1, 0], "refused 18 at 1"),
        (&[0, 1, 255, 0], "refused 18 at 2"),
        (&[0, 1, 0, 0], "refused 11 at 0 by 2"),
        (&[0, 1, 1, 1], "refused 12 at 0 by 3"),
    ] {
        let written = compared(&net_a(), &run(&[1]), marking);
        let told = line(&written, "replay_from");
        assert_eq!(told, format!("replay_from: {answer}"));
        assert!(written.ends_with(&format!("\nend{}\n", " 9".repeat(ROOM))));
    }
}

#[test]
fn run_files_that_are_none() {
    for (bytes, refusal) in [
        (vec![], "run: refused 1 at 0"),
        (record_bytes(LIFTED, &[]), "run: refused 2 at 0"),
        (run(&vec![0; 4097]), "run: refused 1 at 0"),
        (record_bytes(RUN, &[0]), "run: refused 3 at 0"),
        ([run(&[0]), vec![0]].concat(), "run: refused 9 at 6"),
    ] {
        let written = compared(&net_a(), &bytes, &[1, 0, 0, 0]);
        assert!(written.ends_with(&format!("{refusal}\n")));
    }
}

#[test]
fn tables_at_the_limits() {
    let all: Vec<u16> = (0..256).collect();
    let wide = net(256, &[255], vec![event(&all, &all); 2], &all);
    let written = compared(&table_bytes(&wide), &run(&[0]), &[1; 256]);
    assert_eq!(
        line(&written, "replay_from"),
        "replay_from: refused 16 at 256"
    );
    let mut many = net(1, &[], vec![event(&[0], &[]); 256], &[]);
    let written = compared(&table_bytes(&many), &run(&[255]), &[1]);
    assert!(written.contains("\nevent 255: fine 2555\n"));
    many.events.push(event(&[0], &[]));
    let written = compared(&table_bytes(&many), &run(&[]), &[1]);
    assert!(written.contains("\nrecord at 2565: refused 6 at 2565\n"));
    assert!(written.contains("\nevent 0: refused 6 at 2565\n"));
    assert!(!written.contains("\nevent 1:"));
}

/// A net of the generator, mostly a small one; now and then with so many conditions that the end of a replay has just room or none.
fn any_shown_net(random: &mut Random, case: u64) -> Net {
    match case % 500 {
        0 => large_net(random),
        1..=20 => middle_net(random),
        21..=30 => {
            let mut net = small_net(random);
            net.persistent
                .resize(random.between(ROOM - 2, ROOM + 2), false);
            net
        }
        _ => small_net(random),
    }
}

#[test]
fn generated_tables_and_every_refusal() {
    let mut random = Random::given();
    let mut seen = BTreeSet::new();
    for case in 0..cases_given(2000) {
        let net = any_shown_net(&mut random, case);
        let marking = any_marking(&mut random, net.persistent.len());
        let way = any_walk(&mut random);
        let steps = match net.events.len() {
            0 => vec![],
            events => walk(&mut random, &net, events, &way),
        };
        let bytes = if case % 3 == 0 {
            damaged(&mut random, &net).bytes
        } else {
            table_bytes(&net)
        };
        let written = compared(&bytes, &run(&steps), &marking);
        let refused = written.split("refused ").skip(1);
        seen.extend(refused.filter_map(|rest| rest.split(' ').next()?.parse::<u8>().ok()));
    }
    let given = (1..=12).chain([16, 18]);
    let missing: Vec<u8> = given.filter(|number| !seen.contains(number)).collect();
    assert!(missing.is_empty(), "no case was refused by {missing:?}");
}
