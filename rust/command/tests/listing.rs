//! The listing program against the second implementation's listing. The environment names the program: DOVETRELLIS_LIST, run by the
//! words of RATTLE_RUN.

use std::collections::BTreeSet;
use std::fs;
use std::os::unix::fs::symlink;

use command::lister::{listing_in, Folder};
use command::tools::list_program;
use second::generator::{
    any_net, any_walk, cases_given, condition_limit_net, damaged, endless_net, event_limit_net,
    limit_net, small_net, walk, Random,
};
use second::listing::{listing, MOST_NET_BYTES, MOST_RUN_BYTES};
use second::records::{record_bytes, word_bytes, CONDITIONS, LIFTED, RULE, RUN};
use second::table::{table_bytes, Event, Net};

/// What stands under a file's name.
enum File {
    Bytes(Vec<u8>),
    Missing,
    Folder,
    LinkToNothing,
}

impl File {
    /// Puts it into a folder.
    fn put(&self, folder: &Folder, name: &str) {
        let path = folder.path().join(name);
        let put = match self {
            File::Bytes(bytes) => fs::write(path, bytes),
            File::Missing => Ok(()),
            File::Folder => fs::create_dir(path),
            File::LinkToNothing => symlink(folder.path().join("nothing"), path),
        };
        put.unwrap();
    }

    /// The bytes that the program must take it for: what cannot be opened or read counts as empty.
    fn counts_as(&self) -> &[u8] {
        match self {
            File::Bytes(bytes) => bytes,
            _ => &[],
        }
    }
}

/// Runs the program on the two files and compares what it writes; gives that.
fn compared(net: &File, run: &File) -> String {
    let folder = Folder::new().unwrap();
    net.put(&folder, "net.bin");
    run.put(&folder, "run.bin");
    let mut program = list_program().expect("DOVETRELLIS_LIST names the program, as .ci/run does");
    let written = listing_in(folder.path(), &mut program).unwrap();
    let expected = listing(net.counts_as(), run.counts_as());
    assert!(
        written == expected,
        "wrote {written:.2000}\nexpected {expected:.2000}"
    );
    written
}

/// The same for bytes.
fn compared_bytes(net: &[u8], run: &[u8]) -> String {
    compared(&File::Bytes(net.to_vec()), &File::Bytes(run.to_vec()))
}

/// An event from its two lists.
fn event(preconditions: &[u16], postconditions: &[u16]) -> Event {
    Event {
        preconditions: preconditions.to_vec(),
        postconditions: postconditions.to_vec(),
    }
}

/// A table of ordinary conditions, with these ones persistent.
fn table(conditions: usize, persistent: &[usize], events: &[Event], start: &[u16]) -> Vec<u8> {
    table_bytes(&Net {
        persistent: (0..conditions).map(|b| persistent.contains(&b)).collect(),
        events: events.to_vec(),
        start: start.to_vec(),
        rule: None,
    })
}

/// Net A's table.
fn net_a() -> Vec<u8> {
    table(
        4,
        &[2],
        &[
            event(&[0], &[1, 2]),
            event(&[1, 2], &[3]),
            event(&[3], &[1]),
        ],
        &[0],
    )
}

/// The record of a run.
fn run(steps: &[u16]) -> Vec<u8> {
    record_bytes(RUN, &word_bytes(steps))
}

#[test]
fn the_example_of_the_requirements() {
    let expected = "start 0\n0 0 0 1,2\n1 1 2 2,3\n2 2 3 1,2\n3 1 2 2,3\nend unfolded 3,4\n";
    assert_eq!(compared_bytes(&net_a(), &run(&[0, 1, 2, 1])), expected);
}

#[test]
fn empty_runs_and_markings() {
    assert_eq!(
        compared_bytes(&net_a(), &run(&[])),
        "start 0\nend unfolded 0\n"
    );
    let nothing = table(1, &[], &[event(&[0], &[]), event(&[], &[0])], &[]);
    assert_eq!(
        compared_bytes(&nothing, &run(&[])),
        "start -\nend unfolded -\n"
    );
    let steps = "start -\n0 1 1 0\n1 0 0 -\nend unfolded -\n";
    assert_eq!(compared_bytes(&nothing, &run(&[1, 0])), steps);
    let no_events = table(3, &[1], &[], &[0, 1, 2]);
    assert_eq!(
        compared_bytes(&no_events, &run(&[])),
        "start 0,1,2\nend unfolded 0,1\n"
    );
}

#[test]
fn the_longest_runs() {
    let all: Vec<u16> = (0..256).collect();
    let wide = table(256, &[], &[event(&all, &all)], &all);
    let longest = vec![0; 4096];
    let written = compared_bytes(&wide, &run(&longest));
    assert_eq!(written.lines().count(), 4098);
    assert!(written.len() > 3_000_000);
    let swing = table(2, &[], &[event(&[0], &[1]), event(&[1], &[0])], &[0]);
    let turns: Vec<u16> = (0..4096).map(|step| step % 2).collect();
    assert_eq!(run(&turns).len(), MOST_RUN_BYTES);
    assert_eq!(compared_bytes(&swing, &run(&turns)).lines().count(), 4098);
    let late = [&turns[..4095], &[0]].concat();
    assert_eq!(
        compared_bytes(&swing, &run(&late)),
        "refused 11 at 4095 by 0\n"
    );
}

#[test]
fn the_largest_files() {
    let all: Vec<u16> = (0..256).collect();
    let events = vec![event(&all, &all); 63];
    let largest = table(256, &[], &events, &all[..128]);
    assert_eq!(largest.len(), MOST_NET_BYTES);
    assert!(compared_bytes(&largest, &run(&[])).starts_with("start 0,1,2,"));
    assert_eq!(
        compared_bytes(&largest, &run(&[0])),
        "refused 11 at 0 by 128\n"
    );
    let larger = table(256, &[], &events, &all[..129]);
    assert_eq!(compared_bytes(&larger, &run(&[])), "refused 19 at 0\n");
    let one_more = [&largest[..], &[0]].concat();
    assert_eq!(compared_bytes(&one_more, &run(&[])), "refused 19 at 0\n");
    assert_eq!(
        compared_bytes(&vec![7; 1_000_000], &run(&[])),
        "refused 19 at 0\n"
    );
}

#[test]
fn run_files_of_every_kind() {
    let net = net_a();
    for (bytes, expected) in [
        (run(&vec![0; 4097]), "refused 19 at 0\n"),
        (vec![0; MOST_RUN_BYTES + 1], "refused 19 at 0\n"),
        (vec![0; MOST_RUN_BYTES], "refused 2 at 0\n"),
        (vec![], "refused 1 at 0\n"),
        (vec![0, 0, 4], "refused 1 at 0\n"),
        (vec![2, 0, 4, 0, 0], "refused 1 at 0\n"),
        (record_bytes(LIFTED, &[]), "refused 2 at 0\n"),
        (record_bytes(CONDITIONS, &[0]), "refused 2 at 0\n"),
        (record_bytes(RUN, &[0]), "refused 3 at 0\n"),
        (record_bytes(RUN, &vec![0; 8191]), "refused 3 at 0\n"),
        ([run(&[0]), vec![0]].concat(), "refused 9 at 6\n"),
        ([run(&[0]), run(&[1])].concat(), "refused 9 at 6\n"),
        (run(&[0, 3]), "refused 10 at 1\n"),
        (run(&[0, 65_535]), "refused 10 at 1\n"),
        (run(&[1]), "refused 11 at 0 by 1\n"),
    ] {
        assert_eq!(compared_bytes(&net, &bytes), expected);
    }
}

#[test]
fn files_that_are_none() {
    let (net, steps) = (|| File::Bytes(net_a()), || File::Bytes(run(&[0])));
    for none in [File::Missing, File::Folder, File::LinkToNothing] {
        assert_eq!(compared(&none, &steps()), "refused 1 at 0\n");
        assert_eq!(compared(&net(), &none), "refused 1 at 0\n");
        assert_eq!(compared(&none, &File::Missing), "refused 1 at 0\n");
        assert_eq!(
            compared(&none, &File::Bytes(vec![0; 9000])),
            "refused 1 at 0\n"
        );
    }
}

#[test]
fn refusals_of_tables_come_first() {
    let idle = table(1, &[0], &[event(&[], &[0])], &[]);
    assert_eq!(compared_bytes(&idle, &run(&[])), "refused 13 at 0\n");
    assert_eq!(compared_bytes(&idle, &vec![0; 9000]), "refused 19 at 0\n");
    assert_eq!(compared_bytes(&idle, &run(&[7])), "refused 13 at 0\n");
    assert_eq!(
        compared_bytes(&idle[..3], &vec![0; 9000]),
        "refused 1 at 0\n"
    );
    assert_eq!(
        compared_bytes(&table_bytes(&endless_net()), &run(&[9999])),
        "refused 14 at 0\n"
    );
    let twice = table(2, &[1], &[event(&[0], &[0, 1]), event(&[1], &[])], &[0]);
    assert_eq!(compared_bytes(&twice, &run(&[0, 0])), "refused 15 at 1\n");
    assert_eq!(
        compared_bytes(&twice, &run(&[0, 0, 9])),
        "refused 10 at 2\n"
    );
    let contact = table(2, &[], &[event(&[0], &[1])], &[0, 1]);
    assert_eq!(
        compared_bytes(&contact, &run(&[0])),
        "refused 12 at 0 by 1\n"
    );
}

#[test]
fn repeats_of_events_that_mark() {
    let own = table(1, &[0], &[event(&[0], &[0])], &[0]);
    assert_eq!(
        compared_bytes(&own, &run(&[0, 0, 0])),
        "start 0\n0 0 0 0\n1 0 1 0\n2 0 1 0\nend unfolded 0,1\n"
    );
    let longest = compared_bytes(&own, &run(&[0; 4096]));
    assert!(longest.ends_with("\n4095 0 1 0\nend unfolded 0,1\n"));
    let events = [
        event(&[2], &[0]),
        event(&[0, 1], &[0, 3]),
        event(&[1], &[1, 4]),
    ];
    let mixed = table(5, &[0, 1, 3], &events, &[1, 2]);
    let steps = [0, 1, 1, 1];
    let unfolded = compared_bytes(&mixed, &run(&steps));
    assert_eq!(
        unfolded,
        "start 1,2\n0 0 0 0,1\n1 1 3 0,1,3\n2 1 5 0,1,3\n3 1 5 0,1,3\nend unfolded 1,2,3,4\n"
    );
    let late = [event(&[], &[0]), event(&[0], &[]), event(&[1], &[1])];
    let late = table(2, &[0, 1], &late, &[1]);
    let steps = [&[2; 1000][..], &[0, 1, 2, 0, 2]].concat();
    assert_eq!(compared_bytes(&late, &run(&steps)), "refused 15 at 1003\n");
}

#[test]
fn the_largest_unfoldings() {
    let steps: Vec<u16> = (0..27).collect();
    let written = compared_bytes(&table_bytes(&event_limit_net()), &run(&steps));
    assert!(written.contains("\n26 26 65534 "));
    let mut net = condition_limit_net();
    net.start = vec![0, 1];
    let steps: Vec<u16> = (0..255).collect();
    let written = compared_bytes(&table_bytes(&net), &run(&steps));
    assert_eq!(written.lines().count(), 257);
}

#[test]
fn stopped_steps_and_their_conditions() {
    let all: Vec<u16> = (0..256).collect();
    let last = table(256, &[0], &[event(&all, &[])], &all[..255]);
    assert_eq!(
        compared_bytes(&last, &run(&[0])),
        "refused 11 at 0 by 255\n"
    );
    let full = table(256, &[0], &[event(&[], &all)], &[0, 255]);
    assert_eq!(
        compared_bytes(&full, &run(&[0])),
        "refused 12 at 0 by 255\n"
    );
    let none = table(256, &[0, 255], &[event(&all, &all)], &[]);
    assert_eq!(compared_bytes(&none, &run(&[0])), "refused 11 at 0 by 0\n");
    let ring = [
        event(&[9], &[10]),
        event(&[10], &[9]),
        event(&[], &[9, 99, 100]),
    ];
    let ring = table(101, &[], &ring, &[9, 99]);
    let steps = [&[0, 1].repeat(500)[..], &[0, 2]].concat();
    assert_eq!(
        compared_bytes(&ring, &run(&steps)),
        "refused 12 at 1001 by 99\n"
    );
    let steps = [0, 1].repeat(500);
    let steps = [&steps[..], &[1]].concat();
    assert_eq!(
        compared_bytes(&ring, &run(&steps)),
        "refused 11 at 1000 by 10\n"
    );
}

#[test]
fn runs_by_either_rule() {
    let events = [
        event(&[0], &[0, 2]),
        event(&[0, 2], &[1, 2]),
        event(&[1, 2], &[0]),
    ];
    let net = table(3, &[2], &events, &[0, 2]);
    let ruled = |rule: u8, table: &[u8]| [&record_bytes(RULE, &[rule])[..], table].concat();
    let played = "start 0,2\n0 0 0 0,2\n1 1 1 1,2\n2 2 4 0,2\nend unfolded 0,2,3,4,5,6,7\n";
    for paper in [net.clone(), ruled(0, &net)] {
        assert_eq!(compared_bytes(&paper, &run(&[0, 1, 2])), played);
    }
    let old = ruled(1, &net);
    let expected = "start 0,2\n0 1 1 1,2\n1 2 4 0,2\nend unfolded 0,2,3,6,7\n";
    assert_eq!(compared_bytes(&old, &run(&[1, 2])), expected);
    for (steps, line) in [
        (&[0, 1, 2][..], "refused 12 at 0 by 0\n"),
        (&[1, 2, 0], "refused 12 at 2 by 0\n"),
        (&[1, 0], "refused 11 at 1 by 0\n"),
        (&[1, 2, 1], "refused 15 at 2\n"),
    ] {
        assert_eq!(compared_bytes(&old, &run(steps)), line);
    }
    for (bytes, line) in [
        (ruled(2, &net), "refused 4 at 0\n"),
        (ruled(1, &[]), "refused 1 at 5\n"),
        (ruled(1, &ruled(1, &net)), "refused 2 at 5\n"),
        ([&net[..], &ruled(1, &[])].concat(), "refused 9 at 59\n"),
        (ruled(1, &net)[..4].to_vec(), "refused 1 at 0\n"),
    ] {
        assert_eq!(compared_bytes(&bytes, &run(&[])), line);
    }
}

/// A run of a net as the generator walks it, its record whole or damaged now and then.
fn any_run(random: &mut Random, net: &Net) -> Vec<u8> {
    let way = any_walk(random);
    let mut bytes = run(&walk(random, net, net.events.len(), &way));
    match random.below(20) {
        0 => bytes.truncate(random.below(bytes.len())),
        1 => bytes.push(0),
        2 => {
            let at = random.below(4);
            bytes[at] = random.below(256) as u8;
        }
        _ => {}
    }
    bytes
}

#[test]
fn generated_files_and_every_refusal() {
    let mut random = Random::given();
    let mut seen = BTreeSet::new();
    for case in 0..cases_given(400) {
        let (bytes, run) = match case % 20 {
            0..=9 => {
                let net = if case % 20 == 0 {
                    limit_net(&mut random)
                } else {
                    any_net(&mut random)
                };
                (table_bytes(&net), any_run(&mut random, &net))
            }
            _ => {
                let mut net = small_net(&mut random);
                net.events.push(event(&[0], &[]));
                let run = any_run(&mut random, &net);
                (damaged(&mut random, &net).bytes, run)
            }
        };
        let written = compared_bytes(&bytes, &run);
        let number = written
            .strip_prefix("refused ")
            .and_then(|rest| rest.split(' ').next());
        seen.insert(number.map_or(0, |number| number.parse().unwrap_or(99)));
    }
    let missing: Vec<u8> = (0..=15).filter(|number| !seen.contains(number)).collect();
    assert!(missing.is_empty(), "no case was refused by {missing:?}");
}
