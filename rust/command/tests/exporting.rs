//! The program `export` against the second implementation's text, and the command around it. The environment names the program
//! (DOVETRELLIS_EXPORT) and the driver (DOVETRELLIS_DRIVER), both run by the words of RATTLE_RUN.

use std::collections::BTreeSet;
use std::fs;
use std::io::Read;
use std::os::unix::fs::symlink;
use std::path::Path;
use std::process::{Command, Output, Stdio};

use command::lister::{listing_in, Folder};
use command::tools::export_program;
use second::export::Doubled;
use second::generator::{
    cases_given, damaged, endless_net, event_limit_net, middle_net, small_net, Random,
};
use second::plain::reached_unfolded;
use second::table::{read_table, table_bytes, Event, Net, Rule};
use second::unfolding::unfold;

/// The top of the repository.
const TOP: &str = concat!(env!("CARGO_MANIFEST_DIR"), "/../..");

/// What the second implementation writes for a table.
fn expected(table: &[u8]) -> String {
    let unfolding = read_table(table).and_then(|table| unfold(&table.net));
    match unfolding {
        Ok(unfolding) => Doubled::of(&unfolding).elements().collect(),
        Err(refusal) => format!("refused {} at {}\n", refusal.number, refusal.place),
    }
}

/// What the program writes in a folder.
fn written_in(folder: &Folder) -> String {
    let mut program = export_program().expect("DOVETRELLIS_EXPORT names it, as .ci/run does");
    listing_in(folder.path(), &mut program).unwrap()
}

/// Runs the program on a table and compares what it writes; gives that.
fn compared(table: &[u8]) -> String {
    let folder = Folder::new().unwrap();
    folder.write("net.bin", table).unwrap();
    let (written, expected) = (written_in(&folder), expected(table));
    let differ = |(a, b): (u8, u8)| a != b;
    let at = written.bytes().zip(expected.bytes()).position(differ);
    assert!(
        written == expected,
        "they differ from byte {at:?} on, of {} and {}",
        written.len(),
        expected.len()
    );
    written
}

/// An event from its two lists.
fn event(preconditions: &[u16], postconditions: &[u16]) -> Event {
    Event {
        preconditions: preconditions.to_vec(),
        postconditions: postconditions.to_vec(),
    }
}

/// Net C: one persistent condition, which its one event reads and marks, and which holds at the start.
fn net_c() -> Net {
    Net {
        persistent: vec![true],
        events: vec![event(&[0], &[0])],
        start: vec![0],
        rule: None,
    }
}

/// Net C's export, made by hand.
const NET_C: &str = concat!(
    r#"<pnml xmlns="http://www.pnml.org/version-2009/grammar/pnml">"#,
    r#"<net id="n" type="http://www.pnml.org/version-2009/grammar/ptnet"><page id="g">"#,
    r#"<place id="p0"><initialMarking><text>1</text></initialMarking></place><place id="p1"/>"#,
    r#"<place id="q0"/><place id="q1"><initialMarking><text>1</text></initialMarking></place>"#,
    r#"<transition id="t0"/><transition id="t1"/>"#,
    r#"<arc id="a0" source="p0" target="t0"/><arc id="a1" source="q1" target="t0"/>"#,
    r#"<arc id="a2" source="t0" target="p0"/><arc id="a3" source="t0" target="p1"/>"#,
    r#"<arc id="a4" source="p1" target="t1"/><arc id="a5" source="t1" target="p1"/>"#,
    r#"</page></net></pnml>"#
);

#[test]
fn net_c_is_exported_byte_for_byte() {
    assert_eq!(compared(&table_bytes(&net_c())), NET_C);
}

#[test]
fn a_net_without_places_and_transitions_opens_and_closes() {
    let unused = Net {
        persistent: vec![true],
        ..Net::default()
    };
    let start_alone = Net {
        start: vec![0],
        ..unused.clone()
    };
    for net in [unused, start_alone] {
        let written = compared(&table_bytes(&net));
        assert!(written.ends_with(r#"<page id="g"></page></net></pnml>"#));
        let unfolding = unfold(&net).unwrap();
        assert_eq!(Doubled::of(&unfolding).elements().count(), 2);
    }
}

/// The export of one ordinary condition that holds, and which its one event takes and puts, made by hand; by the old rule the arcs of the
/// second place come too.
fn taken_and_put(rule: Rule) -> String {
    let arc = |number: u8, source: &str, target: &str| {
        format!(r#"<arc id="a{number}" source="{source}" target="{target}"/>"#)
    };
    let arcs = match rule {
        Rule::Paper => vec![arc(0, "p0", "t0"), arc(1, "t0", "p0")],
        Rule::Old => vec![
            arc(0, "p0", "t0"),
            arc(1, "q0", "t0"),
            arc(2, "t0", "p0"),
            arc(3, "t0", "q0"),
        ],
    };
    let opens = &NET_C[..NET_C.find("<place").unwrap()];
    let held = r#"<place id="p0"><initialMarking><text>1</text></initialMarking></place>"#;
    let rest = r#"<place id="q0"/><transition id="t0"/>"#;
    format!("{opens}{held}{rest}{}</page></net></pnml>", arcs.concat())
}

#[test]
fn by_the_old_rule_the_second_place_is_taken_and_put_back() {
    for rule in [None, Some(Rule::Paper), Some(Rule::Old)] {
        let ordinary = Net {
            persistent: vec![false],
            rule,
            ..net_c()
        };
        let expected = taken_and_put(rule.unwrap_or(Rule::Paper));
        assert_eq!(compared(&table_bytes(&ordinary)), expected);
        let persistent = Net { rule, ..net_c() };
        assert_eq!(compared(&table_bytes(&persistent)), NET_C);
    }
    for (front, refused) in [
        (&[1, 0, 6, 0, 2][..], "refused 4 at 0\n"),
        (&[0, 0, 6, 0], "refused 3 at 0\n"),
        (&[1, 0, 6, 0, 1, 1, 0, 6, 0, 1], "refused 2 at 5\n"),
    ] {
        let table = [front, &table_bytes(&net_c())].concat();
        assert_eq!(compared(&table), refused);
    }
}

#[test]
fn files_that_are_none_count_as_empty() {
    let folder = Folder::new().unwrap();
    assert_eq!(written_in(&folder), "refused 1 at 0\n");
    symlink("nothing", folder.path().join("net.bin")).unwrap();
    assert_eq!(written_in(&folder), "refused 1 at 0\n");
    fs::remove_file(folder.path().join("net.bin")).unwrap();
    fs::create_dir(folder.path().join("net.bin")).unwrap();
    assert_eq!(written_in(&folder), "refused 1 at 0\n");
}

#[test]
fn the_longest_table_is_exported() {
    let all: Vec<u16> = (0..256).collect();
    let table = table_bytes(&Net {
        persistent: vec![false; 256],
        events: vec![event(&all, &all); 256],
        start: all,
        rule: None,
    });
    assert_eq!(table.len(), 264_968);
    assert!(compared(&table)
        .ends_with(r#"<arc id="a131071" source="t255" target="p255"/></page></net></pnml>"#));
    assert_eq!(compared(&table[..264_967]), "refused 1 at 264452\n");
    let ruled = [&[1, 0, 6, 0, 1][..], &table].concat();
    assert_eq!(ruled.len(), 264_973);
    assert!(compared(&ruled)
        .ends_with(r#"<arc id="a262143" source="t255" target="q255"/></page></net></pnml>"#));
    assert_eq!(compared(&ruled[..264_972]), "refused 1 at 264457\n");
}

#[test]
fn as_many_events_as_may_be_are_exported() {
    let written = compared(&table_bytes(&event_limit_net()));
    assert!(written.contains(r#"<transition id="t65534"/><arc id="a0""#));
    assert_eq!(compared(&table_bytes(&endless_net())), "refused 14 at 0\n");
}

#[test]
fn generated_files_and_every_refusal() {
    let mut random = Random::given();
    let mut seen = BTreeSet::new();
    for case in 0..cases_given(400) {
        let table = match case % 4 {
            0 => table_bytes(&middle_net(&mut random)),
            1 => table_bytes(&small_net(&mut random)),
            _ => {
                let mut net = small_net(&mut random);
                net.events.push(event(&[0], &[]));
                damaged(&mut random, &net).bytes
            }
        };
        let written = compared(&table);
        let refusal = written.strip_prefix("refused ");
        let number = refusal.and_then(|rest| rest.split(' ').next());
        seen.insert(number.map_or(0, |number| number.parse().unwrap_or(99)));
    }
    let all = (0..=9).chain([13]);
    let missing: Vec<u8> = all.filter(|number| !seen.contains(number)).collect();
    assert!(missing.is_empty(), "no case was refused by {missing:?}");
}

// ---- the examples and the command

/// The records of an example's table.
fn example(name: &str) -> Vec<u8> {
    let path = Path::new(TOP).join(format!("examples/{name}.txt"));
    text::read(&fs::read(path).unwrap()).unwrap().bytes()
}

/// The command among the examples.
fn command(words: &[&str]) -> Command {
    let mut command = Command::new(env!("CARGO_BIN_EXE_dovetrellis"));
    command.args(words).env_remove("DOVETRELLIS_SCRIPT");
    command.current_dir(Path::new(TOP).join("examples"));
    command
}

/// The command with a stand-in for the program: a script for `sh`, which then runs the driver too.
fn with_stand_in(folder: &Folder, script: &str) -> Command {
    let runner = std::env::var("RATTLE_RUN").unwrap_or_default();
    let driver = std::env::var("DOVETRELLIS_DRIVER").expect("it names the driver, as .ci/run does");
    let driver = format!("exec {runner} '{driver}'\n");
    folder.write("driver", driver.as_bytes()).unwrap();
    folder.write("export", script.as_bytes()).unwrap();
    let mut command = command(&["export", "net-a.txt"]);
    command.env("RATTLE_RUN", "sh");
    command.env("DOVETRELLIS_DRIVER", folder.path().join("driver"));
    command.env("DOVETRELLIS_EXPORT", folder.path().join("export"));
    command
}

/// What came of a command: its output, what it said, and its exit status.
fn came_of(output: Output) -> (String, String, i32) {
    let [out, err] = [output.stdout, output.stderr].map(|bytes| String::from_utf8(bytes).unwrap());
    (out, err, output.status.code().unwrap())
}

#[test]
fn the_examples_are_exported() {
    for name in [
        "net-a",
        "net-a-marked",
        "net-b",
        "net-c",
        "net-o",
        "net-d",
        "net-e",
        "net-e-marked",
        "rack",
        "rack-old",
        "changeover",
    ] {
        let table = example(name);
        let came = came_of(
            command(&["export", &format!("{name}.txt")])
                .output()
                .unwrap(),
        );
        assert!(
            came == (expected(&table), String::new(), 0),
            "{name}: {}",
            came.1
        );
    }
}

/// The most markings of an example that are searched here.
const MOST_MARKINGS: usize = 10_000;

#[test]
fn the_page_counts_the_markings_of_the_unfolded_nets() {
    let page = fs::read_to_string(Path::new(TOP).join("docs/CHECKER.md")).unwrap();
    let rows = page
        .lines()
        .filter(|line| line.starts_with("| `") && line.ends_with(" s |"));
    let mut counted = 0;
    for row in rows {
        let cells: Vec<&str> = row.split(" | ").collect();
        let name = cells[0].trim_matches(['|', ' ', '`']);
        let [bytes, places, events, _, by_spin, by_search] =
            [1, 2, 3, 4, 5, 6].map(|cell| cells[cell].parse::<usize>().unwrap());
        assert_eq!(by_spin, by_search, "{name}");
        if by_spin > MOST_MARKINGS {
            continue;
        }
        let table = example(name);
        let unfolding = unfold(&read_table(&table).unwrap().net).unwrap();
        let counts = (2 * unfolding.conditions.len(), unfolding.events.len());
        assert_eq!(
            (expected(&table).len(), counts),
            (bytes, (places, events)),
            "{name}"
        );
        let reached = reached_unfolded(&unfolding, MOST_MARKINGS);
        assert_eq!(
            (reached.markings.len(), reached.whole),
            (by_spin, true),
            "{name}"
        );
        counted += 1;
    }
    assert_eq!(counted, 12);
}

#[test]
fn of_a_refused_table_nothing_is_written() {
    for (name, said) in [
        (
            "unused.txt",
            "refused 13 at 0\n  what: the event touches nothing once unfolded: it takes nothing and marks only what no event reads\n  \
             where: event 0, line 5 of unused.txt\n",
        ),
        (
            "limits-over.txt",
            "refused 14 at 0\n  what: there are over 65535 unfolded conditions or unfolded events\n  where: limits-over.txt\n",
        ),
    ] {
        let came = came_of(command(&["export", name]).output().unwrap());
        assert_eq!(came, (String::new(), said.to_string(), 1));
    }
    let folder = Folder::new().unwrap();
    folder.write("t.bin", &vec![0; 1_000_000]).unwrap();
    let path = folder.path().join("t.bin").display().to_string();
    let (out, err, status) = came_of(command(&["export", &path]).output().unwrap());
    assert_eq!((out.as_str(), status), ("", 1));
    assert!(err.starts_with("refused 2 at 0\n  what: "), "{err}");
}

#[test]
fn what_the_program_writes_is_passed_on_whole() {
    let folder = Folder::new().unwrap();
    let script = "printf '<pnml'\nyes 0123456789abcde | head -c 20000000\n";
    let (out, err, status) = came_of(with_stand_in(&folder, script).output().unwrap());
    assert_eq!((out.len(), err.as_str(), status), (20_000_005, "", 0));
    assert!(out.ends_with("0123456789abcde\n"));
}

#[test]
fn where_nobody_reads_on_the_command_ends() {
    let folder = Folder::new().unwrap();
    let script = "printf '<pnml'\nwhile :; do echo 0123456789abcdef; done\n";
    let mut command = with_stand_in(&folder, script);
    let mut child = command
        .stdout(Stdio::piped())
        .stderr(Stdio::piped())
        .spawn()
        .unwrap();
    let mut first = [0; 100];
    child.stdout.take().unwrap().read_exact(&mut first).unwrap();
    let (_, err, status) = came_of(child.wait_with_output().unwrap());
    assert_eq!((err.as_str(), status), ("", 0));
}

#[test]
fn a_program_that_fails_is_told() {
    let folder = Folder::new().unwrap();
    for (script, out, said, status) in [
        (
            "printf '<pnml'\nexit 3\n",
            "<pnml",
            "the program 'export': it broke off (exit status: 3), so what it wrote is no whole net",
            2,
        ),
        (
            "exit 1\n",
            "",
            "the program 'export': it broke off (exit status: 1), so what it wrote is no whole net",
            2,
        ),
        (
            "exit 0\n",
            "",
            "the program 'export': it wrote neither a net nor a refusal",
            2,
        ),
        (
            "echo refused\n",
            "",
            "the program 'export': it wrote neither a net nor a refusal",
            2,
        ),
    ] {
        let came = came_of(with_stand_in(&folder, script).output().unwrap());
        assert_eq!(
            came,
            (out.to_string(), format!("dovetrellis: {said}\n"), status)
        );
    }
    let mut missing = command(&["export", "net-a.txt"]);
    missing.env_remove("DOVETRELLIS_EXPORT");
    let said = "dovetrellis: DOVETRELLIS_EXPORT names no program 'export'\n";
    assert_eq!(
        came_of(missing.output().unwrap()),
        (String::new(), said.to_string(), 2)
    );
}
