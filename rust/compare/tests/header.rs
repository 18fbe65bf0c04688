//! The header for C, held to what it repeats: the order of the calls, the refusals, the limits and the version.

use std::collections::BTreeMap;
use std::path::Path;

use second::calls::element;
use second::records::{record_bytes, HEADER, LIFTED, MOST_STEPS, RUN};
use second::table::{
    read_table, table_bytes, Event, Net, Rule, MOST_CONDITIONS, MOST_EVENTS, MOST_PERSISTENT,
};
use second::unfolding::MOST_UNFOLDED;
use wire::Call;

/// A file of the repository.
fn file(path: &str) -> String {
    let top = Path::new(env!("CARGO_MANIFEST_DIR")).join("../..");
    std::fs::read_to_string(top.join(path)).expect(path)
}

fn header() -> String {
    file("include/dovetrellis.h")
}

/// The macros of the header that have a value, by their names without the prefix.
fn macros() -> BTreeMap<String, String> {
    let header = header();
    let defined = header
        .lines()
        .filter_map(|line| line.strip_prefix("#define DOVETRELLIS_"));
    let named = defined.filter_map(|rest| rest.split_once(' '));
    named
        .map(|(name, value)| (name.to_string(), value.to_string()))
        .collect()
}

/// The number of a macro.
fn number(name: &str) -> usize {
    macros()[name].parse().expect(name)
}

#[test]
fn the_calls_are_numbered_in_the_order_of_the_header() {
    let header = header();
    let declared = header.split("\nstruct dovetrellis_answer dovetrellis_");
    let names: Vec<&str> = declared
        .skip(1)
        .filter_map(|rest| Some(rest.split_once('(')?.0))
        .collect();
    let asked: Vec<&str> = Call::ALL.iter().map(|(_, name)| *name).collect();
    assert_eq!(names, asked);
    for (place, (call, _)) in Call::ALL.into_iter().enumerate() {
        assert_eq!(call as usize, place);
    }
}

// ---- refusals

/// A name of the refusals' enum with its number and the words above it.
struct Named {
    name: String,
    number: u64,
    words: String,
}

/// A comment as one line.
fn one_line(comment: &str) -> String {
    let words = comment.split_whitespace().filter(|word| *word != "*");
    words.collect::<Vec<&str>>().join(" ")
}

/// The names of the refusals' enum.
fn enumerators() -> Vec<Named> {
    let header = header();
    let after = header.split_once("enum dovetrellis_refusal {").unwrap().1;
    let body = after.split_once("};").unwrap().0;
    let parts = body.split("/*").skip(1).map(|part| {
        let (words, rest) = part.split_once("*/").unwrap();
        let (name, value) = rest.split_once('=').unwrap();
        Named {
            name: name.trim().to_string(),
            number: value.trim().trim_end_matches(',').parse().unwrap(),
            words: one_line(words),
        }
    });
    parts.collect()
}

/// A cell of a page without its links.
fn without_links(cell: &str) -> String {
    let mut text = String::new();
    let mut rest = cell;
    while let Some((before, link)) = rest.split_once('[') {
        let (words, target) = link.split_once("](").unwrap();
        text = text + before + words;
        rest = target.split_once(')').unwrap().1;
    }
    text + rest
}

/// The refusals of the page that calls give: when each is given, and its place.
fn refusals() -> Vec<(u64, String)> {
    let page = file("docs/REFUSALS.md");
    let rows = page.lines().filter_map(|line| {
        let cells: Vec<&str> = line.trim_matches('|').split(" | ").collect();
        let number = cells[0].trim().parse().ok()?;
        let words = format!("{} - {}", without_links(cells[1]), without_links(cells[2]));
        Some((number, words))
    });
    rows.filter(|(_, words)| !words.starts_with("(programs)"))
        .collect()
}

#[test]
fn the_refusals_are_those_of_their_page() {
    let named = enumerators();
    let told: Vec<(u64, String)> = named.iter().map(|n| (n.number, n.words.clone())).collect();
    let fine = (0, "it worked - 0".to_string());
    let page: Vec<(u64, String)> = [fine].into_iter().chain(refusals()).collect();
    assert_eq!(page.len(), 19);
    assert_eq!(told, page);
    let names: BTreeMap<&str, u64> = named.iter().map(|n| (&n.name[..], n.number)).collect();
    assert_eq!(names.len(), named.len());
    assert!(names.keys().all(|name| name.starts_with("DOVETRELLIS_")));
    assert_eq!(names["DOVETRELLIS_NOT_HELD"], 11);
    assert_eq!(names["DOVETRELLIS_CONTACT"], 12);
}

// ---- limits

/// The largest table: every event has every condition in both lists, all hold, and a rule is stated.
fn largest() -> Net {
    let all: Vec<u16> = (0..MOST_CONDITIONS as u16).collect();
    let event = Event {
        preconditions: all.clone(),
        postconditions: all.clone(),
    };
    Net {
        persistent: vec![false; MOST_CONDITIONS],
        events: vec![event; MOST_EVENTS],
        start: all,
        rule: Some(Rule::Paper),
    }
}

#[test]
fn the_limits_are_those_of_the_second_implementation() {
    assert_eq!(number("MOST_CONDITIONS"), MOST_CONDITIONS);
    assert_eq!(number("MOST_EVENTS"), MOST_EVENTS);
    assert_eq!(number("MOST_MARKERS"), MOST_PERSISTENT);
    assert_eq!(number("MOST_STEPS"), MOST_STEPS);
    assert_eq!(number("MOST_UNFOLDED"), MOST_UNFOLDED);
    let table = table_bytes(&largest());
    assert!(read_table(&table).is_ok());
    assert_eq!(number("MOST_TABLE_BYTES"), table.len());
    for kind in [RUN, LIFTED] {
        let longest = record_bytes(kind, &[0; 2 * MOST_STEPS]);
        assert_eq!(longest.len(), HEADER + 2 * MOST_STEPS);
        assert_eq!(number("MOST_RECORD_BYTES"), longest.len());
    }
}

#[test]
fn no_element_of_the_export_is_longer_than_what_opens() {
    let mut output = [0; 1_000];
    let opens = element(&table_bytes(&largest()), 0, &mut output).unwrap();
    assert_eq!(number("MOST_ELEMENT_BYTES"), opens);
    let place = "<place id=\"q65534\"><initialMarking><text>1</text></initialMarking></place>";
    let arc = format!(
        "<arc id=\"a{}\" source=\"q65534\" target=\"t65534\"/>",
        u64::MAX
    );
    assert!(place.len() < opens && arc.len() < opens);
}

#[test]
fn every_macro_of_the_header_is_held() {
    let names = macros();
    let names: Vec<&str> = names.keys().map(String::as_str).collect();
    let held = [
        "MOST_CONDITIONS",
        "MOST_ELEMENT_BYTES",
        "MOST_EVENTS",
        "MOST_MARKERS",
        "MOST_RECORD_BYTES",
        "MOST_STEPS",
        "MOST_TABLE_BYTES",
        "MOST_UNFOLDED",
        "START",
        "VERSION",
        "VERSION_NUMBER",
    ];
    assert_eq!(names, held);
    assert_eq!(macros()["START"], format!("0x{:X}u", wire::START));
}

// ---- the version

#[test]
fn the_version_is_that_of_the_command() {
    let version = macros()["VERSION"].trim_matches('"').to_string();
    let manifest = file("rust/command/Cargo.toml");
    let of_command = manifest
        .lines()
        .find_map(|line| line.strip_prefix("version = "));
    assert_eq!(of_command, Some(&format!("\"{version}\"")[..]));
    let parts: Vec<usize> = version.split('.').map(|p| p.parse().unwrap()).collect();
    assert!(parts.len() == 3 && parts[1] < 100 && parts[2] < 100);
    let told = 10_000 * parts[0] + 100 * parts[1] + parts[2];
    assert_eq!(number("VERSION_NUMBER"), told);
}
