//! The examples are the nets of the requirements, and their runs fare as their comments and examples/README.md say.

use std::fs;

use second::calls::{event_behind, lift, lifted_end, replay, unfolded_counts};
use second::generator::event_limit_net;
use second::refusal::{Answer, Refusal};
use second::table::table_bytes;
use text::{read, Table};

/// The table of an example.
fn example(name: &str) -> Table {
    let path = format!("{}/../../examples/{name}", env!("CARGO_MANIFEST_DIR"));
    let bytes = fs::read(&path).unwrap_or_else(|error| panic!("{path}: {error}"));
    read(&bytes).unwrap_or_else(|trouble| panic!("{path}: {trouble}"))
}

/// The steps of a run by its name.
fn steps<'a>(table: &'a Table, run: &str) -> &'a [u16] {
    &table.runs[table.run_called(run).unwrap()].steps
}

/// The lifted run of a run of an example.
fn lifted(name: &str, run: &str) -> Answer<Vec<u16>> {
    let table = example(name);
    let steps = steps(&table, run);
    let mut output = vec![0; steps.len()];
    lift(&table.bytes(), steps, &mut output)?;
    Ok(output)
}

/// The conditions that hold in a marking.
fn held(marking: &[u8]) -> Vec<usize> {
    (0..marking.len()).filter(|b| marking[*b] == 1).collect()
}

/// Where a run of an example ends.
fn end(name: &str, run: &str) -> Vec<usize> {
    let table = example(name);
    let mut output = vec![0; table.conditions.len()];
    replay(&table.bytes(), steps(&table, run), &mut output).unwrap();
    held(&output)
}

/// Where the lifted run of a run of an example ends.
fn unfolded_end(name: &str, run: &str) -> Vec<usize> {
    let table = example(name);
    let mut output = vec![0; 65_535];
    lifted_end(&table.bytes(), steps(&table, run), &mut output).unwrap();
    held(&output)
}

/// The counts of the unfolding of an example.
fn counts(name: &str) -> Answer<(u128, u128)> {
    let counts = unfolded_counts(&example(name).bytes())?;
    Ok((counts.conditions, counts.events))
}

/// A refusal that no condition is told with.
fn refused<T>(number: u8, place: usize) -> Answer<T> {
    Err(Refusal::at(number, place))
}

/// A refusal by a condition.
fn refused_by<T>(number: u8, place: usize, condition: u16) -> Answer<T> {
    let by = Some(condition);
    Err(Refusal { number, place, by })
}

#[test]
fn net_a() {
    assert_eq!(example("net-a.txt").bytes().len(), 54);
    assert_eq!(counts("net-a.txt"), Ok((5, 4)));
    assert_eq!(steps(&example("net-a.txt"), "round"), [0, 1, 2, 1]);
    assert_eq!(end("net-a.txt", "round"), [2, 3]);
    assert_eq!(lifted("net-a.txt", "round"), Ok(vec![0, 2, 3, 2]));
    assert_eq!(end("net-a.txt", "empty"), [0]);
    assert_eq!(lifted("net-a.txt", "early"), refused_by(11, 1, 3));
    assert_eq!(lifted("net-a.txt", "unknown"), refused(10, 1));
    assert_eq!(lifted("net-a-marked.txt", "pair"), Ok(vec![0, 1]));
    assert_eq!(unfolded_end("net-a-marked.txt", "pair"), [2, 3, 4]);
}

#[test]
fn nets_b_and_c() {
    assert_eq!(end("net-b.txt", "twice"), [0, 1]);
    assert_eq!(lifted("net-b.txt", "twice"), refused(15, 1));
    assert!(lifted("net-b.txt", "once").is_ok());
    assert_eq!(lifted("net-c.txt", "once"), Ok(vec![0]));
    assert_eq!(end("net-c.txt", "twice"), [0]);
    assert_eq!(lifted("net-c.txt", "twice"), Ok(vec![0, 1]));
    assert_eq!(unfolded_end("net-c.txt", "twice"), [0, 1]);
}

#[test]
fn net_o() {
    assert_eq!(lifted("net-o.txt", "again"), Ok(vec![0, 4, 6, 6]));
    assert_eq!(end("net-o.txt", "late"), [0, 1, 2]);
    assert_eq!(lifted("net-o.txt", "late"), refused(15, 3));
}

#[test]
fn racks() {
    assert_eq!(end("rack.txt", "up"), [0, 2, 3]);
    assert_eq!(lifted("rack.txt", "up"), Ok(vec![0, 2, 3, 2]));
    assert_eq!(unfolded_end("rack.txt", "up"), [0, 2, 4]);
    assert_eq!(counts("rack-old.txt"), counts("rack.txt"));
    assert_eq!(lifted("rack-old.txt", "up"), refused_by(12, 1, 0));
    assert_eq!(lifted("rack-old.txt", "half"), Ok(vec![0]));
    let [bytes, old] = ["rack.txt", "rack-old.txt"].map(|name| example(name).bytes());
    assert_eq!(old, [&[1, 0, 6, 0, 1][..], &bytes[..]].concat());
}

#[test]
fn net_d() {
    assert_eq!(counts("net-d.txt"), Ok((31, 1035)));
    let lifted = lifted("net-d.txt", "all").unwrap();
    assert_eq!(lifted[10..], [1033, 1034]);
    assert_eq!(
        event_behind(&example("net-d.txt").bytes(), 1034)
            .unwrap()
            .event,
        11
    );
}

#[test]
fn net_e() {
    assert_eq!(lifted("net-e.txt", "first"), Ok(vec![0, 1, 3]));
    assert_eq!(lifted("net-e.txt", "second"), Ok(vec![1, 0, 4]));
    for run in ["first", "second"] {
        assert_eq!(unfolded_end("net-e.txt", run), [3, 4]);
    }
    assert_eq!(lifted("net-e-marked.txt", "first"), Ok(vec![0, 1, 2]));
    assert_eq!(lifted("net-e-marked.txt", "second"), Ok(vec![1, 0, 2]));
}

#[test]
fn limits() {
    assert_eq!(
        example("limits.txt").bytes(),
        table_bytes(&event_limit_net())
    );
    assert_eq!(counts("limits.txt").unwrap().1, 65_535);
    assert_eq!(lifted("limits.txt", "all").unwrap()[15..], [32_782, 65_534]);
    assert_eq!(counts("limits-over.txt"), refused(14, 0));
    assert_eq!(counts("unused.txt"), refused(13, 0));
    assert_eq!(end("unused.txt", "once"), [0]);
}

/// The name of the event behind an unfolded event of an example.
fn behind(table: &Table, number: u16) -> String {
    table.event_name(event_behind(&table.bytes(), number).unwrap().event)
}

#[test]
fn the_changeover() {
    let table = example("changeover.txt");
    assert_eq!(counts("changeover.txt"), Ok((27, 1037)));
    let night = lifted("changeover.txt", "night").unwrap();
    assert_eq!(
        night,
        [9, 8, 0, 1, 2, 3, 1034, 4, 5, 6, 7, 1035, 1033, 1036]
    );
    let told: Vec<String> = night.iter().map(|n| behind(&table, *n)).collect();
    let steps: Vec<String> = steps(&table, "night")
        .iter()
        .map(|e| table.event_name(*e))
        .collect();
    assert_eq!(told, steps);
    let in_ten_bits = |step: usize| behind(&table, night[step] % 1024);
    assert_eq!(
        (steps[6].as_str(), in_ten_bits(6).as_str()),
        ("warm-b", "connect-b")
    );
    assert_eq!(
        (steps[11].as_str(), in_ten_bits(11).as_str()),
        ("release-a", "connect-b")
    );
    assert_eq!(
        (steps[12].as_str(), in_ten_bits(12).as_str()),
        ("connect-b", "sign-in")
    );
    assert_eq!(
        (steps[13].as_str(), in_ten_bits(13).as_str()),
        ("switch-off-a", "connect-b")
    );
    assert_eq!(lifted("changeover.txt", "hasty"), refused_by(11, 11, 13));
    assert_eq!(lifted("changeover.txt", "careful"), refused(15, 3));
}

#[test]
fn the_wrong_changeover() {
    let table = example("changeover-wrong.txt");
    let names: Vec<String> = end("changeover-wrong.txt", "both")
        .into_iter()
        .map(|b| table.condition_name(b as u16))
        .collect();
    assert!(["a-feeds", "b-feeds"]
        .iter()
        .all(|name| names.contains(&name.to_string())));
    let both = lifted("changeover-wrong.txt", "both").unwrap();
    assert_eq!(both.last(), Some(&1033));
    assert_eq!(behind(&table, 1033 % 1024), "sign-in");
}

#[test]
fn the_page_of_the_notation() {
    let path = format!("{}/../../docs/TEXT.md", env!("CARGO_MANIFEST_DIR"));
    let page = fs::read_to_string(path).unwrap();
    let blocks: Vec<&str> = page.split("```\n").collect();
    let named = read(blocks[1].as_bytes()).unwrap();
    let shown = Table::of_bytes(&named.bytes()).unwrap().text();
    assert_eq!(shown, blocks[3]);
    let misspelt = blocks[1].replace("b-warm, key-loaded}", "b-warm, key-loded}");
    let trouble = read(misspelt.as_bytes()).unwrap_err();
    assert_eq!(format!("night.txt: {trouble}\n"), blocks[5]);
}

#[test]
fn events_share_numbers_in_ten_bits() {
    let table = example("changeover.txt");
    let shared: Vec<(String, String)> = (1024..1037)
        .map(|number| (behind(&table, number), behind(&table, number - 1024)))
        .collect();
    assert_eq!(shared.len(), 13);
    assert!(shared.iter().all(|(one, other)| one != other));
}
