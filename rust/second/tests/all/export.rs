//! The export: its text byte for byte, its limits and refusals (02, No. 1).

use second::calls;
use second::export::Doubled;
use second::generator::{condition_limit_net, damaged, event_limit_net, small_net, Random};
use second::refusal::Answer;
use second::table::{read_table, table_bytes};
use second::unfolding::{unfold, Unfolding};

use crate::common::*;

/// Net A's export, each element on a line of its own.
const NET_A: &str = r#"
<pnml xmlns="http://www.pnml.org/version-2009/grammar/pnml"><net id="n" type="http://www.pnml.org/version-2009/grammar/ptnet"><page id="g">
<place id="p0"><initialMarking><text>1</text></initialMarking></place>
<place id="p1"/>
<place id="p2"/>
<place id="p3"/>
<place id="p4"/>
<place id="q0"/>
<place id="q1"><initialMarking><text>1</text></initialMarking></place>
<place id="q2"><initialMarking><text>1</text></initialMarking></place>
<place id="q3"><initialMarking><text>1</text></initialMarking></place>
<place id="q4"><initialMarking><text>1</text></initialMarking></place>
<transition id="t0"/>
<transition id="t1"/>
<transition id="t2"/>
<transition id="t3"/>
<arc id="a0" source="p0" target="t0"/>
<arc id="a1" source="q1" target="t0"/>
<arc id="a2" source="q3" target="t0"/>
<arc id="a3" source="t0" target="p1"/>
<arc id="a4" source="t0" target="p3"/>
<arc id="a5" source="t0" target="q0"/>
<arc id="a6" source="p1" target="t1"/>
<arc id="a7" source="p2" target="t1"/>
<arc id="a8" source="q4" target="t1"/>
<arc id="a9" source="t1" target="p2"/>
<arc id="a10" source="t1" target="p4"/>
<arc id="a11" source="t1" target="q1"/>
<arc id="a12" source="p1" target="t2"/>
<arc id="a13" source="p3" target="t2"/>
<arc id="a14" source="q4" target="t2"/>
<arc id="a15" source="t2" target="p3"/>
<arc id="a16" source="t2" target="p4"/>
<arc id="a17" source="t2" target="q1"/>
<arc id="a18" source="p4" target="t3"/>
<arc id="a19" source="q1" target="t3"/>
<arc id="a20" source="t3" target="p1"/>
<arc id="a21" source="t3" target="q4"/>
</page></net></pnml>
"#;

/// The unfolding of a table.
fn unfolding_of(table: &[u8]) -> Unfolding {
    unfold(&read_table(table).unwrap().net).unwrap()
}

/// One element by its number, written to a watched output.
fn element(table: &[u8], number: u64) -> Answer<String> {
    let bytes = written(7, 300, |out| calls::element(table, number, out))?;
    Ok(String::from_utf8(bytes).unwrap())
}

/// The arcs of a table's export, as pairs of ids.
fn arcs(table: &[u8]) -> Vec<(String, String)> {
    let unfolding = unfolding_of(table);
    let doubled = Doubled::of(&unfolding);
    let pair = |element: String| {
        let words: Vec<&str> = element.split('"').collect();
        (words[3].to_string(), words[5].to_string())
    };
    let elements = doubled.elements().filter(|text| text.starts_with("<arc"));
    elements.map(pair).collect()
}

#[test]
fn net_a_is_exported_byte_for_byte() {
    let table = net_a(&[0]);
    let lines: Vec<&str> = NET_A.trim().lines().collect();
    assert_eq!(calls::element_count(&table), Ok(38));
    assert_eq!(lines.len(), 38);
    for (number, line) in (0..).zip(&lines) {
        assert_eq!(element(&table, number), Ok(line.to_string()));
    }
    let unfolding = unfolding_of(&table);
    let whole: String = Doubled::of(&unfolding).elements().collect();
    assert_eq!(whole, lines.concat());
}

#[test]
fn another_start_moves_only_initial_markings() {
    let (one, other) = (net_a(&[0]), net_a(&[0, 2]));
    let held = r#"<place id="p2"><initialMarking><text>1</text></initialMarking></place>"#;
    assert_eq!(element(&other, 3), Ok(held.to_string()));
    assert_eq!(element(&other, 8), Ok(r#"<place id="q2"/>"#.to_string()));
    for number in (0..38).filter(|number| ![3, 8].contains(number)) {
        assert_eq!(element(&one, number), element(&other, number));
    }
}

#[test]
fn what_is_taken_and_put_has_both_first_arcs_and_no_second() {
    let pairs = |list: &[(&str, &str)]| -> Vec<(String, String)> {
        list.iter()
            .map(|(a, z)| (a.to_string(), z.to_string()))
            .collect()
    };
    let net_c_arcs = [
        ("p0", "t0"),
        ("q1", "t0"),
        ("t0", "p0"),
        ("t0", "p1"),
        ("p1", "t1"),
        ("t1", "p1"),
    ];
    assert_eq!(arcs(&net_c()), pairs(&net_c_arcs));
    let ordinary = table_bytes(&net(&[0, 0], &[(&[0, 1], &[1]), (&[0], &[0, 1])], &[]));
    let ordinary_arcs = [
        ("p0", "t0"),
        ("p1", "t0"),
        ("t0", "p1"),
        ("t0", "q0"),
        ("p0", "t1"),
        ("q1", "t1"),
        ("t1", "p0"),
        ("t1", "p1"),
    ];
    assert_eq!(arcs(&ordinary), pairs(&ordinary_arcs));
}

#[test]
fn a_net_without_events_has_places_alone() {
    let table = table_bytes(&net(&[0, 1], &[], &[1]));
    assert_eq!(calls::element_count(&table), Ok(4));
    assert_eq!(element(&table, 1), Ok(r#"<place id="p0"/>"#.to_string()));
    assert_eq!(element(&table, 3), Ok("</page></net></pnml>".to_string()));
    let none = table_bytes(&net(&[1], &[], &[]));
    assert_eq!(calls::element_count(&none), Ok(2));
    assert_eq!(element(&none, 1), Ok("</page></net></pnml>".to_string()));
    assert_eq!(element(&none, 2), refused(10, 0));
}

#[test]
fn the_limit_of_events_has_1901165_elements() {
    let table = table_bytes(&event_limit_net());
    let (places, events, arcs) = (2 * 228, 65_535, 1_835_172);
    assert_eq!(calls::element_count(&table), Ok(2 + places + events + arcs));
    let unfolding = unfolding_of(&table);
    let doubled = Doubled::of(&unfolding);
    let shown = |number: u64| doubled.element(number).unwrap();
    assert_eq!(shown(places + events), r#"<transition id="t65534"/>"#);
    assert_eq!(
        shown(1 + places + events),
        r#"<arc id="a0" source="q12" target="t0"/>"#
    );
    let last = r#"<arc id="a1835171" source="t65534" target="p95"/>"#;
    assert_eq!(shown(places + events + arcs), last);
    assert_eq!(shown(1 + places + events + arcs), "</page></net></pnml>");
    assert_eq!(doubled.element(2 + places + events + arcs), None);
    assert_eq!(
        doubled.elements().count() as u64,
        2 + places + events + arcs
    );
}

#[test]
fn the_limit_of_conditions_has_33749762_elements() {
    let unfolding = unfold(&condition_limit_net()).unwrap();
    let doubled = Doubled::of(&unfolding);
    let (places, events, arcs) = (2 * 65_535, 65_280, 255 * (255 * 514 + 512));
    assert_eq!(doubled.element_count(), 2 + places + events + arcs);
    assert_eq!(2 + places + events + arcs, 33_749_762);
    let shown = |number: u64| doubled.element(number).unwrap();
    assert_eq!(shown(65_535), r#"<place id="p65534"/>"#);
    let last = r#"<place id="q65534"><initialMarking><text>1</text></initialMarking></place>"#;
    assert_eq!(shown(places), last);
    assert_eq!(shown(1 + places), r#"<transition id="t0"/>"#);
    let first = r#"<arc id="a0" source="p0" target="t0"/>"#;
    assert_eq!(shown(1 + places + events), first);
}

#[test]
fn refusals_come_in_their_order() {
    let table = net_a(&[0]);
    for (number, needed) in [(0, 139), (1, 70), (2, 16), (16, 38), (37, 20)] {
        let short = |length: usize| written(7, length, |out| calls::element(&table, number, out));
        assert_eq!(short(needed).unwrap().len(), needed);
        assert_eq!(short(needed - 1), refused(16, needed));
        assert_eq!(short(0), refused(16, needed));
    }
    for past in [38, 39, 65_536, u64::MAX] {
        assert_eq!(element(&table, past), refused(10, 0));
        let none = written(7, 0, |out| calls::element(&table, past, out));
        assert_eq!(none, refused(10, 0));
    }
    let idle = table_bytes(&net(&[0, 1], &[(&[0], &[]), (&[], &[1])], &[0]));
    assert_eq!(calls::element_count(&idle), refused(13, 1));
    assert_eq!(element(&idle, 99), refused(13, 1));
    let mut over = event_limit_net();
    over.persistent.push(false);
    over.events.push(event(&[], &[15]));
    assert_eq!(calls::element_count(&table_bytes(&over)), refused(14, 0));
    assert_eq!(element(&table_bytes(&over), 0), refused(14, 0));
}

#[test]
fn damaged_tables_are_refused_first() {
    let mut random = Random::given();
    for _ in 0..500 {
        let net = small_net(&mut random);
        let bad = damaged(&mut random, &net);
        assert_eq!(calls::element_count(&bad.bytes), Err(bad.refusal));
        assert_eq!(element(&bad.bytes, 0), Err(bad.refusal));
        assert_eq!(element(&bad.bytes, u64::MAX), Err(bad.refusal));
    }
}
