//! Plain nets played without capacities, and the export against the unfolded net by what they reach (02, No. 1 and No. 4).

use std::collections::BTreeSet;

use second::export::Doubled;
use second::game::{fire, Game};
use second::generator::{middle_net, small_unfolding, Random};
use second::plain::{compare, doubled_marking, reached_unfolded, read_nets, Plain};
use second::table::{Net, Rule};
use second::unfolding::{counts, unfold, Unfolding};

use crate::common::*;

/// A net in which contact alone stops the only event, as lines of its export with the places in another order.
const IN_CONTACT: &str = "\
net contact
arc q1 t0
arc t0 p1
place q0 0
place q1 0
place p1 1
place p0 1
transition t0
arc p0 t0
arc t0 q0
";

/// The unfolding of that net.
fn in_contact() -> Unfolding {
    unfold(&net(&[0, 0], &[(&[0], &[1])], &[0, 1])).unwrap()
}

/// The only plain net of some lines, in the order of the export.
fn plain_of(lines: &str, unfolding: &Unfolding) -> Option<Plain> {
    let nets = read_nets(lines).unwrap();
    assert_eq!(nets.len(), 1);
    nets[0].in_order(unfolding.conditions.len(), unfolding.events.len())
}

#[test]
fn lines_spell_the_doubled_net_in_any_order() {
    let unfolding = in_contact();
    let plain = plain_of(IN_CONTACT, &unfolding).unwrap();
    assert_eq!(plain.tokens, [1, 1, 0, 0]);
    let transition = &plain.transitions[0];
    assert_eq!(
        (&transition.taken[..], &transition.put[..]),
        (&[3, 0][..], &[1, 2][..])
    );
    let agreed = compare(&unfolding, &plain, 10).unwrap();
    assert_eq!((agreed.markings, agreed.whole), (1, true));
}

#[test]
fn a_net_without_second_places_loses_contact() {
    let unfolding = in_contact();
    let lost = IN_CONTACT.replace("arc q1 t0\n", "");
    let plain = plain_of(&lost, &unfolding).unwrap();
    assert_eq!(
        plain.reached(10).markings,
        [vec![1, 1, 0, 0], vec![0, 2, 1, 0]]
    );
    assert!(compare(&unfolding, &plain, 10).is_err());
}

#[test]
fn an_arc_each_way_to_a_second_place_that_is_empty_stops_the_event() {
    let unfolding = unfold(&net(&[0], &[(&[0], &[0])], &[0])).unwrap();
    let both = "net n\nplace p0 1\nplace q0 0\ntransition t0\narc p0 t0\narc t0 p0\n";
    let agreed = compare(&unfolding, &plain_of(both, &unfolding).unwrap(), 10);
    assert!(agreed.is_ok());
    let stopped = format!("{both}arc q0 t0\narc t0 q0\n");
    let plain = plain_of(&stopped, &unfolding).unwrap();
    assert!(compare(&unfolding, &plain, 10).is_err());
    let old = Net {
        rule: Some(Rule::Old),
        ..net(&[0], &[(&[0], &[0])], &[0])
    };
    let agreed = compare(&unfold(&old).unwrap(), &plain, 10).unwrap();
    assert_eq!((agreed.markings, agreed.whole), (1, true));
    assert_eq!(Doubled::of(&unfold(&old).unwrap()).plain(), plain);
}

#[test]
fn other_parts_are_not_the_export() {
    let unfolding = in_contact();
    let one_more = format!("{IN_CONTACT}place p2 0\n");
    assert_eq!(plain_of(&one_more, &unfolding), None);
    let one_less = IN_CONTACT
        .replace("place q0 0\n", "")
        .replace("arc t0 q0\n", "");
    assert_eq!(plain_of(&one_less, &unfolding), None);
    assert_eq!(plain_of(&IN_CONTACT.replace("t0", "t1"), &unfolding), None);
}

#[test]
fn bad_lines_are_told() {
    for (text, what) in [
        ("place p0 0\n", "line 1: place p0 0"),
        ("net n\nplace p0\n", "line 2: place p0"),
        ("net n\nplace p0 -1\n", "line 2: place p0 -1"),
        ("net n\nplace p0 0\nplace p0 0\n", "line 3: place p0 0"),
        ("net n\n\n", "line 2: "),
        ("net n\nplace p0 0\narc p0 p0\n", "n: no arc p0 p0"),
        ("net n\ntransition t0\narc p0 t0\n", "n: no arc p0 t0"),
    ] {
        assert_eq!(read_nets(text), Err(what.to_string()));
    }
    let names: Vec<String> = read_nets("net 1\nnet 2\n")
        .unwrap()
        .into_iter()
        .map(|net| net.name)
        .collect();
    assert_eq!(names, ["1", "2"]);
}

#[test]
fn tokens_are_counted_and_arcs_taken_one_by_one() {
    let lines = "net n\nplace a 3\nplace b 0\ntransition t\narc a t\narc a t\narc t b\n";
    let net = &read_nets(lines).unwrap()[0].plain;
    let reached = net.reached(10);
    assert_eq!(reached.markings, [vec![3, 0], vec![1, 1]]);
    assert_eq!((reached.steps, reached.whole), (vec![(0, 0, 1)], true));
}

#[test]
fn a_search_stops_at_its_bound() {
    let lines = "net n\nplace a 0\ntransition t\narc t a\n";
    let net = &read_nets(lines).unwrap()[0].plain;
    let reached = net.reached(5);
    assert_eq!((reached.markings.len(), reached.whole), (5, false));
}

/// The most markings of a net that are looked at.
const MOST_MARKINGS: usize = 2_000;

/// A middle net that unfolds to at most some hundred events.
fn middle_unfolding(random: &mut Random) -> (Net, Unfolding) {
    loop {
        let net = middle_net(random);
        if counts(&net).events <= 300 {
            if let Ok(unfolding) = unfold(&net) {
                return (net, unfolding);
            }
        }
    }
}

#[test]
fn the_doubled_net_reaches_what_the_unfolded_net_reaches() {
    let mut random = Random::given();
    let (mut nets, mut whole, mut markings) = (0, 0, 0);
    for case in 0..6_000 {
        let (_, unfolding) = match case % 20 {
            0 => middle_unfolding(&mut random),
            _ => small_unfolding(&mut random),
        };
        let plain = Doubled::of(&unfolding).plain();
        let agreed = compare(&unfolding, &plain, MOST_MARKINGS).unwrap();
        nets += 1;
        whole += usize::from(agreed.whole);
        markings += agreed.markings;
    }
    println!("{nets} nets, {whole} of them whole, {markings} markings");
    assert!(whole > 5_000, "{whole} of {nets}");
    assert!(markings > 20_000, "{markings}");
}

/// What an unfolded net reaches by the old rule, played by the lists alone: an event goes on where it finds what it takes, and finds
/// nothing of what it puts but copies that it takes.
fn reached_by_old(unfolding: &Unfolding) -> BTreeSet<Vec<bool>> {
    let fired = |marking: &[bool], number: u16| {
        let event = unfolding.event(number).unwrap();
        let holds = |c: &u16| marking[usize::from(*c)];
        let given_back = |c: &u16| {
            event.preconditions.contains(c) && unfolding.conditions[usize::from(*c)].copy.is_some()
        };
        let mut put = event.postconditions.iter();
        let fires =
            event.preconditions.iter().all(holds) && put.all(|c| !holds(c) || given_back(c));
        let mut after = marking.to_vec();
        event
            .preconditions
            .iter()
            .for_each(|c| after[usize::from(*c)] = false);
        event
            .postconditions
            .iter()
            .for_each(|c| after[usize::from(*c)] = true);
        fires.then_some(after)
    };
    let mut reached = BTreeSet::from([unfolding.start()]);
    let mut next = vec![unfolding.start()];
    while let Some(marking) = next.pop() {
        for number in (0..=u16::MAX).take(unfolding.events.len()) {
            let after = fired(&marking, number).filter(|after| !reached.contains(after));
            reached.extend(after.clone());
            next.extend(after);
        }
    }
    reached
}

#[test]
fn by_the_old_rule_the_doubled_net_has_the_runs_of_the_unfolded_net() {
    let mut random = Random::given();
    let (mut whole, mut fewer, mut markings) = (0, 0, 0);
    for _ in 0..3_000 {
        let (mut net, _) = small_unfolding(&mut random);
        net.rule = Some(Rule::Old);
        let old = unfold(&net).unwrap();
        let agreed = compare(&old, &Doubled::of(&old).plain(), MOST_MARKINGS).unwrap();
        if !agreed.whole {
            continue;
        }
        let by_lists = reached_by_old(&old);
        let doubled: BTreeSet<Vec<u64>> = by_lists.iter().map(|m| doubled_marking(m)).collect();
        let plain = Doubled::of(&old).plain().reached(MOST_MARKINGS);
        assert_eq!(plain.markings.into_iter().collect::<BTreeSet<_>>(), doubled);
        net.rule = Some(Rule::Paper);
        let paper = reached_unfolded(&unfold(&net).unwrap(), MOST_MARKINGS);
        whole += 1;
        fewer += usize::from(doubled.len() < paper.markings.len());
        markings += doubled.len();
    }
    let counts = [whole, fewer, markings];
    assert!(
        whole > 2_500 && fewer > 100 && markings > 5_000,
        "{counts:?}"
    );
}

#[test]
fn the_doubled_net_fires_as_the_unfolded_net_at_any_marking() {
    let mut random = Random::given();
    let (mut fired, mut in_contact) = (0, 0);
    for _ in 0..2_000 {
        let (_, unfolding) = middle_unfolding(&mut random);
        let plain = Doubled::of(&unfolding).plain();
        let held = random.below(101);
        let any = (0..unfolding.conditions.len()).map(|_| random.percent(held));
        let mut marking: Vec<bool> = any.collect();
        let number = random.below(unfolding.events.len()) as u16;
        for b in unfolding.event(number).unwrap().preconditions {
            marking[usize::from(b)] = true;
        }
        let after = fire(&unfolding, &marking, number);
        let plain_after = plain.fired(&doubled_marking(&marking), usize::from(number));
        let expected = after.as_ref().ok().map(|after| doubled_marking(after));
        assert_eq!(plain_after, expected);
        fired += usize::from(after.is_ok());
        in_contact += usize::from(after.is_err());
    }
    assert!(fired > 300 && in_contact > 300, "{fired} {in_contact}");
}
