//! The generated cases themselves: repeatable, of every call, with outputs of every length; and replies that can differ.

use std::collections::{BTreeMap, BTreeSet};

use compare::case::{beside, call_of, case};
use compare::elements::whole_export;
use compare::expected::expected;
use compare::rules::{rules_met, Ruled};
use compare::tally::Tally;
use second::calls::{condition_behind, event_behind, is_persistent};
use second::generator::Random;
use second::records::words;
use second::repeats::{repeats, Repeat};
use second::table::read_table;
use second::unfolding::{Marker, UnfoldedEvent};
use wire::{Call, Request};

/// The seeds of some thousand cases.
fn seeds() -> impl Iterator<Item = u64> {
    (0..4_000).map(|n| Random::new(n).draw())
}

/// Net A's table.
fn net_a() -> Vec<u8> {
    vec![
        4, 0, 1, 0, 0, 0, 1, 0, 10, 0, 2, 0, 1, 0, 2, 0, 0, 0, 1, 0, 2, 0, 10, 0, 2, 0, 2, 0, 1, 0,
        1, 0, 2, 0, 3, 0, 8, 0, 2, 0, 1, 0, 1, 0, 3, 0, 1, 0, 2, 0, 3, 0, 0, 0,
    ]
}

#[test]
fn a_seed_gives_one_case() {
    for seed in seeds().take(200) {
        assert_eq!(case(seed), case(seed), "seed {seed}");
    }
}

#[test]
fn every_call_comes() {
    let own_and_beside = |seed| [case(seed)].into_iter().chain(beside(seed));
    let seen: BTreeSet<Call> = seeds().flat_map(own_and_beside).map(|r| r.call).collect();
    assert_eq!(seen.len(), Call::ALL.len());
}

#[test]
fn lossy_comes_beside_each_case_of_judge_and_leaves_the_cases_as_they_were() {
    let mut known = 0xcbf2_9ce4_8422_2325_u64;
    for seed in seeds() {
        let request = case(seed);
        assert_eq!(call_of(seed), request.call);
        let more = beside(seed);
        assert_eq!(more.is_some(), request.call == Call::Judge, "seed {seed}");
        assert_eq!(more, beside(seed), "seed {seed}");
        assert!(more.is_none_or(|more| more.call == Call::Lossy));
        for byte in format!("{request:?}").bytes() {
            known = (known ^ u64::from(byte)).wrapping_mul(0x0100_0000_01b3);
        }
    }
    // the hash of what these seeds gave before there was a call `lossy`
    assert_eq!(known, 0xbe00_f2a7_b24e_17dd);
}

#[test]
fn outputs_come_exact_short_and_longer() {
    let (mut exact, mut short, mut longer) = (0, 0, 0);
    for request in seeds()
        .map(case)
        .filter(|request| request.call == Call::Lift)
    {
        let (steps, lent) = (request.given.len(), request.lent.len());
        match expected(&request).number {
            0 if lent == steps => exact += 1,
            0 => longer += 1,
            16 if lent + 2 == steps => short += 1,
            _ => {}
        }
    }
    assert!(
        exact > 20 && short > 5 && longer > 20,
        "{exact} {short} {longer}"
    );
}

#[test]
fn a_lift_of_net_a_is_expected() {
    let mut request = Request::new(Call::Lift, &net_a());
    request.given = vec![0, 0, 1, 0, 2, 0, 1, 0];
    request.lent = vec![9; 10];
    let reply = expected(&request);
    assert_eq!((reply.number, reply.place, reply.kept), (0, 0, true));
    assert_eq!(reply.lent, [0, 0, 2, 0, 3, 0, 2, 0, 9, 9]);
    assert_eq!(reply.given, request.given);
}

#[test]
fn a_refusal_is_expected_to_leave_everything() {
    let mut request = Request::new(Call::EventOrigin, &net_a());
    request.numbers[0] = 2;
    request.values = [7, 8, 0, 0];
    let reply = expected(&request);
    assert_eq!((reply.number, reply.place), (16, 1));
    assert_eq!(reply.values, request.values);
    request.lent = vec![5; 8];
    let reply = expected(&request);
    assert_eq!((reply.number, reply.values), (0, [1, 1, 0, 0]));
    assert_eq!(reply.lent, [0, 0, 0, 0, 5, 5, 5, 5]);
}

#[test]
fn a_stopped_step_is_expected_with_its_condition() {
    let mut request = Request::new(Call::CanFire, &net_a());
    request.numbers[0] = 1;
    request.given = vec![0, 1, 0, 0];
    let reply = expected(&request);
    assert_eq!((reply.number, reply.place, reply.by), (11, 2, 2));
    let mut request = Request::new(Call::Project, &net_a());
    request.given = vec![0, 0, 1, 0];
    let reply = expected(&request);
    assert_eq!((reply.number, reply.place, reply.by), (11, 1, 2));
    request.given = vec![0, 0, 4, 0];
    let reply = expected(&request);
    assert_eq!((reply.number, reply.place, reply.by), (10, 1, 0));
}

/// The calls that are stopped by a condition of the table, and those that are by an unfolded one.
const STOPPED: [&[Call]; 2] = [
    &[
        Call::CanFire,
        Call::Fire,
        Call::Replay,
        Call::Exchange,
        Call::Lift,
        Call::LiftEnd,
    ],
    &[Call::UnfoldedFire, Call::Project, Call::UnfoldedReplay],
];

#[test]
fn steps_are_stopped_by_every_kind_of_condition() {
    let mut seen = [[[0; 2]; 2]; 2];
    for request in (0..20_000).map(|n| case(Random::new(n).draw())) {
        let is_of = |calls: &&[Call]| calls.contains(&request.call);
        let Some(unfolded) = STOPPED.iter().position(is_of) else {
            continue;
        };
        let reply = expected(&request);
        let by = reply.by as u16;
        if !matches!(reply.number, 11 | 12) {
            assert_eq!(by, 0);
            continue;
        }
        let lasting = match unfolded {
            0 => is_persistent(&request.table, by).unwrap(),
            _ => condition_behind(&request.table, by).unwrap().copy.is_some(),
        };
        seen[unfolded][reply.number as usize - 11][usize::from(lasting)] += 1;
    }
    let [table, unfolded] = seen;
    assert!(table[0].iter().all(|count| *count > 100), "{seen:?}");
    assert!(table[1][0] > 100 && table[1][1] == 0, "{seen:?}");
    let least = unfolded.iter().flatten().min();
    assert!(least.is_some_and(|least| *least > 25), "{seen:?}");
}

#[test]
fn tables_come_with_every_rule_and_with_every_broken_one() {
    let mut seen: BTreeMap<Ruled, usize> = BTreeMap::new();
    let mut alone = [0; 2];
    for request in (0..20_000).map(|n| case(Random::new(n).draw())) {
        for kind in rules_met(&request, &expected(&request)) {
            *seen.entry(kind).or_default() += 1;
            let unfolded = usize::from(STOPPED[1].contains(&request.call));
            alone[unfolded] += usize::from(kind == Ruled::OldAlone);
        }
    }
    for (kind, words) in [Ruled::BY_CALL, Ruled::BROKEN].concat() {
        assert!(seen.contains_key(&kind), "{words}: {seen:?}");
    }
    assert!(
        seen[&Ruled::Paper] > 500 && seen[&Ruled::Old] > 500,
        "{seen:?}"
    );
    assert!(alone.iter().all(|count| *count > 20), "{alone:?}");
}

/// Net P's table under the old rule: event 0 takes and puts the ordinary 0, and marks [2], which events 1 and 2 read.
fn old_net_p() -> Vec<u8> {
    vec![
        1, 0, 6, 0, 1, 3, 0, 1, 0, 0, 0, 1, 10, 0, 2, 0, 1, 0, 2, 0, 0, 0, 0, 0, 2, 0, 12, 0, 2, 0,
        2, 0, 2, 0, 0, 0, 2, 0, 1, 0, 2, 0, 10, 0, 2, 0, 2, 0, 1, 0, 1, 0, 2, 0, 0, 0, 2, 0, 3, 0,
        0, 0,
    ]
}

#[test]
fn what_a_case_met_of_the_rules_is_told() {
    let met = |request: &Request| rules_met(request, &expected(request));
    let mut fire = Request::new(Call::Fire, &old_net_p());
    fire.given = vec![1, 0, 0];
    assert_eq!(met(&fire), [Ruled::Old, Ruled::OldAlone]);
    fire.given = vec![0, 0, 0];
    assert_eq!(met(&fire), [Ruled::Old]);
    let mut run = Request::new(Call::UnfoldedReplay, &old_net_p());
    run.given = vec![0, 0];
    assert_eq!(met(&run), [Ruled::Old, Ruled::OldAlone]);
    assert_eq!(
        met(&Request::new(Call::ElementCount, &old_net_p())),
        [Ruled::Old, Ruled::SecondCounted]
    );
    let mut element = Request::new(Call::Element, &old_net_p());
    element.lent = vec![0; 300];
    let kinds = (0..64).flat_map(|number| {
        element.numbers[0] = number;
        met(&element).into_iter().skip(1)
    });
    let kinds: Vec<Ruled> = kinds.collect();
    assert_eq!(kinds, [Ruled::SecondTaken, Ruled::SecondPut]);
    let mut paper = old_net_p();
    paper[4] = 0;
    fire.table = paper;
    fire.given = vec![1, 0, 0];
    assert_eq!(met(&fire), [Ruled::Paper]);
    fire.table = net_a();
    assert_eq!(met(&fire), []);
}

#[test]
fn a_broken_rule_record_is_told_by_how_it_is_broken() {
    let table = old_net_p();
    let put = |at: usize, record: &[u8]| [&table[..at], record, &table[at..]].concat();
    let first = |record: &[u8]| [record, &table[5..]].concat();
    for (bytes, kind) in [
        (table[..4].to_vec(), Ruled::Cut),
        (table[..5].to_vec(), Ruled::EndsAfter),
        (put(5, &[1, 0, 6, 0, 0]), Ruled::Twice),
        (put(12, &[1, 0, 6, 0, 0]), Ruled::Elsewhere),
        (
            table[5..12].iter().chain(&table).copied().collect(),
            Ruled::Elsewhere,
        ),
        (first(&[0, 0, 6, 0]), Ruled::NoByte),
        (first(&[2, 0, 6, 0, 1, 0]), Ruled::ManyBytes),
        (first(&[1, 0, 6, 0, 2]), Ruled::OtherByte),
    ] {
        let request = Request::new(Call::Judge, &bytes);
        assert_eq!(rules_met(&request, &expected(&request)), [kind]);
    }
    for bytes in [&table[..3], &table[..9], &net_a()[..8]] {
        let request = Request::new(Call::Judge, bytes);
        assert_eq!(rules_met(&request, &expected(&request)), []);
    }
}

#[test]
fn what_was_missed_of_the_rules_is_told() {
    let mut tally = Tally::default();
    let request = Request::new(Call::ElementCount, &old_net_p());
    tally.count(&request, &expected(&request));
    let missed = tally.missed(None);
    let has = |line: &str| missed.iter().any(|missed| missed == line);
    assert!(has("judge never met 'rule 0'") && has("judge never met 'rule 1'"));
    assert!(has("lift never met '12 old alone'") && has("project never met '12 old lower'"));
    assert!(has("element never met 'q taken'") && has("no call met a rule broken by '2 twice'"));
    assert!(has("element_count never met 'rule 0'") && !has("element_count never met 'q counted'"));
    assert!(!missed
        .iter()
        .any(|line| line.starts_with("read_run never met '")));
    let of_judge = tally.missed(Some(Call::Judge));
    assert!(of_judge.iter().all(|line| line.starts_with("judge ")));
}

/// The cases of two calls among those of many seeds.
fn cases_of(calls: [Call; 2]) -> impl Iterator<Item = Request> {
    let seeds = (0..60_000).map(|n| Random::new(n).draw());
    seeds
        .filter(move |seed| calls.contains(&call_of(*seed)))
        .map(case)
}

#[test]
fn runs_with_every_kind_of_repeat_are_lifted_or_refused() {
    let mut seen = BTreeMap::new();
    for request in cases_of([Call::Lift, Call::LiftEnd]) {
        let reply = expected(&request);
        if !matches!(reply.number, 0 | 15) {
            continue;
        }
        let net = read_table(&request.table).unwrap().net;
        let kinds = repeats(&net, &words(&request.given));
        let is_refused = kinds.iter().any(|kind| kind.is_refused());
        assert_eq!(is_refused, reply.number == 15);
        let told = |kind: &Repeat| kind.is_refused() == is_refused;
        for kind in kinds.into_iter().filter(told) {
            *seen.entry((request.call, kind)).or_insert(0) += 1;
        }
    }
    assert_eq!(seen.len(), 2 * Repeat::ALL.len(), "{seen:?}");
    assert!(seen.values().all(|count| *count >= 5), "{seen:?}");
}

#[test]
fn unfolded_runs_come_in_which_an_event_picks_itself() {
    let (mut runs, mut picks) = (0, 0);
    for request in cases_of([Call::Project, Call::UnfoldedReplay]) {
        if expected(&request).number != 0 {
            continue;
        }
        let numbers = words(&request.given);
        let behind = |number: &u16| event_behind(&request.table, *number).unwrap();
        let own = |number: &&u16| {
            let UnfoldedEvent { event, markers } = behind(number);
            markers.contains(&Marker::ByEvent(event))
        };
        let own = numbers.iter().take(20).filter(own).count();
        runs += usize::from(own > 0);
        picks += own;
    }
    assert!(runs > 20 && picks > 50, "{runs} {picks}");
}

#[test]
fn lossy_events_are_expected_and_what_was_missed_of_them_is_told() {
    let table = vec![
        3, 0, 1, 0, 0, 0, 1, 10, 0, 2, 0, 1, 0, 2, 0, 0, 0, 1, 0, 2, 0, 10, 0, 2, 0, 2, 0, 1, 0, 1,
        0, 2, 0, 0, 0, 2, 0, 3, 0, 0, 0,
    ];
    let mut request = Request::new(Call::Lossy, &table);
    request.lent = vec![9; 3];
    let reply = expected(&request);
    assert_eq!((reply.number, &reply.lent[..]), (0, &[1, 0, 9][..]));
    let mut tally = Tally::default();
    tally.count(&request, &reply);
    let missed = tally.missed(Some(Call::Lossy));
    let is_missed = |words: &str| missed.contains(&format!("lossy never met an event '{words}'"));
    assert!(!is_missed("lossy") && !is_missed("for no other"));
    assert!(is_missed("unchanged") && is_missed("once"));
    request.lent = vec![9];
    assert_eq!(expected(&request).number, 16);
}

#[test]
fn lossy_events_come_and_each_reason_that_alone_spares_one() {
    let mut tally = Tally::default();
    for request in (0..60_000)
        .map(|n| Random::new(n).draw())
        .filter_map(beside)
        .take(400)
    {
        tally.count(&request, &expected(&request));
    }
    let missed = tally.missed(Some(Call::Lossy));
    let of_events = missed.iter().filter(|line| line.contains("an event"));
    assert_eq!(of_events.count(), 0, "{missed:?}");
}

#[test]
fn elements_come_of_every_group_and_past_the_last() {
    let groups = [
        "<pnml xmlns",
        "<place id=\"p",
        "<place id=\"q",
        "<transition id=\"t",
        "<arc id=\"a",
        "</page>",
    ];
    let (mut seen, mut past, mut short) = ([0; 6], 0, 0);
    for request in seeds()
        .map(case)
        .filter(|request| request.call == Call::Element)
    {
        let reply = expected(&request);
        let starts = |group: &str| reply.lent.starts_with(group.as_bytes());
        match (reply.number, groups.iter().position(|group| starts(group))) {
            (0, Some(group)) => seen[group] += 1,
            (10, None) => past += 1,
            (16, None) => short += 1,
            (1..=9 | 13 | 14, None) => {}
            other => panic!("{other:?}"),
        }
    }
    assert!(seen.iter().all(|count| *count > 4), "{seen:?}");
    assert!(past > 10 && short > 10, "{past} {short}");
}

#[test]
fn a_whole_export_asks_for_every_element_twice() {
    for seed in seeds().take(20) {
        let requests = whole_export(seed);
        let count = expected(&requests[0]).values[0];
        assert_eq!(requests.len() as u64, 1 + 2 * (count + 1));
        let replies: Vec<u64> = requests[1..].iter().map(|r| expected(r).number).collect();
        let (past, inside) = (&replies[replies.len() - 2..], &replies[..replies.len() - 2]);
        assert_eq!(past, [10, 10]);
        assert!(inside.chunks(2).all(|pair| pair == [0, 16]));
    }
}
