//! Lossy events: the definition on nets that part its reasons, and by search that a table without them loses no marking.

use std::collections::BTreeSet;

use second::calls;
use second::game::{fire, Game};
use second::generator::{repeating_unfolding, small_unfolding, Random};
use second::losses::{is_lossy, spared, Spared};
use second::table::{table_bytes, Net};
use second::unfolding::{unfold, Unfolding};

use crate::common::*;

/// The nets that are searched.
const NETS: usize = 60_000;

/// The markings of a table that are looked for, and the most pairs of markings that are looked through for them.
const MARKINGS: usize = 300;
const PAIRS: usize = 6_000;

/// The bytes that the call writes.
fn lossy(table: &[u8]) -> Vec<u8> {
    written(7, 300, |out| calls::lossy(table, out)).unwrap()
}

/// The table by which a run was lost: `press` marks [2], which `use` reads, and comes twice before 5, `armed`, holds.
fn hands() -> Net {
    let events: [(&[u16], &[u16]); 4] = [
        (&[0], &[1, 2]),
        (&[1, 3], &[0, 4]),
        (&[1, 4], &[0, 5]),
        (&[2, 6], &[7]),
    ];
    net(&[0, 0, 1, 0, 0, 0, 0, 0], &events, &[0, 3, 6])
}

#[test]
fn each_reason_spares_an_event() {
    let lossy_one = net(&[0, 0, 1], &[(&[0], &[1, 2]), (&[1, 2], &[0])], &[0]);
    assert_eq!(spared(&lossy_one, 0), []);
    assert_eq!(spared(&lossy_one, 1), [Spared::ForNoOther]);
    let only_own = net(&[0, 0, 1], &[(&[0], &[1, 2]), (&[1], &[0])], &[0]);
    assert_eq!(spared(&only_own, 0), [Spared::ForNoOther]);
    let unchanged = net(&[0, 0, 1], &[(&[0], &[0, 2]), (&[1, 2], &[0])], &[0]);
    assert_eq!(spared(&unchanged, 0), [Spared::Unchanged]);
    let once = net(&[0, 0, 1], &[(&[0], &[1, 2]), (&[1, 2], &[])], &[0]);
    assert_eq!(spared(&once, 0), [Spared::Once]);
    let once_by_one = net(&[0, 0, 1], &[(&[0, 1], &[2]), (&[2], &[0])], &[0, 1]);
    assert_eq!(spared(&once_by_one, 0), [Spared::Once]);
}

#[test]
fn persistent_conditions_and_own_ones_are_told_apart() {
    let takes_nothing = net(&[0, 1], &[(&[], &[0, 1]), (&[0, 1], &[])], &[]);
    assert!(is_lossy(&takes_nothing, 0));
    let puts_only_for_other = net(&[0, 1], &[(&[], &[1]), (&[0, 1], &[])], &[]);
    assert_eq!(spared(&puts_only_for_other, 0), [Spared::Unchanged]);
    let reads_persistent = net(&[1, 0, 1], &[(&[0], &[1, 2]), (&[1, 2], &[])], &[0]);
    assert!(is_lossy(&reads_persistent, 0));
    let only_it_puts = net(&[0, 0, 1], &[(&[0], &[0, 1, 2]), (&[1, 2], &[])], &[0]);
    assert!(is_lossy(&only_it_puts, 0));
    let only_takes_more = net(&[0, 0, 1], &[(&[0, 1], &[0, 2]), (&[0, 2], &[1])], &[0]);
    assert!(is_lossy(&only_takes_more, 0));
}

#[test]
fn the_call_writes_a_byte_for_each_event() {
    assert_eq!(lossy(&table_bytes(&hands())), [1, 0, 0, 0]);
    assert_eq!(lossy(&net_a(&[0])), [0, 0, 0]);
    assert_eq!(lossy(&net_b()), [0, 0]);
    assert_eq!(lossy(&net_c()), [0]);
    assert_eq!(lossy(&net_d()), [0; 12]);
    assert_eq!(lossy(&table_bytes(&net(&[0], &[], &[]))), []);
    let table = table_bytes(&hands());
    assert_eq!(calls::lossy(&table, &mut [7; 3]), refused(16, 4));
    assert_eq!(calls::lossy(&table[1..], &mut []), refused(1, 0));
}

// ---- by search

/// What is reached from a start by steps, up to so many; and whether that is all.
fn reached<M: Clone + Ord>(
    start: M,
    steps: impl Fn(&M) -> Vec<M>,
    most: usize,
) -> (BTreeSet<M>, bool) {
    let mut found = BTreeSet::from([start.clone()]);
    let mut open = vec![start];
    while let Some(one) = open.pop() {
        for next in steps(&one) {
            if found.len() >= most {
                return (found, false);
            }
            if found.insert(next.clone()) {
                open.push(next);
            }
        }
    }
    (found, true)
}

/// The markings of the table that its runs reach, as far as they are looked for.
fn of_table(net: &Net) -> BTreeSet<Vec<bool>> {
    let events = (0..=u16::MAX).take(net.events.len());
    let events: Vec<u16> = events.collect();
    let steps = |marking: &Vec<bool>| {
        let fired = events.iter().map(|event| fire(net, marking, *event));
        fired.filter_map(Result::ok).collect()
    };
    reached(net.start(), steps, MARKINGS).0
}

/// The markings of the table that are reached where the unfolded net is played and its events are fired in the table beside it; none
/// where there are too many.
fn of_unfolding(net: &Net, unfolding: &Unfolding) -> Option<BTreeSet<Vec<bool>>> {
    let steps = |(unfolded, folded): &(Vec<bool>, Vec<bool>)| {
        let mut after = Vec::new();
        for (number, behind) in (0..=u16::MAX).zip(&unfolding.events) {
            if let Ok(next) = fire(unfolding, unfolded, number) {
                // a run of the unfolded net reads back as one of the table, so this fires
                after.push((next, fire(net, folded, behind.event).unwrap()));
            }
        }
        after
    };
    let (pairs, all) = reached((unfolding.start(), net.start()), steps, PAIRS);
    all.then(|| pairs.into_iter().map(|(_, folded)| folded).collect())
}

/// The numbers of the events of a net.
fn events(net: &Net) -> impl Iterator<Item = u16> {
    (0..=u16::MAX).take(net.events.len())
}

#[test]
fn the_table_of_hands_loses_what_it_arms() {
    let (net, unfolding) = (hands(), unfold(&hands()).unwrap());
    let armed = |marking: &Vec<bool>| marking[5];
    assert!(of_table(&net).iter().any(armed));
    let kept = of_unfolding(&net, &unfolding).unwrap();
    assert!(!kept.iter().any(armed));
    assert_eq!(
        replay(&table_bytes(&net), &[0, 1, 0, 2]),
        Ok(vec![0, 2, 5, 6])
    );
    assert_eq!(lift(&table_bytes(&net), &[0, 1, 0, 2]), refused(15, 2));
}

/// What the search met: nets without a lossy event, those of them in which one reason alone spares an event that marks for another, and
/// nets with a lossy event, with those of them that do lose a marking.
#[derive(Default, Debug)]
struct Seen {
    whole: usize,
    unchanged: usize,
    once: usize,
    lossy: usize,
    losing: usize,
}

impl Seen {
    /// Counts a net by whether a marking of it was lost, which may not be where no event is lossy.
    fn count(&mut self, net: &Net, is_lost: bool) {
        if events(net).any(|event| is_lossy(net, event)) {
            self.lossy += 1;
            self.losing += usize::from(is_lost);
            return;
        }
        assert!(!is_lost, "{net:?}");
        let alone = |reason: Spared| events(net).any(|event| spared(net, event) == [reason]);
        self.whole += 1;
        self.unchanged += usize::from(alone(Spared::Unchanged));
        self.once += usize::from(alone(Spared::Once));
    }
}

#[test]
fn a_table_without_lossy_events_loses_no_marking() {
    let mut random = Random::given();
    let mut seen = Seen::default();
    for case in 0..NETS {
        let (net, unfolding) = match case % 2 {
            0 => small_unfolding(&mut random),
            _ => repeating_unfolding(&mut random),
        };
        let Some(kept) = of_unfolding(&net, &unfolding) else {
            continue;
        };
        let is_lost = of_table(&net).iter().any(|marking| !kept.contains(marking));
        seen.count(&net, is_lost);
    }
    println!("{seen:?}");
    let Seen {
        whole,
        unchanged,
        once,
        lossy,
        losing,
    } = seen;
    assert!(whole > 10_000 && lossy > 3_000, "{seen:?}");
    assert!(
        unchanged > 1_000 && once > 1_000 && losing > 100,
        "{seen:?}"
    );
}
