//! All unfolded runs that read back as a run of the table, found by trying every colour at every step; the lift is held to them (02,
//! No. 3).

use std::collections::BTreeMap;

use second::game::{fire, Game};
use second::generator::{repeating_unfolding, small_unfolding, walk, Random, Walk};
use second::refusal::Refusal;
use second::repeats::{repeats, Repeat};
use second::table::{table_bytes, Net};
use second::unfolding::{colour_count, persistent_preconditions, unfold, Marker, Unfolding};

use crate::common::*;

/// The runs that are searched for.
const RUNS: usize = 40_000;

/// A run is cut before it has more colourings, so that every search ends soon.
const MOST_COLOURINGS: u128 = 20_000;

/// A search for the unfolded runs that read back as a run, by the game of the unfolded net alone.
struct Search<'a> {
    unfolding: &'a Unfolding,
    run: &'a [u16],
    /// All of them, once the search has ended.
    found: Vec<Vec<u16>>,
    /// The most steps of the run that some unfolded run reads back as.
    furthest: usize,
}

impl Search<'_> {
    /// Searches for everything that reads back as a run.
    fn all<'a>(unfolding: &'a Unfolding, run: &'a [u16]) -> Search<'a> {
        let mut search = Search {
            unfolding,
            run,
            found: Vec::new(),
            furthest: 0,
        };
        search.go_on(&[], &unfolding.start());
        search
    }

    /// Goes on after some unfolded steps, at the unfolded marking that they end in, with each colour of the next event that fires there.
    fn go_on(&mut self, steps: &[u16], marking: &[bool]) {
        self.furthest = self.furthest.max(steps.len());
        let Some(event) = self.run.get(steps.len()) else {
            self.found.push(steps.to_vec());
            return;
        };
        for number in 0..self.unfolding.events.len() {
            if self.unfolding.events[number].event != *event {
                continue;
            }
            if let Ok(after) = fire(self.unfolding, marking, number as u16) {
                self.go_on(&[steps, &[number as u16]].concat(), &after);
            }
        }
    }
}

/// A run of a net that fires at every step, often with repeats that do not lift, and with few enough colourings.
fn any_run(random: &mut Random, net: &Net) -> Vec<u16> {
    let way = Walk {
        steps: random.below(11),
        arbitrary: 0,
        avoid_repeats: random.percent(50),
    };
    let mut run = walk(random, net, net.events.len(), &way);
    let colours = |e: &u16| colour_count(net, &net.events[usize::from(*e)]);
    while run.iter().map(colours).product::<u128>() > MOST_COLOURINGS {
        run.pop();
    }
    run
}

/// In an unfolded run that reads back as a run, each event that comes again picks itself for what it reads and marks; tells how often.
fn picks_itself(net: &Net, unfolding: &Unfolding, run: &[u16], found: &[u16]) -> usize {
    let mut picks = 0;
    for (step, number) in run.iter().enumerate() {
        if !run[..step].contains(number) {
            continue;
        }
        let event = &net.events[usize::from(*number)];
        let read = persistent_preconditions(net, event);
        let picked = &unfolding.events[usize::from(found[step])].markers;
        assert_eq!(read.len(), picked.len());
        for (b, marker) in read.iter().zip(picked) {
            if event.postconditions.contains(b) {
                assert_eq!(*marker, Marker::ByEvent(*number), "{net:?} {run:?}");
                picks += 1;
            }
        }
    }
    picks
}

/// When a marker first marked: at the start, or in a step of the run.
fn first_marked(run: &[u16], marker: &Marker) -> usize {
    match marker {
        Marker::Start => 0,
        Marker::ByEvent(event) => 1 + run.iter().position(|e| e == event).unwrap(),
    }
}

/// One of two unfolded runs that read back as a run nowhere picks a marker that marked later than the other's.
fn picks_as_early(unfolding: &Unfolding, run: &[u16], one: &[u16], other: &[u16]) -> bool {
    let times = |number: &u16| {
        let picked = unfolding.events[usize::from(*number)].markers.iter();
        picked.map(|marker| first_marked(run, marker))
    };
    let mut steps = one.iter().zip(other);
    steps.all(|(one, other)| {
        times(one)
            .zip(times(other))
            .all(|(one, other)| one <= other)
    })
}

/// Holds the lift of a run to what the search finds; gives all that was found.
fn lift_agrees(net: &Net, unfolding: &Unfolding, run: &[u16]) -> Vec<Vec<u16>> {
    let Search {
        found, furthest, ..
    } = Search::all(unfolding, run);
    match lift(&table_bytes(net), run) {
        Ok(lifted) => {
            assert!(found.contains(&lifted), "{net:?} {run:?} {lifted:?}");
            let is_early = |other: &Vec<u16>| picks_as_early(unfolding, run, &lifted, other);
            assert!(found.iter().all(is_early), "{net:?} {run:?} {lifted:?}");
        }
        Err(refusal) => {
            assert_eq!(refusal, Refusal::at(15, furthest), "{net:?} {run:?}");
            assert!(found.is_empty(), "{net:?} {run:?} {found:?}");
        }
    }
    found
}

#[test]
fn in_net_c_a_repeat_reads_back_in_one_way_and_in_net_b_in_none() {
    let c = unfold(&net(&[1], &[(&[0], &[0])], &[0])).unwrap();
    assert_eq!(Search::all(&c, &[0, 0]).found, [[0, 1]]);
    assert_eq!(Search::all(&c, &[0, 0, 0]).found, [[0, 1, 1]]);
    let b = unfold(&net(&[0, 1], &[(&[0], &[0, 1]), (&[1], &[])], &[0])).unwrap();
    assert_eq!(Search::all(&b, &[0, 1, 1]).found, [[0, 2, 2]]);
    let search = Search::all(&b, &[0, 0, 1]);
    assert_eq!((search.found.len(), search.furthest), (0, 1));
}

/// What the search met: kinds of repeats, runs that lift, those of them that more than one unfolded run reads back as, and picks of an
/// event by itself in all that was found.
#[derive(Default, Debug)]
struct Seen {
    kinds: BTreeMap<Repeat, usize>,
    lifted: usize,
    several: usize,
    picks: usize,
}

impl Seen {
    /// Counts a run with all that was found for it: the kinds of its repeats if it lifts, else the kind for which it does not.
    fn count(&mut self, net: &Net, run: &[u16], found: &[Vec<u16>]) {
        let kinds = repeats(net, run);
        let is_refused = kinds.iter().any(|kind| kind.is_refused());
        assert_eq!(is_refused, found.is_empty(), "{net:?} {run:?}");
        let told = |kind: &Repeat| kind.is_refused() == is_refused;
        for kind in kinds.into_iter().filter(told) {
            *self.kinds.entry(kind).or_default() += 1;
        }
        self.lifted += usize::from(!found.is_empty());
        self.several += usize::from(found.len() > 1);
    }

    /// Every kind of repeat, and everything else, came so often.
    fn is_rich(&self, least: usize) -> bool {
        let often = |(kind, _): &(Repeat, &str)| self.kinds.get(kind) >= Some(&least);
        let others = [self.lifted, self.several, self.picks];
        Repeat::ALL.iter().all(often) && others.iter().all(|count| *count >= least)
    }
}

#[test]
fn a_run_lifts_exactly_if_something_reads_back_as_it() {
    let mut random = Random::given();
    let mut seen = Seen::default();
    for case in 0..RUNS {
        let (net, unfolding) = match case % 4 {
            0 => small_unfolding(&mut random),
            _ => repeating_unfolding(&mut random),
        };
        let run = any_run(&mut random, &net);
        let found = lift_agrees(&net, &unfolding, &run);
        seen.count(&net, &run, &found);
        let picks = found
            .iter()
            .map(|one| picks_itself(&net, &unfolding, &run, one));
        seen.picks += picks.sum::<usize>();
    }
    println!("{seen:?}");
    assert!(seen.is_rich(300), "{seen:?}");
}
