//! The token game: concession, firing, playing a run and exchanging steps (01, Playing the table; 02, No. 4; the paper, section 5).

use crate::lent::marking_of;
use crate::refusal::{refuse, require, Answer, Refusal};
use crate::table::{Event, Net, Rule};

/// A net that is played: the table's net, or its unfolding with all conditions ordinary.
pub trait Game {
    /// Which conditions are persistent.
    fn persistent(&self) -> &[bool];
    /// The rule by which an ordinary condition blocks.
    fn rule_of(&self, condition: u16) -> Rule;
    /// The event with this number, if there is one.
    fn event(&self, number: u16) -> Option<Event>;
    /// The marking at the start.
    fn start(&self) -> Vec<bool>;
}

impl Game for Net {
    fn persistent(&self) -> &[bool] {
        &self.persistent
    }

    fn rule_of(&self, _: u16) -> Rule {
        self.rule()
    }

    fn event(&self, number: u16) -> Option<Event> {
        self.events.get(usize::from(number)).cloned()
    }

    fn start(&self) -> Vec<bool> {
        marking_of(&self.start, self.persistent.len())
    }
}

/// Why an event does not fire: 10, or 11 or 12 with the condition that stopped it (02, No. 2).
#[derive(Clone, Copy, Debug, PartialEq, Eq)]
pub struct Stop {
    pub number: u8,
    pub by: Option<u16>,
}

impl Stop {
    /// The refusal of a firing: the condition is its place too, and 10 has place 0.
    pub fn of_firing(self) -> Refusal {
        let Stop { number, by } = self;
        let place = by.map_or(0, usize::from);
        Refusal { number, place, by }
    }

    /// The refusal of a run: its place is the step, and the condition stands beside it.
    pub fn at_step(self, place: usize) -> Refusal {
        let Stop { number, by } = self;
        Refusal { number, place, by }
    }
}

/// Stops with this number by the lowest of the conditions at fault, if there is any.
fn lowest_at_fault(number: u8, at_fault: impl Iterator<Item = u16>) -> Result<(), Stop> {
    match at_fault.min() {
        None => Ok(()),
        by => Err(Stop { number, by }),
    }
}

/// Tests the concession of an event: 11 by the lowest precondition that does not hold, before 12 by the lowest ordinary condition in
/// contact. An ordinary postcondition that holds is in contact if it is no precondition, and by the old rule even if it is one.
fn concession<G: Game>(game: &G, event: &Event, marking: &[bool]) -> Result<(), Stop> {
    let Event {
        preconditions,
        postconditions,
    } = event;
    let holds = |b: &u16| marking[usize::from(*b)];
    let ordinary = |b: &u16| !game.persistent()[usize::from(*b)];
    let blocks = |b: &u16| !preconditions.contains(b) || game.rule_of(*b) == Rule::Old;
    let lacking = preconditions.iter().filter(|b| !holds(b));
    let contact = postconditions
        .iter()
        .filter(|b| ordinary(b) && holds(b) && blocks(b));
    lowest_at_fault(11, lacking.copied())?;
    lowest_at_fault(12, contact.copied())
}

/// The marking after an event with concession.
fn fired(persistent: &[bool], event: &Event, marking: &[bool]) -> Vec<bool> {
    let mut after = marking.to_vec();
    for b in &event.preconditions {
        after[usize::from(*b)] = false;
    }
    for b in &event.postconditions {
        after[usize::from(*b)] = true;
    }
    for b in 0..after.len() {
        if persistent[b] && marking[b] {
            after[b] = true;
        }
    }
    after
}

/// Fires the event with this number: the marking after it, or why it does not fire.
pub fn fire<G: Game>(game: &G, marking: &[bool], number: u16) -> Result<Vec<bool>, Stop> {
    let unknown = Stop {
        number: 10,
        by: None,
    };
    let event = game.event(number).ok_or(unknown)?;
    concession(game, &event, marking)?;
    Ok(fired(game.persistent(), &event, marking))
}

/// All markings along a run from a start, the start first; a refusal has the step as place.
pub fn markings_along<G: Game>(game: &G, start: Vec<bool>, run: &[u16]) -> Answer<Vec<Vec<bool>>> {
    let mut markings = vec![start];
    for (step, number) in run.iter().enumerate() {
        let after = fire(game, &markings[step], *number);
        markings.push(after.map_err(|stop| stop.at_step(step))?);
    }
    Ok(markings)
}

/// Plays a run from a start to its end; a refusal has the step as place.
pub fn play<G: Game>(game: &G, start: Vec<bool>, run: &[u16]) -> Answer<Vec<bool>> {
    let mut marking = start;
    for (step, number) in run.iter().enumerate() {
        marking = fire(game, &marking, *number).map_err(|stop| stop.at_step(step))?;
    }
    Ok(marking)
}

/// The conditions that an event has in either list.
fn touched(event: &Event) -> Vec<u16> {
    [&event.preconditions[..], &event.postconditions[..]].concat()
}

/// Two neighbouring steps may change places: they are of different events, no ordinary condition is touched by both, and the
/// second neither reads nor marks a persistent condition that the first set, which is one that did not hold before it.
pub fn may_exchange(net: &Net, before: &[bool], first: u16, second: u16) -> bool {
    let one = &net.events[usize::from(first)];
    let other = touched(&net.events[usize::from(second)]);
    let ordinary = |b: &&u16| !net.persistent[usize::from(**b)];
    let shared = touched(one)
        .iter()
        .filter(ordinary)
        .any(|b| other.contains(b));
    let is_set = |b: &&u16| !ordinary(b) && !before[usize::from(**b)];
    let depends = one
        .postconditions
        .iter()
        .filter(is_set)
        .any(|b| other.contains(b));
    first != second && !shared && !depends
}

/// The run with steps k and k + 1 exchanged: the run is replayed first, then 10 and 17 have k as place.
pub fn exchanged(net: &Net, run: &[u16], k: usize) -> Answer<Vec<u16>> {
    play(net, net.start(), run)?;
    let next = k.checked_add(1).filter(|next| *next < run.len());
    let Some(next) = next else {
        return refuse(10, k);
    };
    let before = play(net, net.start(), &run[..k])?;
    require(may_exchange(net, &before, run[k], run[next]), 17, k)?;
    let mut other = run.to_vec();
    other.swap(k, next);
    Ok(other)
}
