//! Runs across: lifting a run of the table, and projecting an unfolded run (01, Runs across; 02, No. 3; the paper, theorem 6.1).

use crate::game::{play, Game};
use crate::refusal::{refuse, require, Answer};
use crate::table::Net;
use crate::unfolding::{persistent_preconditions, users, Marker, UnfoldedEvent, Unfolding};

/// An event may come again in a run that is lifted: no other event uses a persistent condition that it marks.
pub fn may_repeat(net: &Net, event: u16) -> bool {
    let marked = &net.events[usize::from(event)].postconditions;
    let mut persistent = marked.iter().filter(|b| net.persistent[usize::from(**b)]);
    persistent.all(|b| users(net, *b).iter().all(|user| *user == event))
}

/// What a lift carries from step to step: the earliest marker of each condition, and which events have occurred.
struct Carried<'a> {
    net: &'a Net,
    earliest: Vec<Option<Marker>>,
    occurred: Vec<bool>,
}

impl Carried<'_> {
    /// What is carried at the start of the table, which marks what holds there.
    fn at_start(net: &Net) -> Carried<'_> {
        let by_start = |holds: bool| holds.then_some(Marker::Start);
        Carried {
            net,
            earliest: net.start().into_iter().map(by_start).collect(),
            occurred: vec![false; net.events.len()],
        }
    }

    /// An event has occurred before.
    fn has_occurred(&self, number: u16) -> bool {
        self.occurred[usize::from(number)]
    }

    /// The markers that an event picks: itself where it marks the condition and occurred before, else the earliest.
    fn picked(&self, number: u16) -> Vec<Marker> {
        let event = &self.net.events[usize::from(number)];
        let again = self.has_occurred(number);
        let pick = |b: u16| match again && event.postconditions.contains(&b) {
            true => Some(Marker::ByEvent(number)),
            false => self.earliest[usize::from(b)],
        };
        let read = persistent_preconditions(self.net, event);
        read.into_iter().filter_map(pick).collect()
    }

    /// Carries on that an event has occurred.
    fn occur(&mut self, number: u16) {
        self.occurred[usize::from(number)] = true;
        for b in &self.net.events[usize::from(number)].postconditions {
            self.earliest[usize::from(*b)].get_or_insert(Marker::ByEvent(number));
        }
    }
}

/// The lifted run of a run of the table whose unfolding is given: all steps first, then 15 at the first repeat that may not be.
pub fn lifted(net: &Net, unfolding: &Unfolding, run: &[u16]) -> Answer<Vec<u16>> {
    play(net, net.start(), run)?;
    let mut carried = Carried::at_start(net);
    let mut lifted = Vec::with_capacity(run.len());
    for (step, event) in run.iter().enumerate() {
        let allowed = !carried.has_occurred(*event) || may_repeat(net, *event);
        require(allowed, 15, step)?;
        let unfolded = UnfoldedEvent {
            event: *event,
            markers: carried.picked(*event),
        };
        // A firing event's persistent preconditions all have a marker, so this colour is always found.
        let Some(number) = unfolding.event_number(&unfolded) else {
            return refuse(10, step);
        };
        lifted.push(number);
        carried.occur(*event);
    }
    Ok(lifted)
}

/// The run of the table behind an unfolded run, which is replayed from the unfolded start first.
pub fn projected(unfolding: &Unfolding, lifted: &[u16]) -> Answer<Vec<u16>> {
    play(unfolding, unfolding.start(), lifted)?;
    let behind = |number: &u16| unfolding.events[usize::from(*number)].event;
    Ok(lifted.iter().map(behind).collect())
}
