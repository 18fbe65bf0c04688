//! The kinds of repeats that a run of the table has, so that tests and comparisons can tell which of them they met (02, No. 3).

use std::collections::BTreeSet;

use crate::across::may_repeat;
use crate::table::{Event, Net};
use crate::unfolding::users;

/// A way in which an event that marks persistent conditions comes again.
#[derive(Clone, Copy, Debug, PartialEq, Eq, PartialOrd, Ord)]
pub enum Repeat {
    /// It picks itself for a condition that the start had marked.
    ItselfAfterStart,
    /// It picks itself for a condition that another event had marked.
    ItselfAfterEvent,
    /// It picks itself, and for a condition that it does not mark the earliest marker.
    ItselfAndEarliest,
    /// It picks itself for the third time that it comes, or later.
    ItselfThirdTime,
    /// No event uses what it marks.
    Unused,
    /// Another event uses what it marks, so that the run does not lift.
    Refused,
    /// The same, after repeats of events that mark which would have been lifted.
    RefusedLate,
    /// The same, and beside the other event it uses what it marks itself.
    RefusedShared,
}

impl Repeat {
    /// Every kind, in words.
    pub const ALL: [(Repeat, &'static str); 8] = [
        (Repeat::ItselfAfterStart, "itself, start"),
        (Repeat::ItselfAfterEvent, "itself, event"),
        (Repeat::ItselfAndEarliest, "and earliest"),
        (Repeat::ItselfThirdTime, "third time"),
        (Repeat::Unused, "unused"),
        (Repeat::Refused, "15"),
        (Repeat::RefusedLate, "15 late"),
        (Repeat::RefusedShared, "15 shared"),
    ];

    /// A run with such a repeat does not lift.
    pub fn is_refused(self) -> bool {
        matches!(
            self,
            Repeat::Refused | Repeat::RefusedLate | Repeat::RefusedShared
        )
    }
}

/// The persistent conditions of a list.
fn persistent(net: &Net, list: &[u16]) -> Vec<u16> {
    let persistent = |b: &&u16| net.persistent[usize::from(**b)];
    list.iter().filter(persistent).copied().collect()
}

/// The kinds of a repeat of an event that may come again, by how often it came before.
fn lifted_kinds(net: &Net, event: &Event, before: usize) -> Vec<Repeat> {
    let marks = |b: &u16| event.postconditions.contains(b);
    let read = persistent(net, &event.preconditions);
    let (own, others): (Vec<u16>, Vec<u16>) = read.into_iter().partition(marks);
    if own.is_empty() {
        return vec![Repeat::Unused];
    }
    let at_start = |b: &u16| net.start.contains(b);
    let kinds = [
        (own.iter().any(at_start), Repeat::ItselfAfterStart),
        (!own.iter().all(at_start), Repeat::ItselfAfterEvent),
        (!others.is_empty(), Repeat::ItselfAndEarliest),
        (before >= 2, Repeat::ItselfThirdTime),
    ];
    let met = kinds.into_iter().filter(|(is_so, _)| *is_so);
    met.map(|(_, kind)| kind).collect()
}

/// The kinds of a repeat that does not lift, by whether others came before it.
fn refused_kinds(net: &Net, event: &Event, late: bool) -> Vec<Repeat> {
    let shared = |b: &u16| event.preconditions.contains(b) && users(net, *b).len() > 1;
    let marked = persistent(net, &event.postconditions);
    let kind = match late {
        true => Repeat::RefusedLate,
        false => Repeat::Refused,
    };
    let shared = marked.iter().any(shared).then_some(Repeat::RefusedShared);
    [kind].into_iter().chain(shared).collect()
}

/// The kinds of repeats that a run of the table has, up to the first that is refused.
pub fn repeats(net: &Net, run: &[u16]) -> BTreeSet<Repeat> {
    let mut kinds = BTreeSet::new();
    let mut occurred = vec![0; net.events.len()];
    for number in run {
        let event = &net.events[usize::from(*number)];
        let before = occurred[usize::from(*number)];
        occurred[usize::from(*number)] += 1;
        if before == 0 || persistent(net, &event.postconditions).is_empty() {
            continue;
        }
        if !may_repeat(net, *number) {
            let late = !kinds.is_empty();
            kinds.extend(refused_kinds(net, event, late));
            break;
        }
        kinds.extend(lifted_kinds(net, event, before));
    }
    kinds
}
