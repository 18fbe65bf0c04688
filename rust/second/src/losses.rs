//! Lossy events: those whose repeats the unfolded net does not have though they may lead to markings that nothing else reaches.

use std::collections::BTreeSet;

use crate::across::may_repeat;
use crate::table::{Event, Net};

/// Why an event is not lossy; each of these is enough.
#[derive(Clone, Copy, Debug, PartialEq, Eq, PartialOrd, Ord)]
pub enum Spared {
    /// No other event uses what it marks, so that it may come again in a run that lifts.
    ForNoOther,
    /// It takes and puts the same ordinary conditions, so that a second time changes nothing.
    Unchanged,
    /// It takes an ordinary condition that no event puts, so that there is no second time.
    Once,
}

impl Spared {
    /// Every reason, in words.
    pub const ALL: [(Spared, &'static str); 3] = [
        (Spared::ForNoOther, "for no other"),
        (Spared::Unchanged, "unchanged"),
        (Spared::Once, "once"),
    ];
}

/// The ordinary conditions of a list.
fn ordinary(net: &Net, list: &[u16]) -> BTreeSet<u16> {
    let ordinary = |b: &&u16| !net.persistent[usize::from(**b)];
    list.iter().filter(ordinary).copied().collect()
}

/// All reasons for which an event is not lossy.
pub fn spared(net: &Net, event: u16) -> Vec<Spared> {
    let Event {
        preconditions,
        postconditions,
    } = &net.events[usize::from(event)];
    let (taken, put) = (ordinary(net, preconditions), ordinary(net, postconditions));
    let is_put = |b: &u16| net.events.iter().any(|e| e.postconditions.contains(b));
    let reasons = [
        (may_repeat(net, event), Spared::ForNoOther),
        (taken == put, Spared::Unchanged),
        (!taken.iter().all(is_put), Spared::Once),
    ];
    let met = reasons.into_iter().filter(|(is_so, _)| *is_so);
    met.map(|(_, reason)| reason).collect()
}

/// An event is lossy: it marks for another, its ordinary pre- and postconditions are not the same set, and no ordinary precondition of it
/// is one that no event puts.
pub fn is_lossy(net: &Net, event: u16) -> bool {
    spared(net, event).is_empty()
}
