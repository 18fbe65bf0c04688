//! The export of the unfolded net as a plain net in PNML, one element at a time (02, No. 1 and No. 4).

use crate::game::Game;
use crate::plain::{Plain, Transition};
use crate::table::Rule;
use crate::unfolding::Unfolding;

/// The first element: all that opens.
const OPENS: &str = concat!(
    r#"<pnml xmlns="http://www.pnml.org/version-2009/grammar/pnml">"#,
    r#"<net id="n" type="http://www.pnml.org/version-2009/grammar/ptnet">"#,
    r#"<page id="g">"#
);

/// The last element: all that closes.
const CLOSES: &str = "</page></net></pnml>";

/// Which of the two places of a condition: the one that holds a token where the condition holds, or its second.
#[derive(Clone, Copy, Debug, PartialEq, Eq)]
pub enum Side {
    First,
    Second,
}

/// A place of the doubled net.
#[derive(Clone, Copy, Debug, PartialEq, Eq)]
pub struct Place {
    pub side: Side,
    pub condition: u16,
}

impl Place {
    /// The place's id.
    fn id(self) -> String {
        match self.side {
            Side::First => format!("p{}", self.condition),
            Side::Second => format!("q{}", self.condition),
        }
    }
}

/// An event of the doubled net: the places that it takes and those that it puts, in the order of their arcs.
#[derive(Clone, Debug, PartialEq, Eq)]
pub struct DoubledEvent {
    pub taken: Vec<Place>,
    pub put: Vec<Place>,
}

/// The first places of some conditions, then the second places of others.
fn places(first: &[u16], second: &[u16]) -> Vec<Place> {
    let on = |side: Side, list: &[u16]| -> Vec<Place> {
        let place = |b: &u16| Place {
            side,
            condition: *b,
        };
        list.iter().map(place).collect()
    };
    [on(Side::First, first), on(Side::Second, second)].concat()
}

/// The doubled net: every unfolded condition has a second place that holds a token exactly when the first does not.
pub struct Doubled<'a> {
    unfolding: &'a Unfolding,
    start: Vec<bool>,
}

impl<'a> Doubled<'a> {
    /// The doubled net of an unfolding.
    pub fn of(unfolding: &'a Unfolding) -> Doubled<'a> {
        Doubled {
            unfolding,
            start: unfolding.start(),
        }
    }

    /// The conditions of one ascending list whose second places have arcs: those that are not in the other list, and by the old rule
    /// all others too.
    fn doubled(&self, list: &[u16], other: &[u16]) -> Vec<u16> {
        let missing = |b: &u16| other.binary_search(b).is_err();
        let doubled = |b: &u16| missing(b) || self.unfolding.rule_of(*b) == Rule::Old;
        list.iter().copied().filter(doubled).collect()
    }

    /// An event of the doubled net: it takes the second place of each postcondition that is no precondition, and puts that of each
    /// precondition that is no postcondition; where a condition that is both follows the old rule, it takes its second place and puts it
    /// back.
    pub fn event(&self, number: u16) -> Option<DoubledEvent> {
        let event = self.unfolding.event(number)?;
        let (before, after) = (&event.preconditions, &event.postconditions);
        Some(DoubledEvent {
            taken: places(before, &self.doubled(after, before)),
            put: places(after, &self.doubled(before, after)),
        })
    }

    /// The events in number order.
    fn events(&self) -> impl Iterator<Item = DoubledEvent> + '_ {
        let numbers = (0..=u16::MAX).take(self.unfolding.events.len());
        numbers.filter_map(|number| self.event(number))
    }

    /// A place holds a token at the start.
    fn holds(&self, place: Place) -> bool {
        self.start[usize::from(place.condition)] == (place.side == Side::First)
    }

    /// The places of one side in number order.
    fn side(&self, side: Side) -> impl Iterator<Item = Place> + '_ {
        let numbers = (0..=u16::MAX).take(self.start.len());
        numbers.map(move |condition| Place { side, condition })
    }

    /// The doubled net to be played: place c is the first of condition c, and after all first places come the second ones.
    pub fn plain(&self) -> Plain {
        let conditions = self.start.len();
        let number = |place: &Place| match place.side {
            Side::First => usize::from(place.condition),
            Side::Second => conditions + usize::from(place.condition),
        };
        let transition = |event: DoubledEvent| Transition {
            taken: event.taken.iter().map(number).collect(),
            put: event.put.iter().map(number).collect(),
        };
        let all = self.side(Side::First).chain(self.side(Side::Second));
        Plain {
            tokens: all.map(|place| u64::from(self.holds(place))).collect(),
            transitions: self.events().map(transition).collect(),
        }
    }
}

// ---- the elements

/// A place: in the short form where it holds no token.
fn place_text(id: &str, holds: bool) -> String {
    if holds {
        format!(r#"<place id="{id}"><initialMarking><text>1</text></initialMarking></place>"#)
    } else {
        format!(r#"<place id="{id}"/>"#)
    }
}

/// The transition of an event.
fn transition_text(event: usize) -> String {
    format!(r#"<transition id="t{event}"/>"#)
}

/// An arc by its number, between two ids.
fn arc_text(arc: u64, source: &str, target: &str) -> String {
    format!(r#"<arc id="a{arc}" source="{source}" target="{target}"/>"#)
}

impl DoubledEvent {
    /// How many arcs the event has.
    fn arc_count(&self) -> u64 {
        (self.taken.len() + self.put.len()) as u64
    }

    /// The arcs of this event in their order, those into it first; the first of them has a given number.
    fn arcs(&self, event: usize, first: u64) -> Vec<String> {
        let id = format!("t{event}");
        let into = self.taken.iter().map(|place| (place.id(), id.clone()));
        let out = self.put.iter().map(|place| (id.clone(), place.id()));
        let numbered = (first..).zip(into.chain(out));
        numbered
            .map(|(arc, (source, target))| arc_text(arc, &source, &target))
            .collect()
    }
}

impl Doubled<'_> {
    /// The element of a place.
    fn place_element(&self, place: Place) -> String {
        place_text(&place.id(), self.holds(place))
    }

    /// How many elements there are.
    pub fn element_count(&self) -> u64 {
        let places = 2 * self.start.len() as u64;
        let events = self.unfolding.events.len() as u64;
        let arcs: u64 = self.events().map(|event| event.arc_count()).sum();
        2 + places + events + arcs
    }

    /// All elements in number order, made as they are asked for.
    pub fn elements(&self) -> impl Iterator<Item = String> + '_ {
        let places = self.side(Side::First).chain(self.side(Side::Second));
        let places = places.map(|place| self.place_element(place));
        let transitions = (0..self.unfolding.events.len()).map(transition_text);
        let mut next = 0;
        let arcs = self.events().enumerate().flat_map(move |(number, event)| {
            let first = next;
            next += event.arc_count();
            event.arcs(number, first)
        });
        let opens = std::iter::once(OPENS.to_string());
        let closes = std::iter::once(CLOSES.to_string());
        opens
            .chain(places)
            .chain(transitions)
            .chain(arcs)
            .chain(closes)
    }

    /// The element with this number, if there is one: found by counting, without the text of those before it.
    pub fn element(&self, number: u64) -> Option<String> {
        let Some(mut left) = number.checked_sub(1) else {
            return Some(OPENS.to_string());
        };
        for side in [Side::First, Side::Second] {
            match self.side(side).nth(usize::try_from(left).ok()?) {
                Some(place) => return Some(self.place_element(place)),
                None => left -= self.start.len() as u64,
            }
        }
        let events = self.unfolding.events.len() as u64;
        if left < events {
            return Some(transition_text(left as usize));
        }
        self.arc(left - events)
    }

    /// The arc with this number, or all that closes where it is one past the last arc.
    fn arc(&self, arc: u64) -> Option<String> {
        let mut first = 0;
        for (number, event) in self.events().enumerate() {
            let next = first + event.arc_count();
            if arc < next {
                let place = usize::try_from(arc - first).ok()?;
                return event.arcs(number, first).into_iter().nth(place);
            }
            first = next;
        }
        (arc == first).then(|| CLOSES.to_string())
    }
}
