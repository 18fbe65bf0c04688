//! The unfolding: all unfolded conditions and events as lists in number order (01, Unfolding; 02, No. 4; the paper, section 6.1).

use crate::game::Game;
use crate::refusal::{refuse, require, Answer};
use crate::table::{Event, Net, Rule};

/// The most unfolded conditions, and the most unfolded events.
pub const MOST_UNFOLDED: usize = 65_535;

/// What marked a persistent condition: the start, or an event by its number.
#[derive(Clone, Copy, Debug, PartialEq, Eq, PartialOrd, Ord)]
pub enum Marker {
    Start,
    ByEvent(u16),
}

/// The copy of a persistent condition for a marker and a user.
#[derive(Clone, Copy, Debug, PartialEq, Eq, PartialOrd, Ord)]
pub struct CopyFor {
    pub marker: Marker,
    pub user: u16,
}

/// An unfolded condition: an ordinary condition, which has no copies, or one copy of a persistent condition.
#[derive(Clone, Copy, Debug, PartialEq, Eq, PartialOrd, Ord)]
pub struct UnfoldedCondition {
    pub condition: u16,
    pub copy: Option<CopyFor>,
}

/// An unfolded event: an event and its colour, one marker for each persistent precondition.
#[derive(Clone, Debug, PartialEq, Eq, PartialOrd, Ord)]
pub struct UnfoldedEvent {
    pub event: u16,
    pub markers: Vec<Marker>,
}

/// The number of unfolded conditions and of unfolded events.
#[derive(Clone, Copy, Debug, PartialEq, Eq)]
pub struct Counts {
    pub conditions: u128,
    pub events: u128,
}

/// A condition is persistent.
fn is_persistent(net: &Net, condition: u16) -> bool {
    net.persistent[usize::from(condition)]
}

/// The numbers from 0 up to a count of conditions or events of a table, which is at most 256.
fn numbers(count: usize) -> impl Iterator<Item = u16> {
    (0..=u16::MAX).take(count)
}

/// The markers of a persistent condition: the start, then every event that has it as postcondition, ascending.
pub fn markers(net: &Net, condition: u16) -> Vec<Marker> {
    let marks = |e: &u16| {
        net.events[usize::from(*e)]
            .postconditions
            .contains(&condition)
    };
    let events = numbers(net.events.len()).filter(marks);
    let mut markers = vec![Marker::Start];
    markers.extend(events.map(Marker::ByEvent));
    markers
}

/// The users of a persistent condition: the events that have it as precondition, ascending.
pub fn users(net: &Net, condition: u16) -> Vec<u16> {
    let reads = |e: &u16| {
        net.events[usize::from(*e)]
            .preconditions
            .contains(&condition)
    };
    numbers(net.events.len()).filter(reads).collect()
}

/// The persistent preconditions of an event, ascending.
pub fn persistent_preconditions(net: &Net, event: &Event) -> Vec<u16> {
    let persistent = |b: &u16| is_persistent(net, *b);
    event
        .preconditions
        .iter()
        .copied()
        .filter(persistent)
        .collect()
}

/// The number of colours of an event; a product past 128 bits stays at the largest such number, far over every limit.
pub fn colour_count(net: &Net, event: &Event) -> u128 {
    persistent_preconditions(net, event)
        .iter()
        .map(|b| markers(net, *b).len() as u128)
        .fold(1, u128::saturating_mul)
}

/// All colours of an event in their order: the lowest persistent precondition's choice counts slowest.
pub fn colours(net: &Net, event: &Event) -> Vec<Vec<Marker>> {
    let mut colours = vec![Vec::new()];
    for b in persistent_preconditions(net, event) {
        let choices = markers(net, b);
        let mut longer = Vec::with_capacity(colours.len() * choices.len());
        for colour in &colours {
            for choice in &choices {
                longer.push([&colour[..], &[*choice]].concat());
            }
        }
        colours = longer;
    }
    colours
}

/// The copies of one condition of the table, in their order.
fn copies(net: &Net, condition: u16) -> Vec<UnfoldedCondition> {
    if !is_persistent(net, condition) {
        return vec![UnfoldedCondition {
            condition,
            copy: None,
        }];
    }
    let users = users(net, condition);
    let mut copies = Vec::new();
    for marker in markers(net, condition) {
        for user in &users {
            copies.push(UnfoldedCondition {
                condition,
                copy: Some(CopyFor {
                    marker,
                    user: *user,
                }),
            });
        }
    }
    copies
}

/// The counts by sums and products, without any list of what is counted.
pub fn counts(net: &Net) -> Counts {
    let pairs = |b: u16| {
        if is_persistent(net, b) {
            (markers(net, b).len() * users(net, b).len()) as u128
        } else {
            1
        }
    };
    Counts {
        conditions: numbers(net.persistent.len()).map(pairs).sum(),
        events: net
            .events
            .iter()
            .map(|event| colour_count(net, event))
            .fold(0, u128::saturating_add),
    }
}

/// An event touches nothing once unfolded: it takes nothing and puts only persistent conditions without a user.
fn touches_nothing(net: &Net, event: &Event) -> bool {
    let unused = |b: &u16| is_persistent(net, *b) && users(net, *b).is_empty();
    event.preconditions.is_empty() && event.postconditions.iter().all(unused)
}

/// Refuses a net that does not unfold: 13, then 14.
pub fn judge_unfolding(net: &Net) -> Answer<()> {
    let idle = net
        .events
        .iter()
        .position(|event| touches_nothing(net, event));
    if let Some(event) = idle {
        return refuse(13, event);
    }
    let counts = counts(net);
    let most = MOST_UNFOLDED as u128;
    require(counts.conditions <= most && counts.events <= most, 14, 0)
}

/// The unfolding of a net: all unfolded conditions and events, each at its number.
pub struct Unfolding {
    net: Net,
    pub conditions: Vec<UnfoldedCondition>,
    pub events: Vec<UnfoldedEvent>,
    none_persistent: Vec<bool>,
}

/// The unfolding of a net, or 13 or 14.
pub fn unfold(net: &Net) -> Answer<Unfolding> {
    judge_unfolding(net)?;
    Ok(Unfolding::of(net))
}

/// The place of an element in an ascending list, which is its number.
fn place_in<T: Ord>(list: &[T], element: &T) -> Option<u16> {
    let place = list.binary_search(element).ok()?;
    u16::try_from(place).ok()
}

impl Unfolding {
    /// The lists of all unfolded conditions and events, for a net within the limits.
    pub fn of(net: &Net) -> Unfolding {
        let conditions: Vec<_> = numbers(net.persistent.len())
            .flat_map(|b| copies(net, b))
            .collect();
        let mut events = Vec::new();
        for event in numbers(net.events.len()) {
            for markers in colours(net, &net.events[usize::from(event)]) {
                events.push(UnfoldedEvent { event, markers });
            }
        }
        Unfolding {
            net: net.clone(),
            none_persistent: vec![false; conditions.len()],
            conditions,
            events,
        }
    }

    /// The number of an unfolded condition, if there is such a one.
    pub fn condition_number(&self, condition: &UnfoldedCondition) -> Option<u16> {
        place_in(&self.conditions, condition)
    }

    /// The number of an unfolded event, if there is such a one.
    pub fn event_number(&self, event: &UnfoldedEvent) -> Option<u16> {
        place_in(&self.events, event)
    }

    /// The numbers of unfolded conditions, ascending and each once.
    fn list_of(&self, conditions: &[UnfoldedCondition]) -> Vec<u16> {
        let number = |c: &UnfoldedCondition| self.condition_number(c);
        let mut list: Vec<u16> = conditions.iter().filter_map(number).collect();
        list.sort_unstable();
        list.dedup();
        list
    }

    /// The ordinary conditions of a list, as unfolded conditions.
    fn ordinary(&self, list: &[u16]) -> Vec<UnfoldedCondition> {
        let ordinary = list.iter().filter(|b| !is_persistent(&self.net, **b));
        ordinary
            .map(|b| UnfoldedCondition {
                condition: *b,
                copy: None,
            })
            .collect()
    }

    /// The copies of the list's persistent conditions that one marker marks, for every user.
    fn marked(&self, list: &[u16], marker: Marker) -> Vec<UnfoldedCondition> {
        let persistent = list.iter().filter(|b| is_persistent(&self.net, **b));
        let for_users = |b: &u16| {
            let condition = *b;
            let copy = move |user| UnfoldedCondition {
                condition,
                copy: Some(CopyFor { marker, user }),
            };
            users(&self.net, condition).into_iter().map(copy)
        };
        persistent.flat_map(for_users).collect()
    }

    /// The copies that an unfolded event reads: for each persistent precondition the one of the chosen marker.
    fn read(&self, unfolded: &UnfoldedEvent) -> Vec<UnfoldedCondition> {
        let event = &self.net.events[usize::from(unfolded.event)];
        let chosen = persistent_preconditions(&self.net, event);
        let copy = |(b, marker): (u16, &Marker)| UnfoldedCondition {
            condition: b,
            copy: Some(CopyFor {
                marker: *marker,
                user: unfolded.event,
            }),
        };
        chosen
            .into_iter()
            .zip(&unfolded.markers)
            .map(copy)
            .collect()
    }

    /// The two lists of an unfolded event.
    fn lists(&self, unfolded: &UnfoldedEvent) -> Event {
        let event = &self.net.events[usize::from(unfolded.event)];
        let read = self.read(unfolded);
        let mut taken = self.ordinary(&event.preconditions);
        taken.extend(&read);
        let mut put = self.ordinary(&event.postconditions);
        put.extend(&read);
        put.extend(self.marked(&event.postconditions, Marker::ByEvent(unfolded.event)));
        Event {
            preconditions: self.list_of(&taken),
            postconditions: self.list_of(&put),
        }
    }
}

impl Game for Unfolding {
    fn persistent(&self) -> &[bool] {
        &self.none_persistent
    }

    /// What stands for an ordinary condition follows the table's rule, and a copy of a persistent one keeps the paper's.
    fn rule_of(&self, condition: u16) -> Rule {
        match self.conditions[usize::from(condition)].copy {
            None => self.net.rule(),
            Some(_) => Rule::Paper,
        }
    }

    fn event(&self, number: u16) -> Option<Event> {
        let unfolded = self.events.get(usize::from(number))?;
        Some(self.lists(unfolded))
    }

    fn start(&self) -> Vec<bool> {
        let mut held = self.ordinary(&self.net.start);
        held.extend(self.marked(&self.net.start, Marker::Start));
        let mut marking = vec![false; self.conditions.len()];
        for number in self.list_of(&held) {
            marking[usize::from(number)] = true;
        }
        marking
    }
}
