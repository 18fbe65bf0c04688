//! Elements of the export to ask for: the ends of each group, any between them, and numbers past the last.

use second::export::Doubled;
use second::generator::Random;
use second::table::{table_bytes, Net};
use second::unfolding::{counts, unfold, Counts, Unfolding, MOST_UNFOLDED};
use wire::{Call, Request};

use crate::nets::{any_net, any_table, Asked};

/// An element is found by walking the unfolded events, so exports of more of them are asked for seldom, and mostly near their start.
const WALKED_EVENTS: u128 = 300;

/// Where unfolded conditions times unfolded events are more, all arcs take seconds to walk, so their end is asked for very seldom.
const WALKED_PAIRS: u128 = 50_000_000;

/// The arcs of a large export among which one is asked for.
const NEAR_ARCS: u64 = 3_000;

/// An export is asked for whole where there are at most so many unfolded events and so many unfolded conditions.
const WHOLE: u128 = 60;

/// How long it takes to walk an export.
enum Walk {
    Short,
    Long,
    VeryLong,
}

/// How long it takes to walk a net's export; one that does not unfold is refused at once.
fn walk_of(net: &Net) -> Walk {
    let Counts { conditions, events } = counts(net);
    if conditions.max(events) > MOST_UNFOLDED as u128 || events <= WALKED_EVENTS {
        Walk::Short
    } else if conditions * events <= WALKED_PAIRS {
        Walk::Long
    } else {
        Walk::VeryLong
    }
}

/// A table of any kind for a call on the export, with few that take long.
pub fn any_exported_table(random: &mut Random, call: Call) -> Asked {
    loop {
        let asked = any_table(random, any_net);
        let kept = match walk_of(&asked.net) {
            Walk::Short => 1_000,
            Walk::VeryLong if call == Call::ElementCount => 5,
            _ => 100,
        };
        if random.below(1_000) < kept {
            return asked;
        }
    }
}

/// The numbers at which the groups of elements begin, from what opens to what closes, then the number of elements.
type Groups = [u64; 7];

/// The places of the arcs in the groups, and of the number of elements.
const ARCS: usize = 4;
const COUNT: usize = 6;

/// The groups of an export with so many arcs.
fn groups(unfolding: &Unfolding, arcs: u64) -> Groups {
    let conditions = unfolding.conditions.len() as u64;
    let (second, transitions) = (1 + conditions, 1 + 2 * conditions);
    let first = transitions + unfolding.events.len() as u64;
    let last = first + arcs;
    [0, 1, second, transitions, first, last, last + 1]
}

/// The number of arcs of an export.
fn arc_count(unfolding: &Unfolding) -> u64 {
    let without = groups(unfolding, 0);
    Doubled::of(unfolding).element_count() - without[COUNT]
}

/// A number below a bound, or 0 where the bound is 0.
fn below(random: &mut Random, bound: u64) -> u64 {
    random.draw().checked_rem(bound).unwrap_or(0)
}

/// The number of an element of any group, mostly of an arc; the ends of a group come more often.
fn inner_element(random: &mut Random, groups: &Groups) -> u64 {
    let group = [random.below(COUNT), ARCS][random.below(2)];
    let (first, next) = (groups[group], groups[group + 1]);
    match random.below(4) {
        0 => first,
        1 => next.saturating_sub(1),
        _ => first + below(random, next - first),
    }
}

/// The number of an element, or of none: past the last, near it or far off.
fn any_element(random: &mut Random, groups: &Groups) -> u64 {
    let inside = inner_element(random, groups);
    match random.below(100) {
        0..=79 => inside,
        80..=84 => groups[COUNT] - 1,
        85..=90 => groups[COUNT],
        91..=93 => groups[COUNT] + 1 + below(random, 70_000),
        94..=97 => inside + (1 << random.between(16, 63)),
        98 => u64::MAX - below(random, 2),
        _ => random.draw(),
    }
}

/// A number to ask for, and the bytes of that element's text; some bytes where there is no such element.
fn asked_element(random: &mut Random, net: &Net) -> (u64, usize) {
    let Ok(unfolding) = unfold(net) else {
        return (below(random, 60), 20);
    };
    let whole = match walk_of(net) {
        Walk::Short => 1_000,
        Walk::Long => 300,
        Walk::VeryLong => 20,
    };
    let number = if random.below(1_000) < whole {
        any_element(random, &groups(&unfolding, arc_count(&unfolding)))
    } else {
        inner_element(random, &groups(&unfolding, NEAR_ARCS))
    };
    let text = Doubled::of(&unfolding).element(number);
    (number, text.map_or(20, |text| text.len()))
}

/// Fills in the element that is asked for, and gives the bytes that it needs.
pub fn ask_element(random: &mut Random, request: &mut Request, net: &Net) -> usize {
    let (number, needed) = asked_element(random, net);
    request.numbers[0] = number;
    needed
}

/// A small or middle net that unfolds to little, with its unfolding.
fn whole_net(random: &mut Random) -> (Net, Unfolding) {
    loop {
        let net = any_net(random);
        let found = counts(&net);
        if found.events > WHOLE || found.conditions > WHOLE {
            continue;
        }
        if let Ok(unfolding) = unfold(&net) {
            return (net, unfolding);
        }
    }
}

/// Requests for the count and for every element of an export, each into an output exactly long enough and into one that is one byte
/// short; the last are for the number after the last element.
pub fn whole_export(seed: u64) -> Vec<Request> {
    let mut random = Random::new(seed);
    let (net, unfolding) = whole_net(&mut random);
    let table = table_bytes(&net);
    let mut requests = vec![Request::new(Call::ElementCount, &table)];
    let doubled = Doubled::of(&unfolding);
    let texts = doubled.elements().chain([String::new()]);
    for (number, text) in (0..).zip(texts) {
        for length in [text.len(), text.len().saturating_sub(1)] {
            let mut request = Request::new(Call::Element, &table);
            request.numbers[0] = number;
            request.values[0] = random.draw();
            request.lent = random.bytes(length);
            requests.push(request);
        }
    }
    requests
}
