//! Nets and tables to ask about, beyond those of the second implementation's generator.

use second::generator::{
    any_rule, damaged, endless_net, event_limit_net, large_net, leave_to, limit_net, middle_net,
    put_in, repeating_net, small_net, Random,
};
use second::table::{table_bytes, Event, Net, Rule};

/// A table to ask about, with the net that it says, or said before it was damaged.
pub struct Asked {
    pub bytes: Vec<u8>,
    pub net: Net,
}

/// A number below a bound, as two bytes.
fn word_below(random: &mut Random, bound: usize) -> u16 {
    random.below(bound) as u16
}

/// The numbers below a count in a random order.
fn shuffled(random: &mut Random, count: usize) -> Vec<u16> {
    let mut order: Vec<u16> = (0..=u16::MAX).take(count).collect();
    for last in (1..count).rev() {
        order.swap(last, random.below(last + 1));
    }
    order
}

/// A list in ascending order, each number once.
fn ascending(mut list: Vec<u16>) -> Vec<u16> {
    list.sort_unstable();
    list.dedup();
    list
}

/// A net with long runs that lift: a token goes round a ring of ordinary conditions, its events read persistent conditions, and
/// each of those is marked at the start or by events that occur once.
pub fn ring_net(random: &mut Random) -> Net {
    let ring = random.between(2, 7);
    let persistent = random.between(1, 5);
    let setters = random.between(persistent, 2 * persistent);
    let names = shuffled(random, ring + persistent + setters);
    let (around, rest) = names.split_at(ring);
    let (lasting, once) = rest.split_at(persistent);
    let mut events = Vec::new();
    for (place, from) in around.iter().enumerate() {
        let read = lasting.iter().copied().filter(|_| random.percent(30));
        let taken: Vec<u16> = read.chain([*from]).collect();
        let to = around[(place + 1) % ring];
        events.push((taken, vec![to]));
    }
    for (place, from) in once.iter().enumerate() {
        let mut put = vec![lasting[place % persistent]];
        if random.percent(20) {
            put.push(lasting[random.below(persistent)]);
        }
        events.push((vec![*from], put));
    }
    let order = shuffled(random, events.len());
    let event = |e: &u16| Event {
        preconditions: ascending(events[usize::from(*e)].0.clone()),
        postconditions: ascending(events[usize::from(*e)].1.clone()),
    };
    let held = lasting.iter().copied().filter(|_| random.percent(40));
    let start = held.chain([around[0]]).chain(once.iter().copied());
    Net {
        start: ascending(start.collect()),
        events: order.iter().map(event).collect(),
        persistent: (0..=u16::MAX)
            .take(names.len())
            .map(|b| lasting.contains(&b))
            .collect(),
        rule: None,
    }
}

/// The numbers of the events of a net that put an ordinary condition, or of those that do not.
fn that_put(net: &Net, ordinary: bool) -> Vec<usize> {
    let puts = |e: &usize| {
        let mut put = net.events[*e].postconditions.iter();
        put.any(|b| !net.persistent[usize::from(*b)])
    };
    let events = 0..net.events.len();
    events.filter(|e| puts(e) == ordinary).collect()
}

/// A ring net with long runs of events that mark again and again: some persistent conditions are left to an event of the ring, and
/// some of the events that mark for others put back what they take.
pub fn repeating_ring_net(random: &mut Random) -> Net {
    let mut net = ring_net(random);
    let (ring, setters) = (that_put(&net, true), that_put(&net, false));
    for condition in (0..=u16::MAX).take(net.persistent.len()) {
        let owner = ring[random.below(ring.len())];
        if net.persistent[usize::from(condition)] && random.percent(50) {
            leave_to(random, &mut net, condition, owner);
        }
    }
    for setter in setters.into_iter().filter(|_| random.percent(30)) {
        let Event {
            preconditions,
            postconditions,
        } = &mut net.events[setter];
        *postconditions = ascending([&preconditions[..], postconditions].concat());
    }
    net
}

/// The largest table: 256 conditions, 256 events, and every list as long as it can be.
pub fn full_net(random: &mut Random) -> Net {
    let all: Vec<u16> = (0..256).collect();
    let event = Event {
        preconditions: all.clone(),
        postconditions: all.clone(),
    };
    let mut net = Net {
        persistent: vec![false; 256],
        events: vec![event; 256],
        start: all,
        rule: None,
    };
    if random.percent(50) {
        let (event, place) = (random.below(256), random.below(256));
        net.events[event].preconditions.remove(place);
    }
    net
}

/// The net of 65,535 unfolded events, from a random start.
fn started_limit_net(random: &mut Random) -> Net {
    let mut net = event_limit_net();
    net.start = (0..15).filter(|_| random.percent(50)).collect();
    net
}

/// A small table with a power of colours: an event reads so many persistent conditions, each marked by the same few events; mostly
/// some thousand unfolded events, now and then far over the limit.
fn power_net(random: &mut Random) -> Net {
    let most = if random.percent(80) { 11 } else { 16 };
    let read: Vec<u16> = (0..=u16::MAX).take(random.between(8, most)).collect();
    let setter = Event {
        preconditions: Vec::new(),
        postconditions: read.clone(),
    };
    let reader = Event {
        preconditions: read.clone(),
        postconditions: Vec::new(),
    };
    let mut events = vec![setter; random.between(1, 3)];
    events.insert(random.below(events.len() + 1), reader);
    Net {
        persistent: vec![true; read.len()],
        events,
        start: read.into_iter().filter(|_| random.percent(50)).collect(),
        rule: None,
    }
}

/// A net in which one event marks many persistent conditions, each with many users: its unfolded list is among the longest.
fn broad_net(random: &mut Random) -> Net {
    let (lasting, read) = (random.between(8, 200), random.between(1, 8));
    let reader = |first: usize| Event {
        preconditions: ascending(
            (first..first + read)
                .map(|b| (b % lasting) as u16)
                .collect(),
        ),
        postconditions: Vec::new(),
    };
    let all: Vec<u16> = (0..=u16::MAX).take(lasting).collect();
    let setter = Event {
        preconditions: Vec::new(),
        postconditions: all.clone(),
    };
    let mut events: Vec<Event> = (0..random.between(200, 255)).map(reader).collect();
    events.insert(random.below(2) * events.len(), setter);
    Net {
        persistent: vec![true; lasting],
        events,
        start: all.into_iter().filter(|_| random.percent(20)).collect(),
        rule: None,
    }
}

/// A net with an event that touches nothing once unfolded.
fn idle_net(random: &mut Random) -> Net {
    let mut net = small_net(random);
    let last = net.persistent.len() as u16;
    net.persistent.push(true);
    let place = random.below(net.events.len() + 1);
    let idle = Event {
        preconditions: Vec::new(),
        postconditions: vec![last],
    };
    net.events.insert(place, idle);
    net
}

/// Has an event of a net take and put an ordinary condition, if there are both; now and then it also puts a higher one that it does not
/// take and that holds at the start.
fn take_and_put(random: &mut Random, net: &mut Net) {
    let all = (0..=u16::MAX).zip(&net.persistent);
    let ordinary: Vec<u16> = all.filter(|(_, p)| !**p).map(|(b, _)| b).collect();
    let (event, place) = (random.below(net.events.len()), random.below(ordinary.len()));
    let (Some(event), Some(condition)) = (net.events.get_mut(event), ordinary.get(place)) else {
        return;
    };
    put_in(&mut event.preconditions, *condition);
    put_in(&mut event.postconditions, *condition);
    if let Some(higher) = ordinary.get(place + 1).filter(|_| random.percent(70)) {
        event.preconditions.retain(|b| b != higher);
        put_in(&mut event.postconditions, *higher);
        put_in(&mut net.start, *higher);
    }
}

/// A net with any rule; by the old one, half of the nets get an event that takes and puts an ordinary condition.
fn with_rule(random: &mut Random, mut net: Net) -> Net {
    net.rule = any_rule(random);
    if net.rule == Some(Rule::Old) && random.percent(50) {
        take_and_put(random, &mut net);
    }
    net
}

/// A net of the kind at a place among a thousand, mostly small.
fn net_of_kind(random: &mut Random, place: usize) -> Net {
    match place {
        0..=459 => small_net(random),
        460..=779 => ring_net(random),
        780..=919 => middle_net(random),
        920..=949 => idle_net(random),
        950..=957 => large_net(random),
        958..=961 => full_net(random),
        962..=963 => started_limit_net(random),
        964..=966 => limit_net(random),
        967 => endless_net(),
        968..=969 => broad_net(random),
        _ => power_net(random),
    }
}

/// A net of any kind, mostly small, with any rule.
pub fn any_net(random: &mut Random) -> Net {
    let place = random.below(1000);
    let net = net_of_kind(random, place);
    with_rule(random, net)
}

/// A net of any kind for a call that goes across: in a third of them, events that mark come again and are lifted.
pub fn any_net_across(random: &mut Random) -> Net {
    let net = match random.below(1000) {
        300..=459 => repeating_net(random),
        620..=779 => repeating_ring_net(random),
        place => net_of_kind(random, place),
    };
    with_rule(random, net)
}

/// A sound table with one to three bytes changed, which is mostly refused and now and then another sound table.
fn changed(random: &mut Random, net: &Net) -> Vec<u8> {
    let mut bytes = table_bytes(net);
    for _ in 0..random.between(1, 3) {
        let place = random.below(bytes.len());
        bytes[place] = match random.below(3) {
            0 => random.word() as u8,
            1 => bytes[place].wrapping_add(1),
            _ => bytes[place].wrapping_sub(1),
        };
    }
    bytes
}

/// A table of a net of some kind: sound, damaged in a known way, changed somewhere, or no table at all.
pub fn any_table(random: &mut Random, any_net: fn(&mut Random) -> Net) -> Asked {
    let net = any_net(random);
    let bytes = match random.below(100) {
        0..=11 => damaged(random, &net).bytes,
        12..=14 => changed(random, &net),
        15 => {
            let count = random.below(60);
            random.bytes(count)
        }
        _ => table_bytes(&net),
    };
    Asked { bytes, net }
}

/// A number of something of which there are so many: mostly one that is there, the ends more often, else the next, or one far off.
pub fn any_number(random: &mut Random, count: usize) -> u16 {
    match random.below(100) {
        0..=74 => word_below(random, count),
        75..=79 => 0,
        80..=84 => (count as u16).wrapping_sub(1),
        85..=89 => count as u16,
        90..=91 => (count as u16).wrapping_add(1),
        92..=94 => word_below(random, count).wrapping_add(256 * (1 + word_below(random, 255))),
        95..=96 => u16::MAX,
        _ => random.word(),
    }
}
