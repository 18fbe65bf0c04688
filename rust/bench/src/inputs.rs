//! What is measured: nets with runs, small, typical and as large as they can be.

use second::generator::{condition_limit_net, event_limit_net};
use second::records::MOST_STEPS;
use second::table::{table_bytes, Event, Net};

/// A table with a run that plays and lifts.
pub struct Input {
    pub name: String,
    pub table: Vec<u8>,
    pub run: Vec<u16>,
}

/// An event from two lists in any order.
fn event(preconditions: &[u16], postconditions: &[u16]) -> Event {
    let sorted = |list: &[u16]| {
        let mut list = list.to_vec();
        list.sort_unstable();
        list
    };
    Event {
        preconditions: sorted(preconditions),
        postconditions: sorted(postconditions),
    }
}

/// An input from a net.
fn input(name: &str, net: &Net, run: Vec<u16>) -> Input {
    Input {
        name: name.to_string(),
        table: table_bytes(net),
        run,
    }
}

/// Net A with its run.
pub fn net_a() -> Input {
    let net = Net {
        persistent: vec![false, false, true, false],
        events: vec![
            event(&[0], &[1, 2]),
            event(&[1, 2], &[3]),
            event(&[3], &[1]),
        ],
        start: vec![0],
        rule: None,
    };
    input("net A, 4 steps", &net, vec![0, 1, 2, 1])
}

/// How large a changeover is.
#[derive(Clone, Copy)]
pub struct Size {
    pub ring: u16,
    pub lasting: u16,
    pub read: u16,
    pub steps: usize,
}

/// A changeover: each persistent condition is marked once, then a token goes round a ring whose events read some of them.
pub fn changeover(size: Size) -> Input {
    let Size {
        ring,
        lasting,
        read,
        steps,
    } = size;
    let once = |k: u16| lasting + k;
    let around = |k: u16| 2 * lasting + k % ring;
    let mut events: Vec<Event> = (0..lasting).map(|k| event(&[once(k)], &[k])).collect();
    for k in 0..ring {
        let mut taken: Vec<u16> = (0..read).map(|n| (k + n) % lasting).collect();
        taken.push(around(k));
        events.push(event(&taken, &[around(k + 1)]));
    }
    let net = Net {
        persistent: (0..2 * lasting + ring).map(|b| b < lasting).collect(),
        events,
        start: (lasting..2 * lasting).chain([around(0)]).collect(),
        rule: None,
    };
    let going = (0..ring).cycle().map(|k| lasting + k);
    let run = (0..lasting).chain(going).take(steps).collect();
    let conditions = net.persistent.len();
    let events = net.events.len();
    let name = format!("{conditions} conditions, {events} events, {steps} steps");
    input(&name, &net, run)
}

/// A changeover of a common size: some 30 conditions, 18 events, over a thousand unfolded events.
pub fn typical(steps: usize) -> Input {
    changeover(Size {
        ring: 8,
        lasting: 10,
        read: 7,
        steps,
    })
}

/// As many conditions as a table can have, 240 events and a run of 4,096 steps.
pub fn wide() -> Input {
    changeover(Size {
        ring: 224,
        lasting: 16,
        read: 2,
        steps: MOST_STEPS,
    })
}

/// So many events with all 256 conditions in both lists, which all hold: 256 of them make the largest table.
pub fn full(events: usize, steps: usize) -> Input {
    let all: Vec<u16> = (0..256).collect();
    let net = Net {
        persistent: vec![false; 256],
        events: vec![event(&all, &all); events],
        start: all,
        rule: None,
    };
    let going = (0..=u16::MAX).take(events).cycle();
    let name = format!("256 conditions, {events} events of full lists, {steps} steps");
    input(&name, &net, going.take(steps).collect())
}

/// The table of 65,535 unfolded events, with a run of 4,096 steps.
pub fn most_events() -> Input {
    let going = (15..27).cycle();
    let run = (0..15).chain(going).take(MOST_STEPS).collect();
    input(
        "65,535 unfolded events, 4,096 steps",
        &event_limit_net(),
        run,
    )
}

/// The table of 65,535 unfolded conditions; its events mark a persistent condition, so each comes once.
pub fn most_conditions() -> Input {
    let mut net = condition_limit_net();
    net.start = vec![0, 1];
    input(
        "65,535 unfolded conditions, 255 steps",
        &net,
        (0..255).collect(),
    )
}

/// An event that marks 255 persistent conditions, of which each of 255 others reads eight: its unfolded list is as long as any.
pub fn longest_list() -> Input {
    let all: Vec<u16> = (0..255).collect();
    let mut events = vec![event(&[], &all)];
    events.extend((0..255).map(|first| {
        let read: Vec<u16> = (first..first + 8).map(|b| b % 255).collect();
        event(&read, &[])
    }));
    let net = Net {
        persistent: vec![true; 255],
        events,
        start: Vec::new(),
        rule: None,
    };
    input("65,281 unfolded events, a list of 2,040", &net, vec![0])
}
