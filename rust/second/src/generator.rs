//! A seeded generator of tables, damaged tables, runs and markings, for tests and comparison.

use crate::game::{fire, Game};
use crate::records::{record_bytes, word_bytes, CONDITIONS, EVENT, HEADER, MARKING, RULE};
use crate::refusal::Refusal;
use crate::table::{event_bytes, table_records, Event, Net, Rule, MOST_EVENTS, MOST_PERSISTENT};
use crate::unfolding::{counts, unfold, Unfolding};

/// The number that the environment gives under a name, if it gives one.
fn given(name: &str) -> Option<u64> {
    std::env::var(name).ok()?.parse().ok()
}

/// How many cases a test tries: as many as the environment gives as CASES, else a number of its own.
pub fn cases_given(otherwise: u64) -> u64 {
    given("CASES").unwrap_or(otherwise)
}

/// A small generator of random numbers (SplitMix64); equal seeds give equal numbers.
#[derive(Clone)]
pub struct Random {
    state: u64,
}

impl Random {
    /// The generator from a seed.
    pub fn new(seed: u64) -> Random {
        Random { state: seed }
    }

    /// The generator of a test's cases: from the seed that the environment gives as SEED, else from a fixed one, which is printed so
    /// that a failing test can be run again.
    pub fn given() -> Random {
        let seed = given("SEED").unwrap_or(2026);
        println!("SEED={seed}");
        Random::new(seed)
    }

    /// The next number of 64 bits.
    pub fn draw(&mut self) -> u64 {
        self.state = self.state.wrapping_add(0x9e37_79b9_7f4a_7c15);
        let mut mixed = self.state;
        mixed = (mixed ^ (mixed >> 30)).wrapping_mul(0xbf58_476d_1ce4_e5b9);
        mixed = (mixed ^ (mixed >> 27)).wrapping_mul(0x94d0_49bb_1331_11eb);
        mixed ^ (mixed >> 31)
    }

    /// A number below the bound, or 0 where the bound is 0.
    pub fn below(&mut self, bound: usize) -> usize {
        match bound {
            0 => 0,
            _ => (self.draw() % bound as u64) as usize,
        }
    }

    /// A number from the first to the last.
    pub fn between(&mut self, first: usize, last: usize) -> usize {
        first + self.below(last + 1 - first)
    }

    /// True in so many of a hundred cases.
    pub fn percent(&mut self, cases: usize) -> bool {
        self.below(100) < cases
    }

    /// A number of two bytes.
    pub fn word(&mut self) -> u16 {
        self.draw() as u16
    }

    /// So many random bytes.
    pub fn bytes(&mut self, count: usize) -> Vec<u8> {
        (0..count).map(|_| self.draw() as u8).collect()
    }

    /// A number below a bound of at most 65,536, as two bytes.
    fn word_below(&mut self, bound: usize) -> u16 {
        self.below(bound) as u16
    }
}

// ---- nets

/// What random nets look like: numbers of conditions and events, and how often things occur, in a hundred.
struct Shape {
    conditions: (usize, usize),
    events: (usize, usize),
    persistent: usize,
    read: usize,
    put: usize,
    held: usize,
}

/// An ascending list of conditions, each taken in so many of a hundred cases.
fn list(random: &mut Random, conditions: usize, cases: usize) -> Vec<u16> {
    (0..=u16::MAX)
        .take(conditions)
        .filter(|_| random.percent(cases))
        .collect()
}

/// Drops persistent preconditions past the sixteenth.
fn within_limit(persistent: &[bool], preconditions: Vec<u16>) -> Vec<u16> {
    let mut seen = 0;
    let mut keep = |b: &u16| {
        seen += usize::from(persistent[usize::from(*b)]);
        !persistent[usize::from(*b)] || seen <= MOST_PERSISTENT
    };
    preconditions.into_iter().filter(|b| keep(b)).collect()
}

/// An event that touches something.
fn event(random: &mut Random, persistent: &[bool], shape: &Shape) -> Event {
    let taken = list(random, persistent.len(), shape.read);
    let mut event = Event {
        preconditions: within_limit(persistent, taken),
        postconditions: list(random, persistent.len(), shape.put),
    };
    if event.preconditions.is_empty() && event.postconditions.is_empty() {
        let b = random.word_below(persistent.len());
        match random.below(2) {
            0 => event.preconditions.push(b),
            _ => event.postconditions.push(b),
        }
    }
    event
}

/// What a table says of its rule: mostly nothing, else either rule.
pub fn any_rule(random: &mut Random) -> Option<Rule> {
    match random.below(100) {
        0..=14 => Some(Rule::Paper),
        15..=39 => Some(Rule::Old),
        _ => None,
    }
}

/// A net of a shape, sound in every list, with any rule.
fn shaped_net(random: &mut Random, shape: &Shape) -> Net {
    let conditions = random.between(shape.conditions.0, shape.conditions.1);
    let persistent: Vec<bool> = (0..conditions)
        .map(|_| random.percent(shape.persistent))
        .collect();
    let events = random.between(shape.events.0, shape.events.1);
    let events = (0..events)
        .map(|_| event(random, &persistent, shape))
        .collect();
    Net {
        start: list(random, conditions, shape.held),
        rule: any_rule(random),
        persistent,
        events,
    }
}

/// A net of 1 to 6 conditions and 0 to 5 events.
pub fn small_net(random: &mut Random) -> Net {
    let shape = Shape {
        conditions: (1, 6),
        events: (0, 5),
        persistent: [20, 40, 60][random.below(3)],
        read: [15, 25, 35][random.below(3)],
        put: [15, 25, 35][random.below(3)],
        held: [30, 50, 70][random.below(3)],
    };
    shaped_net(random, &shape)
}

/// Puts a condition into an ascending list, if it is not there.
pub fn put_in(list: &mut Vec<u16>, condition: u16) {
    if let Err(place) = list.binary_search(&condition) {
        list.insert(place, condition);
    }
}

/// Leaves a condition to one event, which marks it: no other event uses it, and that event does so in two of three cases; one that would
/// touch nothing without it marks it too.
pub fn leave_to(random: &mut Random, net: &mut Net, condition: u16, owner: usize) {
    let uses = random.below(3) < 2;
    for (number, event) in net.events.iter_mut().enumerate() {
        event.preconditions.retain(|b| *b != condition);
        let touches = !event.preconditions.is_empty() || !event.postconditions.is_empty();
        if number == owner || !touches {
            put_in(&mut event.postconditions, condition);
        }
    }
    if uses {
        put_in(&mut net.events[owner].preconditions, condition);
    }
}

/// A small net with few ordinary conditions, in which half of the persistent ones are left to one event, so that many events that mark
/// come again and are lifted.
pub fn repeating_net(random: &mut Random) -> Net {
    let shape = Shape {
        conditions: (2, 6),
        events: (2, 4),
        persistent: 75,
        read: [25, 35][random.below(2)],
        put: [20, 35][random.below(2)],
        held: [40, 80][random.below(2)],
    };
    let mut net = shaped_net(random, &shape);
    for condition in (0..=u16::MAX).take(net.persistent.len()) {
        let owner = random.below(net.events.len());
        if net.persistent[usize::from(condition)] && random.percent(50) {
            leave_to(random, &mut net, condition, owner);
        }
    }
    net
}

/// The most unfolded events of a small unfolding, so that all that it reaches can be looked at.
const MOST_SMALL: u128 = 300;

/// A net that unfolds, with its unfolding, which is small too.
fn unfolding_of(random: &mut Random, any: fn(&mut Random) -> Net) -> (Net, Unfolding) {
    loop {
        let net = any(random);
        if counts(&net).events > MOST_SMALL {
            continue;
        }
        if let Ok(unfolding) = unfold(&net) {
            return (net, unfolding);
        }
    }
}

/// A small net that unfolds, with its unfolding, which is small too.
pub fn small_unfolding(random: &mut Random) -> (Net, Unfolding) {
    unfolding_of(random, small_net)
}

/// A small net with many repeats that are lifted, with its unfolding, which is small too.
pub fn repeating_unfolding(random: &mut Random) -> (Net, Unfolding) {
    unfolding_of(random, repeating_net)
}

/// A net of some conditions and events, most of which unfold to at most some thousand.
pub fn middle_net(random: &mut Random) -> Net {
    let shape = Shape {
        conditions: (6, 30),
        events: (4, 30),
        persistent: 25,
        read: 8,
        put: 8,
        held: 60,
    };
    shaped_net(random, &shape)
}

/// A net with as many conditions and events as a table may have, and short or long lists.
pub fn large_net(random: &mut Random) -> Net {
    let long = random.percent(50);
    let shape = Shape {
        conditions: (256, 256),
        events: (256, 256),
        persistent: if long { 0 } else { 3 },
        read: if long { 40 } else { 2 },
        put: if long { 40 } else { 1 },
        held: 50,
    };
    shaped_net(random, &shape)
}

/// An event from slices.
fn event_of(preconditions: &[u16], postconditions: &[u16]) -> Event {
    Event {
        preconditions: preconditions.to_vec(),
        postconditions: postconditions.to_vec(),
    }
}

/// The net at the limit of unfolded events: 65,535 of them (01, Limits).
pub fn event_limit_net() -> Net {
    let conditions: Vec<u16> = (0..15).collect();
    let marking = conditions.iter().map(|k| event_of(&[], &[*k]));
    let reading = (4..=15)
        .rev()
        .map(|count| event_of(&conditions[..count], &[]));
    Net {
        persistent: vec![true; 15],
        events: marking.chain(reading).collect(),
        ..Net::default()
    }
}

/// The net at the limit of unfolded conditions: 65,535 of them.
pub fn condition_limit_net() -> Net {
    Net {
        persistent: vec![true; 2],
        events: vec![event_of(&[0, 1], &[0]); 255],
        ..Net::default()
    }
}

/// A net at or near a limit of the unfolding, below or above it.
pub fn limit_net(random: &mut Random) -> Net {
    let mut net = match random.below(2) {
        0 => event_limit_net(),
        _ => condition_limit_net(),
    };
    if random.percent(50) {
        let dropped = random.below(net.events.len());
        net.events.remove(dropped);
    }
    for _ in 0..random.below(3) {
        net.persistent.push(false);
    }
    if random.percent(50) && net.persistent.last() == Some(&false) {
        let last = (net.persistent.len() - 1) as u16;
        net.events.push(event_of(&[], &[last]));
    }
    net.start = list(random, net.persistent.len(), 50);
    net.rule = any_rule(random);
    net
}

/// A net whose products of colours pass every machine number.
pub fn endless_net() -> Net {
    let all: Vec<u16> = (0..16).collect();
    Net {
        persistent: vec![true; 16],
        events: vec![event_of(&all, &all); 256],
        start: all,
        rule: None,
    }
}

/// A net of any of these kinds, mostly small.
pub fn any_net(random: &mut Random) -> Net {
    match random.below(100) {
        0..=79 => small_net(random),
        80..=94 => middle_net(random),
        95..=96 => large_net(random),
        97..=98 => limit_net(random),
        _ => endless_net(),
    }
}

// ---- damaged tables

/// A table that must be refused, with the refusal that must come.
pub struct Damaged {
    pub bytes: Vec<u8>,
    pub refusal: Refusal,
}

/// Records of which the one at an index is bad, with the number of its refusal.
struct Broken {
    records: Vec<Vec<u8>>,
    at: usize,
    number: u8,
}

/// The offset of the record at an index.
fn offset_of(records: &[Vec<u8>], at: usize) -> usize {
    records.iter().take(at).map(Vec::len).sum()
}

/// The bytes of a broken table, what follows the bad record being left as it is or made random.
fn finished(random: &mut Random, broken: Broken) -> Damaged {
    let place = offset_of(&broken.records, broken.at);
    let mut bytes = broken.records.concat();
    if random.percent(30) {
        bytes.truncate(place + broken.records[broken.at].len());
        let count = random.below(20);
        bytes.extend(random.bytes(count));
    }
    Damaged {
        bytes,
        refusal: Refusal::at(broken.number, place),
    }
}

/// The table cut somewhere: 1 at the record in which it ends, or at the record that was due.
fn cut(random: &mut Random, net: &Net) -> Damaged {
    let records = table_records(net);
    let mut bytes = records.concat();
    let boundaries = (0..records.len()).map(|at| offset_of(&records, at));
    let boundaries: Vec<usize> = boundaries.collect();
    let length = match random.below(3) {
        0 => boundaries[random.below(boundaries.len())],
        _ => random.below(bytes.len()),
    };
    bytes.truncate(length);
    let place = boundaries.into_iter().filter(|o| *o <= length).max();
    Damaged {
        bytes,
        refusal: Refusal::at(1, place.unwrap_or(0)),
    }
}

/// The table with bytes after its last record, which may look like a record: 9.
fn trailing(random: &mut Random, net: &Net) -> Damaged {
    let mut bytes = table_records(net).concat();
    let place = bytes.len();
    match random.below(3) {
        0 => bytes.extend(record_bytes(MARKING, &[])),
        1 => bytes.extend(record_bytes(RULE, &[1])),
        _ => {
            let count = random.between(1, 9);
            bytes.extend(random.bytes(count));
        }
    }
    Damaged {
        bytes,
        refusal: Refusal::at(9, place),
    }
}

/// The place of the Conditions record among the records of a net's table: the first, or the one after the Rule record.
fn conditions_at(net: &Net) -> usize {
    usize::from(net.rule.is_some())
}

/// A record of a kind that is not allowed where it stands: 2.
fn wrong_kind(random: &mut Random, net: &Net) -> Broken {
    let mut records = table_records(net);
    let at = random.below(records.len());
    let kind: u16 = match at {
        0 => [0, 2, 3, 4, 257, 262, 65_535][random.below(7)],
        _ if at == conditions_at(net) => [0, 2, 3, 5, 6, 257, 262][random.below(7)],
        _ => [0, 1, 4, 5, 6, 258, 515][random.below(7)],
    };
    records[at][2..HEADER].copy_from_slice(&kind.to_le_bytes());
    Broken {
        records,
        at,
        number: 2,
    }
}

/// The payload of an Event record whose length is not what its counts ask.
fn wrong_event_payload(random: &mut Random) -> Vec<u8> {
    match random.below(5) {
        0 => {
            let count = random.below(4);
            random.bytes(count)
        }
        1 => word_bytes(&[32_768, 0]),
        2 => word_bytes(&[1, 0]),
        3 => word_bytes(&[0, 1, 0, 0]),
        _ => [word_bytes(&[1, 0, 0]), vec![0]].concat(),
    }
}

/// A record whose payload length breaks the rule of its kind: 3.
fn wrong_length(random: &mut Random, net: &Net) -> Broken {
    let mut records = table_records(net);
    let at = random.below(records.len());
    let last = records.len() - 1;
    records[at] = if at < conditions_at(net) {
        let length = [0, 2, 3, 257][random.below(4)];
        record_bytes(RULE, &random.bytes(length))
    } else if at == conditions_at(net) {
        let length = [0, 257, 258, 1000][random.below(4)];
        record_bytes(CONDITIONS, &vec![0; length])
    } else if at == last {
        record_bytes(MARKING, &vec![0; 2 * random.below(5) + 1])
    } else {
        record_bytes(EVENT, &wrong_event_payload(random))
    };
    Broken {
        records,
        at,
        number: 3,
    }
}

/// A byte of a condition or of the rule that is above 1: 4.
fn wrong_byte(random: &mut Random, net: &Net) -> Broken {
    let mut records = table_records(net);
    let at = random.below(conditions_at(net) + 1);
    let place = HEADER + random.below(records[at].len() - HEADER);
    records[at][place] = [2, 3, 128, 255][random.below(4)];
    Broken {
        records,
        at,
        number: 4,
    }
}

/// A Rule record where none may stand: after another one, or after the conditions: 2.
fn misplaced_rule(random: &mut Random, net: &Net) -> Broken {
    let mut records = table_records(net);
    let first = conditions_at(net).max(1);
    let at = random.between(first, records.len() - 1);
    let rule = [[0], [1], [2]][random.below(3)];
    records.insert(at, record_bytes(RULE, &rule[..random.between(0, 1)]));
    Broken {
        records,
        at,
        number: 2,
    }
}

/// The conditions made a Rule record, in a table that has none: 3, or where there is one condition, 2 at what follows, since there the
/// conditions are due.
fn conditions_as_rule(net: &Net) -> Broken {
    let bare = Net {
        rule: None,
        ..net.clone()
    };
    let mut records = table_records(&bare);
    records[0][2..HEADER].copy_from_slice(&RULE.to_le_bytes());
    let (at, number) = match net.persistent.len() {
        1 => (1, 2),
        _ => (0, 3),
    };
    Broken {
        records,
        at,
        number,
    }
}

/// The table of a net that states a rule, cut within its Rule record or right after it: 1 at 0, or where the conditions are due.
fn cut_rule(random: &mut Random, net: &Net) -> Damaged {
    let mut bytes = table_records(net).concat();
    let length = random.between(0, HEADER + 1);
    bytes.truncate(length);
    let place = if length > HEADER { length } else { 0 };
    Damaged {
        bytes,
        refusal: Refusal::at(1, place),
    }
}

/// The table of a net with a Rule record that is broken in one of the ways that there are.
fn damaged_rule(random: &mut Random, net: &Net) -> Damaged {
    let rule = [Rule::Paper, Rule::Old][random.below(2)];
    let ruled = Net {
        rule: Some(rule),
        ..net.clone()
    };
    let mut records = table_records(&ruled);
    let (payload, number): (&[u8], u8) = match random.below(5) {
        0 => return cut_rule(random, &ruled),
        1 => {
            let broken = misplaced_rule(random, &ruled);
            return finished(random, broken);
        }
        2 => (&[], 3),
        3 => (&[[0, 0], [1, 0], [2, 2]][random.below(3)], 3),
        _ => (&[[2], [3], [255]][random.below(3)], 4),
    };
    records[0] = record_bytes(RULE, payload);
    let broken = Broken {
        records,
        at: 0,
        number,
    };
    finished(random, broken)
}

/// A list that repeats, descends or names no condition.
fn wrong_list(random: &mut Random, sound: &[u16], conditions: usize) -> Vec<u16> {
    let mut list = sound.to_vec();
    match (random.below(3), list.len()) {
        (0, 1..) => {
            let place = random.below(list.len());
            list.insert(place, list[place]);
        }
        (1, 2..) => {
            let place = random.below(list.len() - 1);
            list.swap(place, place + 1);
        }
        _ => {
            let beyond = random.between(conditions, 65_535);
            list.push(if random.percent(50) {
                conditions
            } else {
                beyond
            } as u16);
        }
    }
    list
}

/// A list of an event or of the Marking that is not sound: 5.
fn unsound_list(random: &mut Random, net: &Net) -> Broken {
    let conditions = net.persistent.len();
    let mut bad = net.clone();
    let at = random.below(net.events.len() + 1);
    match (bad.events.get_mut(at), random.below(2)) {
        (None, _) => bad.start = wrong_list(random, &net.start, conditions),
        (Some(event), 0) => {
            event.preconditions = wrong_list(random, &event.preconditions, conditions);
        }
        (Some(event), _) => {
            event.postconditions = wrong_list(random, &event.postconditions, conditions);
        }
    }
    Broken {
        records: table_records(&bad),
        at: conditions_at(net) + 1 + at,
        number: 5,
    }
}

/// A 257th event, sound or broken: 6.
fn one_event_more(random: &mut Random, net: &Net) -> Broken {
    let mut full = net.clone();
    full.events.resize(MOST_EVENTS, event_of(&[0], &[]));
    let mut records = table_records(&full);
    let at = records.len() - 1;
    let record = match random.below(3) {
        0 => event_bytes(&event_of(&[0], &[])),
        1 => event_bytes(&event_of(&[], &[])),
        _ => record_bytes(EVENT, &wrong_event_payload(random)),
    };
    records.insert(at, record);
    Broken {
        records,
        at,
        number: 6,
    }
}

/// The net's records with one event's record put in, or in place of another where the table is full.
fn with_event(random: &mut Random, net: &Net, record: Vec<u8>, number: u8) -> Broken {
    let mut records = table_records(net);
    let at = conditions_at(net) + 1 + random.below(net.events.len());
    if net.events.len() == MOST_EVENTS {
        records.remove(at);
    }
    records.insert(at, record);
    Broken {
        records,
        at,
        number,
    }
}

/// An event with both lists empty: 7.
fn empty_event(random: &mut Random, net: &Net) -> Broken {
    with_event(random, net, event_bytes(&event_of(&[], &[])), 7)
}

/// An event with 17 persistent preconditions or more, for a net with room for 17 further conditions: 8.
fn crowded_event(random: &mut Random, net: &Net) -> Broken {
    let mut wide = net.clone();
    let count = random.between(17, 40);
    if wide.persistent.len() < count {
        wide.persistent.resize(count, false);
    }
    let mut read = Vec::new();
    for b in 0..count {
        let free = wide
            .events
            .iter()
            .all(|e| !e.preconditions.contains(&(b as u16)));
        wide.persistent[b] |= free;
        if wide.persistent[b] {
            read.push(b as u16);
        }
    }
    while read.len() < 17 {
        read.push(wide.persistent.len() as u16);
        wide.persistent.push(true);
    }
    with_event(random, &wide, event_bytes(&event_of(&read, &[])), 8)
}

/// A net damaged in one known way, of every way there is.
pub fn damaged(random: &mut Random, net: &Net) -> Damaged {
    let broken = match random.below(13) {
        0 => return cut(random, net),
        1 => return trailing(random, net),
        2 => return damaged_rule(random, net),
        3 => misplaced_rule(random, net),
        4 => conditions_as_rule(net),
        5 => wrong_kind(random, net),
        6 => wrong_length(random, net),
        7 => wrong_byte(random, net),
        8 | 9 => unsound_list(random, net),
        10 => one_event_more(random, net),
        11 if net.persistent.len() <= 256 - 17 => crowded_event(random, net),
        _ => empty_event(random, net),
    };
    finished(random, broken)
}

// ---- runs and markings

/// How a random walk goes: its steps, how often a step is arbitrary, in a hundred, and whether repeats that do not lift are avoided.
pub struct Walk {
    pub steps: usize,
    pub arbitrary: usize,
    pub avoid_repeats: bool,
}

/// An event that fires at the marking, looked for from a random number on.
fn firing_event<G: Game>(
    random: &mut Random,
    game: &G,
    events: usize,
    marking: &[bool],
    barred: &[bool],
) -> Option<u16> {
    let first = random.below(events);
    let tries = (first..events).chain(0..first).take(600);
    let fires = |e: &usize| !barred[*e] && fire(game, marking, *e as u16).is_ok();
    tries.into_iter().find(fires).map(|e| e as u16)
}

/// A random walk in a net of so many events that mostly fires; it ends early where nothing fires.
pub fn walk<G: Game>(random: &mut Random, game: &G, events: usize, walk: &Walk) -> Vec<u16> {
    let mut marking = game.start();
    let mut barred = vec![false; events];
    let mut run = Vec::new();
    while run.len() < walk.steps {
        if random.percent(walk.arbitrary) {
            let number = random.word_below(events + 2);
            run.push(number);
            if let Ok(after) = fire(game, &marking, number) {
                marking = after;
            }
            continue;
        }
        let Some(number) = firing_event(random, game, events, &marking, &barred) else {
            break;
        };
        if let Ok(after) = fire(game, &marking, number) {
            marking = after;
        }
        barred[usize::from(number)] = walk.avoid_repeats && marks_for_others(game, events, number);
        run.push(number);
    }
    run
}

/// An event of a played net marks a persistent condition that another of its events uses, so that a repeat of it does not lift.
fn marks_for_others<G: Game>(game: &G, events: usize, number: u16) -> bool {
    let persistent = |b: &u16| game.persistent()[usize::from(*b)];
    let mut marked = game.event(number).unwrap_or_default().postconditions;
    marked.retain(persistent);
    let uses = |user: &Event| user.preconditions.iter().any(|b| marked.contains(b));
    let mut others = (0..=u16::MAX).take(events).filter(|user| *user != number);
    !marked.is_empty() && others.any(|user| game.event(user).is_some_and(|event| uses(&event)))
}

/// A random way to walk, short or now and then long.
pub fn any_walk(random: &mut Random) -> Walk {
    Walk {
        steps: match random.below(50) {
            0 => random.between(4_090, 4_100),
            1..=5 => random.below(200),
            _ => random.below(12),
        },
        arbitrary: [0, 0, 5, 30][random.below(4)],
        avoid_repeats: random.percent(60),
    }
}

/// A marking of so many conditions, right in most cases, else of a wrong length or with wrong bytes.
pub fn any_marking(random: &mut Random, conditions: usize) -> Vec<u8> {
    let held = random.below(101);
    let mut marking: Vec<u8> = (0..conditions)
        .map(|_| u8::from(random.percent(held)))
        .collect();
    match random.below(20) {
        0 => marking.push(random.below(3) as u8),
        1 => marking.truncate(random.below(conditions)),
        2 => {
            for _ in 0..random.between(1, 3) {
                let place = random.below(conditions);
                marking[place] = random.between(2, 255) as u8;
            }
        }
        _ => {}
    }
    marking
}
