//! A case: one request with everything that it gives and lends, made from the case's seed alone.

use second::across::{lifted, may_repeat};
use second::game::{fire, play, Game, Stop};
use second::generator::{any_marking, walk, Random, Walk};
use second::records::{record_bytes, word_bytes, LIFTED, MOST_STEPS, RUN};
use second::table::{Event, Net, Rule};
use second::unfolding::{
    counts, judge_unfolding, markers, persistent_preconditions, unfold, users, Marker, Unfolding,
};
use wire::{Call, Request, START};

use crate::elements::{any_exported_table, ask_element};
use crate::expected::{double_word_bytes, marker_word};
use crate::nets::{any_net, any_net_across, any_number, any_table, Asked};

/// Each call as often as this says, of their sum. `lossy` is not among them: [`beside`] asks it in addition, so that a seed gives the same
/// request of any other call with it as without.
const OFTEN: [(Call, usize); 28] = [
    (Call::Judge, 6),
    (Call::Counts, 3),
    (Call::Pre, 4),
    (Call::Post, 4),
    (Call::Start, 4),
    (Call::CanFire, 5),
    (Call::Fire, 7),
    (Call::Replay, 7),
    (Call::Exchange, 9),
    (Call::UnfoldedCounts, 4),
    (Call::EventOrigin, 5),
    (Call::EventNumber, 6),
    (Call::ConditionOrigin, 5),
    (Call::ConditionNumber, 6),
    (Call::UnfoldedPre, 5),
    (Call::UnfoldedPost, 6),
    (Call::UnfoldedStart, 4),
    (Call::UnfoldedFire, 8),
    (Call::Lift, 9),
    (Call::Project, 9),
    (Call::LiftEnd, 6),
    (Call::UnfoldedReplay, 6),
    (Call::ReadRun, 3),
    (Call::ReadLifted, 3),
    (Call::WriteRun, 2),
    (Call::WriteLifted, 2),
    (Call::ElementCount, 2),
    (Call::Element, 8),
];

/// Unfolded nets of at most this many events are walked in; in larger ones, runs are lifted.
const WALKED_EVENTS: u128 = 60;

/// So many steps of a run, and as many other events, are tried for one that is stopped in a wanted way.
const TRIED: usize = 30;

/// A call, each as often as it is to come.
fn any_call(random: &mut Random) -> Call {
    let sum: usize = OFTEN.iter().map(|(_, often)| often).sum();
    let mut left = random.below(sum);
    for (call, often) in OFTEN {
        if left < often {
            return call;
        }
        left -= often;
    }
    Call::Judge
}

// ---- outputs

/// Random bytes for a lent output, so many elements of a size: what must stay is known by them.
fn sentinels(random: &mut Random, elements: usize, size: usize) -> Vec<u8> {
    random.bytes(elements * size)
}

/// The length to lend where so many elements are needed: exactly enough, one short, shorter or longer.
fn lent_length(random: &mut Random, needed: usize) -> usize {
    match random.below(100) {
        0..=44 => needed,
        45..=59 => needed.saturating_sub(1),
        60..=64 => 0,
        65..=69 => random.below(needed + 1),
        70..=94 => needed + random.between(1, 9),
        _ => needed + random.between(10, 600),
    }
}

/// Lends an output of elements of a size, where so many are needed.
fn lend(random: &mut Random, request: &mut Request, needed: usize, size: usize) {
    let length = lent_length(random, needed);
    request.lent = sentinels(random, length, size);
}

// ---- runs and markings

/// How a run is walked; in a net of many events only a short way, since looking for one that fires takes long there.
fn any_walk(random: &mut Random, events: usize) -> Walk {
    let steps = match random.below(100) {
        0..=1 if events <= 20 => random.between(4_090, MOST_STEPS),
        2..=9 if events <= 40 => random.below(150),
        _ => random.below(14),
    };
    let arbitrary = [0, 0, 0, 5, 30][random.below(5)];
    Walk {
        steps,
        arbitrary: if steps < 1_000 { arbitrary } else { 0 },
        avoid_repeats: random.percent(70),
    }
}

/// A net as it is walked in: by its own rule, but of the old one now and then by the paper's, so that the old rule stops a step.
fn walked_net(random: &mut Random, net: &Net) -> Net {
    let mut walked = net.clone();
    walked.rule = net.rule.filter(|_| random.percent(75));
    walked
}

/// A run of a net's events, which mostly plays; now and then too long, changed at a step, or of any numbers.
fn any_run(random: &mut Random, net: &Net) -> Vec<u16> {
    let events = net.events.len();
    let way = any_walk(random, events);
    let walked = walked_net(random, net);
    let mut run = walk(random, &walked, events, &way);
    match random.below(100) {
        0..=1 => {
            let length = random.between(MOST_STEPS + 1, MOST_STEPS + 30);
            run.push(0);
            run = run.into_iter().cycle().take(length).collect();
        }
        2..=3 => {
            let steps = random.below(20);
            run = (0..steps).map(|_| random.word()).collect();
        }
        4..=9 => change_step(random, &mut run, events),
        10..=19 => {
            let kind = [(11, false), (11, true), (12, false)][random.below(3)];
            let lasting = |b: u16| net.persistent[usize::from(b)];
            let wanted = |_, stop| is_kind(stop, kind, lasting);
            add_stopped(random, net, events, &mut run, wanted);
        }
        20..=29 => add_wrong_repeat(random, net, &mut run),
        30..=49 if net.rule == Some(Rule::Old) => {
            let wanted = |event, stop| is_by_taken(net, event, stop);
            add_stopped(random, net, events, &mut run, wanted);
        }
        _ => {}
    }
    run
}

/// Adds a step to a run that plays whose event came before and marks for another, if one of its own steps is such a one and fires; now
/// and then the run goes on after it.
fn add_wrong_repeat(random: &mut Random, net: &Net, run: &mut Vec<u16>) {
    let Ok(end) = play(net, net.start(), run) else {
        return;
    };
    let wrong = |e: &&u16| !may_repeat(net, **e) && fire(net, &end, **e).is_ok();
    let Some(step) = run.iter().rev().find(wrong).copied() else {
        return;
    };
    run.push(step);
    if random.percent(30) {
        run.extend_from_within(..1);
    }
    run.truncate(MOST_STEPS);
}

/// A stop has this number, and its condition is persistent or a copy exactly if the kind says so.
fn is_kind(stop: Stop, kind: (u8, bool), lasting: impl Fn(u16) -> bool) -> bool {
    stop.number == kind.0 && stop.by.is_some_and(|b| lasting(b) == kind.1)
}

/// An event is stopped by a condition that it takes, as only the old rule has it.
fn is_by_taken<G: Game>(game: &G, event: u16, stop: Stop) -> bool {
    let taken = game.event(event).unwrap_or_default().preconditions;
    stop.number == 12 && stop.by.is_some_and(|b| taken.contains(&b))
}

/// Adds a step that is stopped in a wanted way to a run that plays, if one of its own steps or of some other events is; now and then
/// a step follows it that is not looked at.
fn add_stopped<G: Game>(
    random: &mut Random,
    game: &G,
    events: usize,
    run: &mut Vec<u16>,
    wanted: impl Fn(u16, Stop) -> bool,
) {
    let Ok(end) = play(game, game.start(), run) else {
        return;
    };
    let own = run.iter().rev().take(TRIED).copied();
    let others = (0..TRIED).map(|_| random.below(events) as u16);
    let tried: Vec<u16> = own.chain(others).collect();
    let stopped = |e: &u16| fire(game, &end, *e).is_err_and(|stop| wanted(*e, stop));
    if let Some(step) = tried.into_iter().find(stopped) {
        run.push(step);
        run.extend(random.percent(30).then(|| random.word()));
    }
    run.truncate(MOST_STEPS);
}

/// Changes one step of a run to any number.
fn change_step(random: &mut Random, run: &mut [u16], events: usize) {
    if !run.is_empty() {
        let step = random.below(run.len());
        run[step] = any_number(random, events);
    }
}

/// A run that plays, shortened before the first step that would not lift.
fn lifting_run(random: &mut Random, net: &Net, unfolding: &Unfolding) -> Vec<u16> {
    let mut run = any_run(random, net);
    run.truncate(MOST_STEPS);
    loop {
        match lifted(net, unfolding, &run) {
            Ok(found) => return found,
            Err(refusal) => run.truncate(refusal.place),
        }
    }
}

/// Adds an unfolded step that is stopped to a run that plays: often by contact at a copy, as where an event that marks for others comes
/// again, and by the old rule often at a condition that it takes.
fn stop_unfolded(random: &mut Random, net: &Net, unfolding: &Unfolding, run: &mut Vec<u16>) {
    let events = unfolding.events.len();
    if net.rule == Some(Rule::Old) && random.percent(75) {
        let wanted = |event, stop| is_by_taken(unfolding, event, stop);
        add_stopped(random, unfolding, events, run, wanted);
        return;
    }
    let kinds = [(11, false), (11, true), (12, false), (12, true), (12, true)];
    let kind = kinds[random.below(kinds.len())];
    let copy = |b: u16| unfolding.conditions[usize::from(b)].copy.is_some();
    let wanted = |_, stop| is_kind(stop, kind, copy);
    add_stopped(random, unfolding, events, run, wanted);
}

/// A run of unfolded events, which mostly plays.
fn any_unfolded_run(random: &mut Random, net: &Net) -> Vec<u16> {
    let Ok(unfolding) = unfold(net) else {
        return any_run(random, net);
    };
    let events = unfolding.events.len();
    if (events as u128) <= WALKED_EVENTS && random.percent(60) {
        let way = Walk {
            steps: random.below(12),
            arbitrary: [0, 0, 5, 30][random.below(4)],
            avoid_repeats: false,
        };
        let walked = Unfolding::of(&walked_net(random, net));
        let mut run = walk(random, &walked, events, &way);
        if random.percent(25) {
            stop_unfolded(random, net, &unfolding, &mut run);
        }
        return run;
    }
    let mut run = lifting_run(random, net, &unfolding);
    match random.below(100) {
        0..=19 => change_step(random, &mut run, events),
        34..=54 => stop_unfolded(random, net, &unfolding, &mut run),
        20..=29 => run.push(any_number(random, events)),
        30..=33 => {
            run.push(0);
            let length = random.between(MOST_STEPS + 1, MOST_STEPS + 30);
            run = run.into_iter().cycle().take(length).collect();
        }
        _ => {}
    }
    run
}

/// A marking of so many conditions at which an event mostly fires or nearly does; an unknown event gets any marking.
fn marking_for(random: &mut Random, conditions: usize, event: Option<Event>) -> Vec<u8> {
    if conditions == 0 {
        return vec![0; random.below(2)];
    }
    let mut marking = any_marking(random, conditions);
    let Some(event) = event.filter(|_| random.percent(80)) else {
        return marking;
    };
    let mut set = |b: &u16, byte: u8| {
        if let Some(place) = marking
            .get_mut(usize::from(*b))
            .filter(|place| **place <= 1)
        {
            *place = byte;
        }
    };
    if random.percent(75) {
        event.postconditions.iter().for_each(|b| set(b, 0));
    }
    if random.percent(20) {
        event.postconditions.last().iter().for_each(|b| set(b, 1));
    }
    event.preconditions.iter().for_each(|b| set(b, 1));
    for _ in 0..[0, 0, 0, 0, 0, 1, 3][random.below(7)] {
        let one = random.below(event.preconditions.len());
        event.preconditions.get(one).iter().for_each(|b| set(b, 0));
    }
    marking
}

// ---- numbers of the unfolding

/// How many unfolded conditions and events there are, as far as calls can ask for them.
fn unfolded_counts(net: &Net) -> (usize, usize) {
    let found = counts(net);
    let capped = |count: u128| count.min(65_536) as usize;
    (capped(found.conditions), capped(found.events))
}

/// A marker of a persistent condition.
fn any_marker(random: &mut Random, net: &Net, condition: u16) -> Marker {
    let found = markers(net, condition);
    found[random.below(found.len())]
}

/// A word that is mostly no marker, though cut to two bytes or fewer it may look like one.
fn odd_marker(random: &mut Random, events: usize) -> u32 {
    let event = u32::from(any_number(random, events));
    match random.below(6) {
        0 => START,
        1 => START - 1,
        2 => 0x0001_0000 + event,
        3 => 0xffff,
        4 => random.draw() as u32,
        _ => event,
    }
}

/// A word that is a given marker in its lower two bytes alone.
fn widened(random: &mut Random, marker: u32) -> u32 {
    marker ^ (random.between(1, 0xffff) << 16) as u32
}

/// Markers for an event, mostly one for each persistent precondition.
fn any_markers(random: &mut Random, net: &Net, event: u16) -> Vec<u32> {
    let read = match net.events.get(usize::from(event)) {
        Some(event) => persistent_preconditions(net, event),
        None => Vec::new(),
    };
    let chosen = read
        .iter()
        .map(|b| marker_word(any_marker(random, net, *b)));
    let mut chosen: Vec<u32> = chosen.collect();
    match random.below(100) {
        0..=9 if !chosen.is_empty() => {
            let place = random.below(chosen.len());
            chosen[place] = match random.below(2) {
                0 => widened(random, chosen[place]),
                _ => odd_marker(random, net.events.len()),
            };
        }
        10..=14 => {
            chosen.pop();
        }
        15..=19 => chosen.push(odd_marker(random, net.events.len())),
        20..=22 => chosen.resize(random.between(16, 300), START),
        _ => {}
    }
    chosen
}

/// The numbers that ask for an unfolded condition: condition, copy, marker, user.
fn any_condition(random: &mut Random, net: &Net) -> [u64; 4] {
    let events = net.events.len();
    let condition = any_number(random, net.persistent.len());
    let persistent = net.persistent.get(usize::from(condition)) == Some(&true);
    let mut marker = odd_marker(random, events);
    let mut user = any_number(random, events);
    if persistent {
        if random.percent(90) {
            marker = marker_word(any_marker(random, net, condition));
        }
        if random.percent(5) {
            marker = widened(random, marker);
        }
        let found = users(net, condition);
        if let Some(found) = found.get(random.below(found.len())) {
            user = if random.percent(85) { *found } else { user };
        }
    }
    let copy = persistent != random.percent(8);
    [
        u64::from(condition),
        u64::from(copy),
        u64::from(marker),
        u64::from(user),
    ]
}

/// An unfolded event's two lists and the number of its markers, where the net unfolds and it is there.
fn unfolded_event(net: &Net, number: u16) -> Option<(Event, usize)> {
    let unfolding = unfold(net).ok()?;
    let behind = unfolding.events.get(usize::from(number))?;
    Some((unfolding.event(number)?, behind.markers.len()))
}

// ---- records

/// A record of a run, sound or broken in one of the ways that there are.
fn any_record(random: &mut Random, kind: u16) -> Vec<u8> {
    let steps = match random.below(20) {
        0 => random.between(4_095, 4_099),
        1 => random.between(4_100, 32_000),
        _ => random.below(30),
    };
    let mut payload = random.bytes(2 * steps);
    let other = [RUN + LIFTED - kind, 0, 3, kind + 256, random.word()][random.below(5)];
    let kind = if random.percent(10) { other } else { kind };
    if random.percent(10) {
        payload.pop();
    }
    let mut bytes = record_bytes(kind, &payload);
    if random.percent(10) {
        bytes.truncate(random.below(bytes.len()));
    }
    if random.percent(10) {
        let count = random.between(1, 9);
        bytes.extend(random.bytes(count));
    }
    bytes
}

/// Steps to be written as a record, now and then too many.
fn any_steps(random: &mut Random) -> Vec<u16> {
    let steps = match random.below(20) {
        0 => random.between(4_094, 4_099),
        1 => random.between(4_097, 40_000),
        _ => random.below(40),
    };
    (0..steps).map(|_| random.word()).collect()
}

// ---- the case

/// The numbers below a call's single values, whose types cut them.
fn any_values(random: &mut Random, call: Call) -> [u64; 4] {
    let (word, wide) = (u64::from(random.word()), random.draw());
    match call {
        Call::EventOrigin => [word, wide, 0, 0],
        Call::EventNumber | Call::ConditionNumber => [word, 0, 0, 0],
        Call::ConditionOrigin => [word, wide & 1, wide >> 32, u64::from(random.word())],
        _ => [wide, random.draw(), 0, 0],
    }
}

/// Fills in what a call on an event takes.
fn ask_event(random: &mut Random, request: &mut Request, net: &Net) {
    let event = any_number(random, net.events.len());
    let lists = net.events.get(usize::from(event));
    request.numbers[0] = u64::from(event);
    match request.call {
        Call::Pre => lend(
            random,
            request,
            lists.map_or(2, |e| e.preconditions.len()),
            2,
        ),
        Call::Post => lend(
            random,
            request,
            lists.map_or(2, |e| e.postconditions.len()),
            2,
        ),
        Call::EventNumber => {
            request.given = double_word_bytes(&any_markers(random, net, event));
        }
        _ => request.given = marking_for(random, net.persistent.len(), lists.cloned()),
    }
}

/// Fills in what a call on an unfolded event or condition takes.
fn ask_unfolded(random: &mut Random, request: &mut Request, net: &Net) {
    let (conditions, events) = unfolded_counts(net);
    if request.call == Call::ConditionOrigin {
        request.numbers[0] = u64::from(any_number(random, conditions));
        return;
    }
    let number = any_number(random, events);
    request.numbers[0] = u64::from(number);
    let (lists, picked) = match unfolded_event(net, number) {
        Some((lists, picked)) => (Some(lists), picked),
        None => (None, 2),
    };
    let length = |list: fn(&Event) -> usize| lists.as_ref().map_or(2, list);
    match request.call {
        Call::EventOrigin => lend(random, request, picked, 4),
        Call::UnfoldedPre => lend(random, request, length(|e| e.preconditions.len()), 2),
        Call::UnfoldedPost => lend(random, request, length(|e| e.postconditions.len()), 2),
        _ => request.given = marking_for(random, conditions.min(65_535), lists),
    }
}

/// Fills in what a call on a run takes.
fn ask_run(random: &mut Random, request: &mut Request, net: &Net) {
    let run = match request.call {
        Call::Project | Call::UnfoldedReplay => any_unfolded_run(random, net),
        _ => any_run(random, net),
    };
    let steps = run.len();
    request.given = word_bytes(&run);
    let (unfolded, _) = match request.call {
        Call::LiftEnd | Call::UnfoldedReplay if judge_unfolding(net).is_ok() => {
            unfolded_counts(net)
        }
        _ => (3, 0),
    };
    match request.call {
        Call::Replay => lend(random, request, net.persistent.len(), 1),
        Call::Lift | Call::Project => lend(random, request, steps, 2),
        Call::Exchange => {
            request.numbers[0] = match random.below(40) {
                0 => u64::MAX - random.below(2) as u64,
                1 => 1 << random.between(16, 63),
                2 => steps as u64,
                3 => steps.saturating_sub(1) as u64,
                _ => random.below(steps.saturating_sub(1)) as u64,
            };
        }
        _ => lend(random, request, unfolded, 1),
    }
}

/// Fills in what a call on a record takes.
fn ask_record(random: &mut Random, request: &mut Request) {
    match request.call {
        Call::ReadRun | Call::ReadLifted => {
            let kind = if request.call == Call::ReadRun {
                RUN
            } else {
                LIFTED
            };
            request.given = any_record(random, kind);
            let steps = request.given.len().saturating_sub(4) / 2;
            lend(random, request, steps, 2);
        }
        _ => {
            let steps = any_steps(random);
            request.given = word_bytes(&steps);
            lend(random, request, 4 + 2 * steps.len(), 1);
        }
    }
}

/// A table to ask about by a call: those that go across meet more repeats, and few exports take long.
fn table_for(random: &mut Random, call: Call) -> Asked {
    match call {
        Call::ElementCount | Call::Element => any_exported_table(random, call),
        Call::Lift | Call::LiftEnd | Call::Project | Call::UnfoldedReplay | Call::Lossy => {
            any_table(random, any_net_across)
        }
        _ => any_table(random, any_net),
    }
}

/// The call of a seed's case.
pub fn call_of(seed: u64) -> Call {
    any_call(&mut Random::new(seed))
}

/// The case of a seed.
pub fn case(seed: u64) -> Request {
    let mut random = Random::new(seed);
    let call = any_call(&mut random);
    case_of(&mut random, call)
}

/// The case of `lossy` that comes beside a seed's own where that is one of `judge`. It is drawn by a generator of its own, and nothing is
/// drawn for it by that of the seed.
pub fn beside(seed: u64) -> Option<Request> {
    let is_judge = call_of(seed) == Call::Judge;
    is_judge.then(|| case_of(&mut Random::new(!seed), Call::Lossy))
}

/// The case of a call, drawn by a generator.
fn case_of(random: &mut Random, call: Call) -> Request {
    let mut request = Request::new(call, &[]);
    request.values = any_values(random, call);
    if call.is_on_record() {
        ask_record(random, &mut request);
        return request;
    }
    let Asked { bytes, net } = table_for(random, call);
    request.table = bytes;
    match call {
        Call::Judge | Call::Counts | Call::UnfoldedCounts | Call::ElementCount => {}
        Call::Element => {
            let needed = ask_element(random, &mut request, &net);
            lend(random, &mut request, needed, 1);
        }
        Call::Start => lend(random, &mut request, net.persistent.len(), 1),
        Call::Lossy => lend(random, &mut request, net.events.len(), 1),
        Call::UnfoldedStart => {
            let (conditions, _) = unfolded_counts(&net);
            lend(random, &mut request, conditions, 1);
        }
        Call::ConditionNumber => request.numbers = any_condition(random, &net),
        Call::Pre | Call::Post | Call::CanFire | Call::Fire | Call::EventNumber => {
            ask_event(random, &mut request, &net);
        }
        Call::EventOrigin
        | Call::ConditionOrigin
        | Call::UnfoldedPre
        | Call::UnfoldedPost
        | Call::UnfoldedFire => ask_unfolded(random, &mut request, &net),
        _ => ask_run(random, &mut request, &net),
    }
    request
}
