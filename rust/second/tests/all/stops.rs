//! The condition that stopped a step, looked for condition after condition; all else is answered as before it was told (02, No. 2), by
//! either rule (02, No. 4).

use second::calls;
use second::game::{fire, play, Game, Stop};
use second::generator::{small_unfolding, walk, Random, Walk};
use second::refusal::Refusal;
use second::table::{table_bytes, Event, Net, Rule};
use second::unfolding::Unfolding;

use crate::common::{exchange, lent, lift, lifted_end, project, replay, replay_unfolded};

/// The cases that each test tries.
const CASES: usize = 4_000;

/// The first number from 0 on, below a count of conditions, of which something is so.
fn first_from_0(conditions: usize, is_so: impl Fn(u16) -> bool) -> Option<u16> {
    let mut condition = 0;
    while usize::from(condition) < conditions {
        if is_so(condition) {
            return Some(condition);
        }
        condition += 1;
    }
    None
}

/// A net that is played, and which of its conditions block even an event that takes them.
struct Played<'a, G> {
    game: &'a G,
    blocks_taker: Vec<bool>,
}

/// A table's net as it is played: by the old rule its ordinary conditions block a taker.
fn table_played(net: &Net) -> Played<'_, Net> {
    let is_old = net.rule == Some(Rule::Old);
    let ordinary = net.persistent.iter().map(|persistent| !persistent);
    Played {
        game: net,
        blocks_taker: ordinary.map(|ordinary| is_old && ordinary).collect(),
    }
}

/// A net's unfolding as it is played: by the old rule what is no copy blocks a taker.
fn unfolding_played<'a>(net: &Net, unfolding: &'a Unfolding) -> Played<'a, Unfolding> {
    let is_old = net.rule == Some(Rule::Old);
    let ordinary = unfolding.conditions.iter().map(|c| c.copy.is_none());
    Played {
        game: unfolding,
        blocks_taker: ordinary.map(|ordinary| is_old && ordinary).collect(),
    }
}

/// What stops an event, by the rule alone.
fn by_the_rule<G: Game>(
    played: &Played<G>,
    marking: &[bool],
    number: u16,
) -> Option<(u8, Option<u16>)> {
    let Played { game, blocks_taker } = played;
    let Some(event) = game.event(number) else {
        return Some((10, None));
    };
    let taken = |b| event.preconditions.contains(&b);
    let put = |b| event.postconditions.contains(&b);
    let holds = |b| marking[usize::from(b)];
    let ordinary = |b| !game.persistent()[usize::from(b)];
    let blocks = |b| !taken(b) || blocks_taker[usize::from(b)];
    let lacking = first_from_0(marking.len(), |b| taken(b) && !holds(b));
    let contact = first_from_0(marking.len(), |b| {
        put(b) && blocks(b) && ordinary(b) && holds(b)
    });
    match (lacking, contact) {
        (None, None) => None,
        (None, by) => Some((12, by)),
        (by, _) => Some((11, by)),
    }
}

/// The number that refused an event before any condition was told, or 0.
fn number_before<G: Game>(played: &Played<G>, marking: &[bool], number: u16) -> u8 {
    let Played { game, blocks_taker } = played;
    let Some(Event {
        preconditions,
        postconditions,
    }) = game.event(number)
    else {
        return 10;
    };
    let holds = |b: &u16| marking[usize::from(*b)];
    let blocks = |b: &u16| blocks_taker[usize::from(*b)] || !preconditions.contains(b);
    let contact = |b: &u16| !game.persistent()[usize::from(*b)] && holds(b) && blocks(b);
    match (
        preconditions.iter().all(holds),
        postconditions.iter().any(contact),
    ) {
        (false, _) => 11,
        (true, true) => 12,
        (true, false) => 0,
    }
}

/// The number and step by which a run was refused before any condition was told; nothing where it plays.
fn refused_before<G: Game>(played: &Played<G>, run: &[u16]) -> Option<(u8, usize)> {
    let mut marking = played.game.start();
    for (step, number) in run.iter().enumerate() {
        match fire(played.game, &marking, *number) {
            Ok(after) => marking = after,
            Err(_) => return Some((number_before(played, &marking, *number), step)),
        }
    }
    None
}

/// The condition that stops a run by the rule, in the marking before the step.
fn run_by_the_rule<G: Game>(played: &Played<G>, run: &[u16], step: usize) -> Option<u16> {
    let before = play(played.game, played.game.start(), &run[..step]).unwrap();
    by_the_rule(played, &before, run[step]).and_then(|(_, by)| by)
}

/// How often 11 and 12 came, each by an ordinary condition and by one that is persistent or a copy of such a one.
#[derive(Default, Debug)]
struct Seen([[usize; 2]; 2]);

impl Seen {
    /// Counts a refusal; the test says of a condition that it is persistent, or a copy.
    fn count(&mut self, refusal: (u8, Option<u16>), lasting: impl Fn(u16) -> bool) {
        if let (11 | 12, Some(by)) = refusal {
            self.0[usize::from(refusal.0) - 11][usize::from(lasting(by))] += 1;
        }
    }

    /// Every kind that can come came so often; there is no contact at a persistent condition of a table.
    fn is_rich(&self, copies: bool, least: usize) -> bool {
        let [[lacked, lacked_lasting], [met, met_lasting]] = self.0;
        let lasting = if copies {
            met_lasting >= least
        } else {
            met_lasting == 0
        };
        lacked >= least && lacked_lasting >= least && met >= least && lasting
    }
}

/// A marking of so many conditions, of which about two in three hold.
fn mostly_held(random: &mut Random, conditions: usize) -> Vec<bool> {
    (0..conditions).map(|_| random.percent(65)).collect()
}

/// A copy of a persistent condition has this number.
fn is_copy(unfolding: &Unfolding, number: u16) -> bool {
    unfolding.conditions[usize::from(number)].copy.is_some()
}

/// A firing's refusal is the rule's, with the condition as place, and was there before but for those two.
fn firing_agrees<G: Game>(
    played: &Played<G>,
    marking: &[bool],
    number: u16,
    answer: Option<Refusal>,
) {
    let rule = by_the_rule(played, marking, number);
    let place = |by: Option<u16>| by.map_or(0, usize::from);
    let expected = rule.map(|(number, by)| Refusal {
        number,
        place: place(by),
        by,
    });
    assert_eq!(answer, expected);
    assert_eq!(
        answer.map_or(0, |refusal| refusal.number),
        number_before(played, marking, number)
    );
}

/// The conditions that hold in a marking.
fn held(marking: &[bool]) -> Vec<usize> {
    (0..marking.len()).filter(|b| marking[*b]).collect()
}

#[test]
fn a_firing_is_stopped_by_the_lowest_condition_at_fault() {
    let mut random = Random::given();
    let (mut table_seen, mut unfolded_seen) = (Seen::default(), Seen::default());
    for _ in 0..CASES {
        let (net, unfolding) = small_unfolding(&mut random);
        let table = table_bytes(&net);
        let marking = mostly_held(&mut random, net.persistent.len());
        let number = random.below(net.events.len() + 1) as u16;
        let mut lent_marking = lent(marking.len(), &held(&marking));
        let answer = calls::has_concession(&table, &lent_marking, number).err();
        firing_agrees(&table_played(&net), &marking, number, answer);
        let fired = calls::fire_event(&table, &mut lent_marking, number).err();
        assert_eq!(fired, answer);
        if let Some(Refusal { number, by, .. }) = answer {
            table_seen.count((number, by), |b| net.persistent[usize::from(b)]);
        }
        let marking = mostly_held(&mut random, unfolding.conditions.len());
        let number = random.below(unfolding.events.len() + 1) as u16;
        let mut lent_marking = lent(marking.len(), &held(&marking));
        let answer = calls::fire_unfolded(&table, &mut lent_marking, number).err();
        let played = unfolding_played(&net, &unfolding);
        firing_agrees(&played, &marking, number, answer);
        if let Some(Refusal { number, by, .. }) = answer {
            unfolded_seen.count((number, by), |b| is_copy(&unfolding, b));
        }
    }
    assert!(table_seen.is_rich(false, 100), "{table_seen:?}");
    assert!(unfolded_seen.is_rich(true, 100), "{unfolded_seen:?}");
}

/// A run whose last step may be any event.
fn run_with_any_end<G: Game>(random: &mut Random, game: &G, events: usize) -> Vec<u16> {
    let way = Walk {
        steps: random.below(7),
        arbitrary: 0,
        avoid_repeats: false,
    };
    let mut run = walk(random, game, events, &way);
    run.push(random.below(events + 1) as u16);
    run
}

/// A run's refusal by a step is the rule's, with the step as place, and was there before but for the condition; tells whether there is
/// one.
fn run_agrees<G: Game>(played: &Played<G>, run: &[u16], answer: Option<Refusal>) -> bool {
    let expected = refused_before(played, run).map(|(number, step)| Refusal {
        number,
        place: step,
        by: run_by_the_rule(played, run, step),
    });
    assert_eq!(answer.filter(|r| (10..=12).contains(&r.number)), expected);
    expected.is_some()
}

/// Holds every call on a run of the table to the rule; gives what stopped it.
fn table_run_agrees(net: &Net, run: &[u16]) -> Option<Refusal> {
    let table = table_bytes(net);
    let answer = replay(&table, run).err();
    if !run_agrees(&table_played(net), run, answer) {
        return None;
    }
    assert_eq!(lift(&table, run).err(), answer);
    assert_eq!(lifted_end(&table, run).err(), answer);
    assert_eq!(exchange(&table, run, 0).err(), answer);
    answer
}

/// Holds every call on a run of unfolded events to the rule; gives what stopped it.
fn unfolded_run_agrees(net: &Net, unfolding: &Unfolding, run: &[u16]) -> Option<Refusal> {
    let table = table_bytes(net);
    let answer = project(&table, run).err();
    run_agrees(&unfolding_played(net, unfolding), run, answer);
    assert_eq!(replay_unfolded(&table, run).err(), answer);
    answer
}

#[test]
fn a_run_is_stopped_at_its_step_by_the_lowest_condition_at_fault() {
    let mut random = Random::given();
    let (mut table_seen, mut unfolded_seen) = (Seen::default(), Seen::default());
    for _ in 0..CASES {
        let (net, unfolding) = small_unfolding(&mut random);
        let run = run_with_any_end(&mut random, &net, net.events.len());
        if let Some(Refusal { number, by, .. }) = table_run_agrees(&net, &run) {
            table_seen.count((number, by), |b| net.persistent[usize::from(b)]);
        }
        let run = run_with_any_end(&mut random, &unfolding, unfolding.events.len());
        if let Some(Refusal { number, by, .. }) = unfolded_run_agrees(&net, &unfolding, &run) {
            unfolded_seen.count((number, by), |b| is_copy(&unfolding, b));
        }
    }
    assert!(table_seen.is_rich(false, 50), "{table_seen:?}");
    assert!(unfolded_seen.is_rich(true, 50), "{unfolded_seen:?}");
}

#[test]
fn a_stop_is_told_by_its_condition_in_a_firing_and_beside_the_step_in_a_run() {
    let by = |number, by| Stop { number, by };
    let told = |refusal: Refusal| (refusal.number, refusal.place, refusal.by);
    assert_eq!(told(by(11, Some(3)).of_firing()), (11, 3, Some(3)));
    assert_eq!(told(by(12, Some(0)).of_firing()), (12, 0, Some(0)));
    assert_eq!(told(by(10, None).of_firing()), (10, 0, None));
    assert_eq!(told(by(12, Some(3)).at_step(7)), (12, 7, Some(3)));
    assert_eq!(told(by(10, None).at_step(7)), (10, 7, None));
}
