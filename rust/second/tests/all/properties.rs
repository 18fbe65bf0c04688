//! Properties over generated tables, runs and markings; the seed is printed and may be given as SEED.

use second::calls;
use second::game::{may_exchange, play, Game};
use second::generator::*;
use second::listing::listing;
use second::records::{read_run, write_run};
use second::refusal::Refusal;
use second::repeats::repeats;
use second::table::{read_table, table_bytes, Event, Net};
use second::unfolding::{
    counts, markers, persistent_preconditions, unfold, users, CopyFor, Marker, UnfoldedCondition,
    Unfolding,
};

use crate::common::*;

/// A small or middle net that unfolds, with its unfolding; a quarter of them have many repeats that are lifted.
fn unfolding_net(random: &mut Random) -> (Net, Unfolding) {
    loop {
        let net = match random.below(4) {
            0 => middle_net(random),
            1 => repeating_net(random),
            _ => small_net(random),
        };
        if counts(&net).events > 5_000 {
            continue;
        }
        if let Ok(unfolding) = unfold(&net) {
            return (net, unfolding);
        }
    }
}

/// A run of the net that fires at every step.
fn firing_run(random: &mut Random, net: &Net, avoid_repeats: bool) -> Vec<u16> {
    let way = Walk {
        steps: random.below(30),
        arbitrary: 0,
        avoid_repeats,
    };
    walk(random, net, net.events.len(), &way)
}

#[test]
fn the_judge_accepts_sound_tables_and_reads_them_back() {
    let mut random = Random::given();
    for _ in 0..3_000 {
        let net = any_net(&mut random);
        assert_eq!(read_table(&table_bytes(&net)).unwrap().net, net);
    }
}

#[test]
fn the_judge_refuses_damaged_tables_with_the_expected_number_and_place() {
    let mut random = Random::given();
    let mut seen = [0; 10];
    for _ in 0..30_000 {
        let net = match random.below(200) {
            0 => large_net(&mut random),
            1..=20 => middle_net(&mut random),
            _ => small_net(&mut random),
        };
        let damaged = damaged(&mut random, &net);
        assert_eq!(
            calls::judge(&damaged.bytes),
            Err(damaged.refusal),
            "{net:?}"
        );
        seen[usize::from(damaged.refusal.number)] += 1;
    }
    assert!(seen[1..].iter().all(|times| *times > 0), "{seen:?}");
}

#[test]
fn a_lifted_run_fires_and_projects_to_the_run() {
    let mut random = Random::given();
    for _ in 0..4_000 {
        let (net, unfolding) = unfolding_net(&mut random);
        let table = table_bytes(&net);
        let run = firing_run(&mut random, &net, true);
        let lifted = lift(&table, &run).unwrap();
        assert_eq!(project(&table, &lifted), Ok(run.clone()));
        assert_eq!(replay_unfolded(&table, &lifted), lifted_end(&table, &run));
        let end = play(&net, net.start(), &run).unwrap();
        let unfolded_end = play(&unfolding, unfolding.start(), &lifted).unwrap();
        assert!(correspond(&net, &unfolding, &end, &unfolded_end));
    }
}

/// The markings agree on ordinary conditions, and a persistent one holds exactly where each of its users has a copy.
fn correspond(net: &Net, unfolding: &Unfolding, marking: &[bool], unfolded: &[bool]) -> bool {
    let copy_holds = |b: usize, user: Option<u16>| {
        let same = |i: &usize| {
            let copy = unfolding.conditions[*i];
            usize::from(copy.condition) == b && copy.copy.map(|c| c.user) == user
        };
        (0..unfolded.len()).filter(same).any(|i| unfolded[i])
    };
    (0..marking.len()).all(|b| {
        if net.persistent[b] {
            let holds = |user: &u16| copy_holds(b, Some(*user)) == marking[b];
            users(net, b as u16).iter().all(holds)
        } else {
            copy_holds(b, None) == marking[b]
        }
    })
}

#[test]
fn a_lift_is_refused_exactly_at_the_first_repeat_of_an_event_that_marks_for_another() {
    let mut random = Random::given();
    let (mut refusals, mut lifted) = (0, 0);
    for _ in 0..4_000 {
        let (net, _) = unfolding_net(&mut random);
        let run = firing_run(&mut random, &net, false);
        let marked = |e: u16| {
            let after = net.events[usize::from(e)].postconditions.iter().copied();
            after.filter(|b| net.persistent[usize::from(*b)])
        };
        let for_another = |e: u16| marked(e).any(|b| users(&net, b).iter().any(|u| *u != e));
        let repeats = |step: &usize| run[..*step].contains(&run[*step]);
        let expected = (0..run.len()).find(|step| repeats(step) && for_another(run[*step]));
        let answer = lift(&table_bytes(&net), &run);
        assert_eq!(answer.err(), expected.map(|place| Refusal::at(15, place)));
        refusals += usize::from(expected.is_some());
        let marks_again = |step: usize| repeats(&step) && marked(run[step]).next().is_some();
        lifted += usize::from(expected.is_none() && (0..run.len()).any(marks_again));
    }
    assert!(refusals > 100 && lifted > 100, "{refusals} {lifted}");
}

/// What marked a condition first, up to a step of a run.
fn earliest(net: &Net, run: &[u16], step: usize, b: u16) -> Option<Marker> {
    if net.start.contains(&b) {
        return Some(Marker::Start);
    }
    let marks = |e: &&u16| net.events[usize::from(**e)].postconditions.contains(&b);
    let first = run[..step].iter().find(marks);
    first.map(|e| Marker::ByEvent(*e))
}

#[test]
fn each_lifted_step_takes_itself_or_the_earliest_markers() {
    let mut random = Random::given();
    let (mut by_start, mut by_event, mut by_itself) = (0, 0, 0);
    for _ in 0..3_000 {
        let (net, unfolding) = unfolding_net(&mut random);
        let run = firing_run(&mut random, &net, true);
        let lifted = lift(&table_bytes(&net), &run).unwrap();
        for (step, number) in lifted.iter().enumerate() {
            let picked = &unfolding.events[usize::from(*number)].markers;
            let event = &net.events[usize::from(run[step])];
            let read = persistent_preconditions(&net, event);
            assert_eq!(picked.len(), read.len());
            for (b, marker) in read.iter().zip(picked) {
                let again = run[..step].contains(&run[step]);
                if again && event.postconditions.contains(b) {
                    assert_eq!(*marker, Marker::ByEvent(run[step]));
                    by_itself += 1;
                    continue;
                }
                assert_eq!(Some(*marker), earliest(&net, &run, step, *b));
                match marker {
                    Marker::Start => by_start += 1,
                    Marker::ByEvent(_) => by_event += 1,
                }
            }
        }
    }
    let counts = [by_start, by_event, by_itself];
    assert!(counts.iter().all(|count| *count > 500), "{counts:?}");
}

#[test]
fn unfolded_walks_project_to_runs_of_the_table() {
    let mut random = Random::given();
    for _ in 0..3_000 {
        let (net, unfolding) = unfolding_net(&mut random);
        let way = Walk {
            steps: random.below(20),
            arbitrary: 0,
            avoid_repeats: false,
        };
        let lifted = walk(&mut random, &unfolding, unfolding.events.len(), &way);
        let table = table_bytes(&net);
        let run = project(&table, &lifted).unwrap();
        let end = play(&net, net.start(), &run).unwrap();
        let unfolded_end = play(&unfolding, unfolding.start(), &lifted).unwrap();
        assert!(correspond(&net, &unfolding, &end, &unfolded_end));
    }
}

#[test]
fn numbers_and_origins_are_inverse_and_ascend() {
    let mut random = Random::given();
    for _ in 0..1_500 {
        let (_, unfolding) = unfolding_net(&mut random);
        assert!(unfolding.events.windows(2).all(|pair| pair[0] < pair[1]));
        assert!(unfolding
            .conditions
            .windows(2)
            .all(|pair| pair[0] < pair[1]));
        for (number, event) in unfolding.events.iter().enumerate() {
            assert_eq!(unfolding.event_number(event), Some(number as u16));
        }
        for (number, condition) in unfolding.conditions.iter().enumerate() {
            assert_eq!(unfolding.condition_number(condition), Some(number as u16));
        }
    }
}

#[test]
fn numbers_are_sums_and_mixed_radix_digits() {
    let mut random = Random::given();
    for _ in 0..1_500 {
        let (net, unfolding) = unfolding_net(&mut random);
        let mut before = 0;
        for (e, event) in net.events.iter().enumerate() {
            let choices = persistent_preconditions(&net, event);
            let choices: Vec<Vec<Marker>> = choices.iter().map(|b| markers(&net, *b)).collect();
            let count: usize = choices.iter().map(Vec::len).product();
            for colour in 0..count {
                let mut rest = colour;
                let mut picked = Vec::new();
                for choice in choices.iter().rev() {
                    picked.insert(0, choice[rest % choice.len()]);
                    rest /= choice.len();
                }
                let unfolded = &unfolding.events[before + colour];
                assert_eq!(
                    (usize::from(unfolded.event), &unfolded.markers),
                    (e, &picked)
                );
            }
            before += count;
        }
        assert_eq!(before, unfolding.events.len());
    }
}

#[test]
fn condition_numbers_count_by_condition_then_marker_then_user() {
    let mut random = Random::given();
    for _ in 0..1_500 {
        let (net, unfolding) = unfolding_net(&mut random);
        let mut before = 0;
        for (b, persistent) in net.persistent.iter().enumerate() {
            let condition = b as u16;
            if !persistent {
                assert_eq!(unfolding.conditions[before].condition, condition);
                assert_eq!(unfolding.conditions[before].copy, None);
                before += 1;
                continue;
            }
            let (markers, users) = (markers(&net, condition), users(&net, condition));
            for place in 0..markers.len() * users.len() {
                let marker = markers[place / users.len()];
                let user = users[place % users.len()];
                let copy = Some(CopyFor { marker, user });
                let expected = UnfoldedCondition { condition, copy };
                assert_eq!(unfolding.conditions[before + place], expected);
            }
            before += markers.len() * users.len();
        }
        assert_eq!(before, unfolding.conditions.len());
    }
}

#[test]
fn counts_are_the_lengths_of_the_lists() {
    let mut random = Random::given();
    for _ in 0..1_500 {
        let (net, unfolding) = unfolding_net(&mut random);
        let counted = counts(&net);
        assert_eq!(counted.events, unfolding.events.len() as u128);
        assert_eq!(counted.conditions, unfolding.conditions.len() as u128);
        let ends: usize = (0..unfolding.conditions.len())
            .filter(|i| unfolding.conditions[*i].copy.is_none())
            .count();
        assert_eq!(ends, net.persistent.iter().filter(|p| !**p).count());
    }
}

#[test]
fn unfolded_lists_ascend_and_touch_something() {
    let mut random = Random::given();
    for _ in 0..500 {
        let (_, unfolding) = unfolding_net(&mut random);
        for number in 0..unfolding.events.len().min(300) {
            let event = unfolding.event(number as u16).unwrap();
            assert!(event.preconditions.windows(2).all(|pair| pair[0] < pair[1]));
            assert!(event
                .postconditions
                .windows(2)
                .all(|pair| pair[0] < pair[1]));
            assert!(!event.preconditions.is_empty() || !event.postconditions.is_empty());
        }
    }
}

#[test]
fn an_exchange_keeps_the_end_and_lifts_differ_by_it_alone() {
    let mut random = Random::given();
    let (mut made, mut repeated) = (0, 0);
    for _ in 0..10_000 {
        let (net, _) = unfolding_net(&mut random);
        let table = table_bytes(&net);
        let run = firing_run(&mut random, &net, true);
        let k = random.below(run.len());
        let Ok(other) = exchange(&table, &run, k) else {
            continue;
        };
        made += 1;
        repeated += usize::from(!repeats(&net, &run).is_empty());
        let mut swapped = run.clone();
        swapped.swap(k, k + 1);
        assert_eq!(other, swapped);
        assert_eq!(replay(&table, &other), replay(&table, &run));
        let mut lifted = lift(&table, &run).unwrap();
        lifted.swap(k, k + 1);
        assert_eq!(lift(&table, &other), Ok(lifted));
        assert_eq!(exchange(&table, &other, k), Ok(run));
    }
    assert!(made > 500 && repeated > 100, "{made} {repeated}");
}

#[test]
fn an_exchange_keeps_whether_a_run_lifts() {
    let mut random = Random::given();
    let (mut lifted, mut refusals) = (0, 0);
    for _ in 0..6_000 {
        let (net, _) = unfolding_net(&mut random);
        let table = table_bytes(&net);
        let run = firing_run(&mut random, &net, false);
        let k = random.below(run.len());
        let Ok(other) = exchange(&table, &run, k) else {
            continue;
        };
        let numbers = [run, other].map(|run| lift(&table, &run).map_err(|refusal| refusal.number));
        match numbers {
            [Ok(_), Ok(_)] => lifted += 1,
            [Err(15), Err(15)] => refusals += 1,
            differ => panic!("{net:?} {differ:?}"),
        }
    }
    assert!(lifted > 100 && refusals > 100, "{lifted} {refusals}");
}

#[test]
fn nets_near_the_limits_lift_or_give_13_or_14() {
    let mut random = Random::given();
    let (mut accepted, mut over) = (0, 0);
    for _ in 0..60 {
        let net = limit_net(&mut random);
        let table = table_bytes(&net);
        let run = firing_run(&mut random, &net, true);
        let counted = counts(&net);
        let touches = |e: &Event| {
            let seen = |b: &u16| !net.persistent[usize::from(*b)] || !users(&net, *b).is_empty();
            !e.preconditions.is_empty() || e.postconditions.iter().any(seen)
        };
        if let Some(idle) = net.events.iter().position(|e| !touches(e)) {
            assert_eq!(lift(&table, &run), refused(13, idle));
            continue;
        }
        if counted.events > 65_535 || counted.conditions > 65_535 {
            assert_eq!(lift(&table, &run), refused(14, 0));
            over += 1;
            continue;
        }
        let lifted = lift(&table, &run).unwrap();
        assert_eq!(project(&table, &lifted), Ok(run));
        accepted += 1;
    }
    assert!(accepted > 5 && over > 5, "{accepted} {over}");
}

#[test]
fn a_refused_exchange_misses_a_premise() {
    let mut random = Random::given();
    for _ in 0..3_000 {
        let (net, _) = unfolding_net(&mut random);
        let run = firing_run(&mut random, &net, false);
        if run.len() < 2 {
            continue;
        }
        let k = random.below(run.len() - 1);
        let before = play(&net, net.start(), &run[..k]).unwrap();
        let allowed = may_exchange(&net, &before, run[k], run[k + 1]);
        let answer = exchange(&table_bytes(&net), &run, k);
        assert_eq!(answer.is_ok(), allowed);
        assert!(allowed || answer == refused(17, k));
    }
}

#[test]
fn run_records_are_inverse_to_each_other() {
    let mut random = Random::given();
    for _ in 0..2_000 {
        let run: Vec<u16> = (0..random.below(50)).map(|_| random.word()).collect();
        let record = written(7, 200, |out| write_run(&run, out)).unwrap();
        assert_eq!(written(777, 60, |out| read_run(&record, out)), Ok(run));
    }
}

/// Makes every call on a table with generated runs and markings; each answer must come without a panic and keep what it must.
fn every_call(random: &mut Random, table: &[u8], net: &Net) {
    let way = any_walk(random);
    let run = walk(random, net, net.events.len(), &way);
    let marking = any_marking(random, net.persistent.len());
    let (number, k) = (random.word() % 300, random.below(run.len() + 2));
    let played = replay(table, &run);
    if let Err(refusal) = replay_from(table, &marking, &[]) {
        assert_eq!(fire(table, &marking, number), Err(refusal));
    }
    let _ = replay_from(table, &marking, &run);
    let _ = exchange(table, &run, k);
    let _ = fire_unfolded(table, &marking, number);
    let _ = replay_unfolded(table, &run);
    let _ = unfolded_lists(table, number);
    let _ = (
        calls::preconditions(table, number),
        calls::postconditions(table, number),
    );
    let _ = listing(table, table);
    if lift(table, &run).is_ok() {
        assert!(played.is_ok());
    }
}

#[test]
fn every_call_answers_on_any_table() {
    let mut random = Random::given();
    for _ in 0..1_000 {
        let net = any_net(&mut random);
        every_call(&mut random, &table_bytes(&net), &net);
    }
}

#[test]
fn every_call_answers_on_damaged_and_random_bytes() {
    let mut random = Random::given();
    for _ in 0..1_000 {
        let net = small_net(&mut random);
        let damaged = damaged(&mut random, &net);
        every_call(&mut random, &damaged.bytes, &net);
        let count = random.below(40);
        let bytes = random.bytes(count);
        every_call(&mut random, &bytes, &net);
    }
}
