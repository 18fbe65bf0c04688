//! The rule of a table: how its record is read, where the two rules part, and what stays the same (02, No. 4).

use second::calls;
use second::export::Doubled;
use second::game::{play, Game};
use second::generator::{
    any_marking, any_net, any_walk, damaged, middle_net, repeating_net, small_net, walk, Random,
    Walk,
};
use second::listing::listing;
use second::records::{record_bytes, word_bytes, CONDITIONS, EVENT, MARKING, RULE, RUN};
use second::refusal::{Answer, Refusal};
use second::table::{read_table, table_bytes, Net, Rule};
use second::unfolding::{counts, unfold, Unfolding};

use crate::common::*;

/// The bytes of a Rule record.
fn rule_record(byte: u8) -> Vec<u8> {
    record_bytes(RULE, &[byte])
}

/// A table with a Rule record before it.
fn ruled(byte: u8, table: &[u8]) -> Vec<u8> {
    [&rule_record(byte)[..], table].concat()
}

/// Net P, with which the two rules part: event 0 takes and puts the ordinary 0, and events 1 and 2 read [2], which events 0 and 1 mark.
fn net_p(start: &[u16]) -> Vec<u8> {
    let events: [(&[u16], &[u16]); 3] = [(&[0], &[0, 2]), (&[0, 2], &[1, 2]), (&[1, 2], &[0])];
    table_bytes(&net(&[0, 0, 1], &events, start))
}

// ---- the record

#[test]
fn a_rule_record_has_these_5_bytes_and_states_its_rule() {
    assert_eq!(rule_record(1), [1, 0, 6, 0, 1]);
    let table = net_a(&[0]);
    let rule_of = |bytes: &[u8]| read_table(bytes).unwrap().net.rule;
    assert_eq!(rule_of(&table), None);
    assert_eq!(rule_of(&ruled(0, &table)), Some(Rule::Paper));
    assert_eq!(rule_of(&ruled(1, &table)), Some(Rule::Old));
    assert_eq!(read_table(&table).unwrap().net.rule(), Rule::Paper);
}

#[test]
fn a_broken_rule_record_is_refused_at_0_by_1_then_3_then_4() {
    for length in 0..5 {
        assert_eq!(calls::judge(&rule_record(1)[..length]), refused(1, 0));
        assert_eq!(calls::judge(&rule_record(9)[..length]), refused(1, 0));
    }
    assert_eq!(calls::judge(&[3, 0, 6, 0, 9, 9]), refused(1, 0));
    for payload in [&[][..], &[0, 0], &[1, 0], &[9, 9], &[0; 256], &[1; 257]] {
        let table = [record_bytes(RULE, payload), net_a(&[0])].concat();
        assert_eq!(calls::judge(&table), refused(3, 0));
    }
    for byte in 2..=255 {
        assert_eq!(calls::judge(&ruled(byte, &net_a(&[0]))), refused(4, 0));
        assert_eq!(calls::judge(&rule_record(byte)), refused(4, 0));
    }
}

#[test]
fn after_a_rule_record_the_conditions_are_due_at_5() {
    for byte in [0, 1] {
        let with = |rest: &[u8]| calls::judge(&ruled(byte, rest));
        assert_eq!(with(&[]), refused(1, 5));
        assert_eq!(with(&net_a(&[0])[..7]), refused(1, 5));
        for kind in [0, 2, 3, 4, 5, 7, 257, 262] {
            assert_eq!(with(&record_bytes(kind, &[0])), refused(2, 5));
        }
        assert_eq!(with(&ruled(0, &net_a(&[0]))), refused(2, 5));
        assert_eq!(with(&ruled(1, &net_a(&[0]))), refused(2, 5));
        assert_eq!(with(&ruled(9, &[])), refused(2, 5));
        assert_eq!(with(&rule_record(1)[..4]), refused(1, 5));
        assert_eq!(with(&record_bytes(CONDITIONS, &[])), refused(3, 5));
        assert_eq!(with(&record_bytes(CONDITIONS, &[2])), refused(4, 5));
    }
}

#[test]
fn a_rule_record_stands_nowhere_but_first() {
    let (conditions, marking) = (
        record_bytes(CONDITIONS, &[0]),
        record_bytes(MARKING, &word_bytes(&[0])),
    );
    let event = record_bytes(EVENT, &word_bytes(&[1, 0, 0]));
    let judged = |records: &[&[u8]]| calls::judge(&records.concat());
    for rule in [rule_record(0), rule_record(1), record_bytes(RULE, &[9; 3])] {
        assert_eq!(judged(&[&conditions, &rule, &marking]), refused(2, 5));
        assert_eq!(
            judged(&[&conditions, &event, &rule, &marking]),
            refused(2, 15)
        );
        assert_eq!(judged(&[&conditions, &marking, &rule]), refused(9, 11));
    }
    assert_eq!(judged(&[&rule_record(1), &conditions, &marking]), Ok(()));
    assert_eq!(calls::judge(&record_bytes(7, &[1])), refused(2, 0));
    assert_eq!(calls::judge(&record_bytes(RULE + 256, &[1])), refused(2, 0));
}

#[test]
fn a_rule_record_is_no_run() {
    let read = |bytes: &[u8]| written(7, 9, |out| second::records::read_run(bytes, out));
    assert_eq!(read(&rule_record(1)), refused(2, 0));
    assert_eq!(
        read(&[rule_record(0), record_bytes(RUN, &[])].concat()),
        refused(2, 0)
    );
}

#[test]
fn lists_stand_5_bytes_further_on() {
    let table = ruled(1, &net_a(&[0]));
    assert_eq!(calls::preconditions(&table, 1), Ok(&table[35..39]));
    assert_eq!(calls::postconditions(&table, 1), Ok(&table[39..41]));
    assert_eq!(calls::start_list(&table), Ok(&table[57..59]));
    let shown = calls::preconditions(&table, 0).unwrap();
    assert!(std::ptr::eq(shown, &table[21..23]));
}

// ---- where the rules part

#[test]
fn by_the_old_rule_a_condition_that_is_taken_and_put_blocks() {
    let table = net_p(&[0]);
    for paper in [table.clone(), ruled(0, &table)] {
        assert_eq!(fire(&paper, &lent(3, &[0]), 0), Ok(vec![0, 2]));
        assert_eq!(replay(&paper, &[0, 1, 2]), Ok(vec![0, 2]));
        assert_eq!(lift(&paper, &[0, 1, 2]), Ok(vec![0, 2, 5]));
        assert_eq!(project(&paper, &[0, 2, 5]), Ok(vec![0, 1, 2]));
    }
    let old = ruled(1, &table);
    assert_eq!(fire(&old, &lent(3, &[0]), 0), refused_by(12, 0, 0));
    assert_eq!(fire(&old, &lent(3, &[]), 0), refused_by(11, 0, 0));
    assert_eq!(replay(&old, &[0, 1, 2]), refused_by(12, 0, 0));
    assert_eq!(lift(&old, &[0, 1, 2]), refused_by(12, 0, 0));
    assert_eq!(lifted_end(&old, &[0, 1, 2]), refused_by(12, 0, 0));
    assert_eq!(exchange(&old, &[0, 1, 2], 0), refused_by(12, 0, 0));
    assert_eq!(project(&old, &[0, 2, 5]), refused_by(12, 0, 0));
    assert_eq!(replay_unfolded(&old, &[0, 2, 5]), refused_by(12, 0, 0));
    assert_eq!(fire_unfolded(&old, &lent(8, &[0]), 0), refused_by(12, 0, 0));
    let file = record_bytes(RUN, &word_bytes(&[0, 1, 2]));
    assert_eq!(listing(&old, &file), "refused 12 at 0 by 0\n");
}

#[test]
fn by_the_old_rule_the_rest_of_the_net_plays_and_lifts() {
    let old = ruled(1, &net_p(&[0, 2]));
    assert_eq!(replay(&old, &[1, 2]), Ok(vec![0, 2]));
    assert_eq!(lift(&old, &[1, 2]), Ok(vec![1, 4]));
    assert_eq!(lifted_end(&old, &[1, 2]), Ok(vec![0, 2, 3, 6, 7]));
    assert_eq!(project(&old, &[1, 4]), Ok(vec![1, 2]));
    assert_eq!(project(&old, &[1, 6]), Ok(vec![1, 2]));
    assert_eq!(replay(&old, &[1, 2, 0]), refused_by(12, 2, 0));
    assert_eq!(lift(&old, &[1, 2, 1]), refused(15, 2));
    assert_eq!(lift(&old, &[1, 2, 1, 2, 0]), refused_by(12, 4, 0));
    let file = record_bytes(RUN, &word_bytes(&[1, 2]));
    let expected = "start 0,2\n0 1 1 1,2\n1 2 4 0,2\nend unfolded 0,2,3,6,7\n";
    assert_eq!(listing(&old, &file), expected);
}

#[test]
fn persistent_conditions_and_their_copies_never_follow_the_old_rule() {
    let old = ruled(1, &net_c());
    assert_eq!(fire(&old, &lent(1, &[0]), 0), Ok(vec![0]));
    assert_eq!(lift(&old, &[0, 0, 0]), Ok(vec![0, 1, 1]));
    assert_eq!(fire_unfolded(&old, &lent(2, &[0]), 0), Ok(vec![0, 1]));
    assert_eq!(fire_unfolded(&old, &lent(2, &[1]), 1), Ok(vec![1]));
    assert_eq!(project(&old, &[0, 1, 1]), Ok(vec![0, 0, 0]));
    assert_eq!(project(&old, &[0, 0]), refused_by(12, 1, 1));
    let old = ruled(1, &net_a(&[0]));
    assert_eq!(lift(&old, &[0, 1, 2, 1]), Ok(vec![0, 2, 3, 2]));
    assert_eq!(lifted_end(&old, &[0, 1, 2, 1]), Ok(vec![3, 4]));
    assert_eq!(project(&old, &[0, 2, 3, 2]), Ok(vec![0, 1, 2, 1]));
}

#[test]
fn refusal_11_wins_over_the_old_12_and_the_lowest_is_told() {
    let events: [(&[u16], &[u16]); 1] = [(&[1, 3], &[0, 1, 2, 3])];
    let table = table_bytes(&net(&[0, 0, 0, 0], &events, &[]));
    let old = ruled(1, &table);
    for (held, paper_stop, old_stop) in [
        (&[1, 3][..], None, Some((12, 1))),
        (&[1, 2, 3], Some((12, 2)), Some((12, 1))),
        (&[0, 1, 3], Some((12, 0)), Some((12, 0))),
        (&[0, 1, 2], Some((11, 3)), Some((11, 3))),
        (&[0, 2, 3], Some((11, 1)), Some((11, 1))),
    ] {
        let stop = |table: &[u8]| {
            let refusal = fire(table, &lent(4, held), 0).err()?;
            Some((refusal.number, refusal.by?))
        };
        assert_eq!((stop(&table), stop(&old)), (paper_stop, old_stop));
    }
}

#[test]
fn a_run_that_is_none_by_the_old_rule_is_not_exchanged() {
    let events: [(&[u16], &[u16]); 3] = [(&[0], &[1]), (&[2], &[3]), (&[4], &[4])];
    let table = table_bytes(&net(&[0; 5], &events, &[0, 2, 4]));
    assert_eq!(exchange(&table, &[0, 1, 2], 0), Ok(vec![1, 0, 2]));
    let old = ruled(1, &table);
    assert_eq!(exchange(&old, &[0, 1, 2], 0), refused_by(12, 2, 4));
    assert_eq!(exchange(&old, &[0, 1], 0), Ok(vec![1, 0]));
    assert_eq!(exchange(&old, &[0, 1], 1), refused(10, 1));
    assert_eq!(exchange(&ruled(1, &net_r()), &[0, 1], 0), refused(17, 0));
}

// ---- the export

/// The arcs of a table's export, each as its two ids.
fn arcs(table: &[u8]) -> Vec<String> {
    let unfolding = unfold(&read_table(table).unwrap().net).unwrap();
    let elements: Vec<String> = Doubled::of(&unfolding).elements().collect();
    assert_eq!(calls::element_count(table), Ok(elements.len() as u64));
    let pair = |text: &String| {
        let words: Vec<&str> = text.split('"').collect();
        format!("{} {}", words[3], words[5])
    };
    let arcs = elements.iter().filter(|text| text.starts_with("<arc"));
    arcs.map(pair).collect()
}

#[test]
fn by_the_old_rule_the_second_place_is_taken_and_put_back() {
    let table = net_p(&[0]);
    let paper = ["p0 t0", "q4 t0", "q5 t0", "t0 p0", "t0 p4", "t0 p5"];
    let old = [
        "p0 t0", "q0 t0", "q4 t0", "q5 t0", "t0 p0", "t0 p4", "t0 p5", "t0 q0",
    ];
    assert_eq!(arcs(&table)[..6], paper);
    assert_eq!(arcs(&ruled(0, &table)), arcs(&table));
    assert_eq!(arcs(&ruled(1, &table))[..8], old);
    assert_eq!(arcs(&ruled(1, &table))[8..], arcs(&table)[6..]);
    assert_eq!(arcs(&ruled(1, &net_c())), arcs(&net_c()));
    let count = calls::element_count(&table).unwrap();
    assert_eq!(calls::element_count(&ruled(1, &table)), Ok(count + 2));
    let past = written(7, 99, |out| {
        calls::element(&ruled(1, &table), count + 2, out)
    });
    assert_eq!(past, refused(10, 0));
}

#[test]
fn second_places_stand_ascending_among_each_other() {
    let events: [(&[u16], &[u16]); 1] = [(&[0, 1, 2, 4], &[1, 3, 4, 5])];
    let table = table_bytes(&net(&[0; 6], &events, &[]));
    let old = [
        "p0 t0", "p1 t0", "p2 t0", "p4 t0", "q1 t0", "q3 t0", "q4 t0", "q5 t0", "t0 p1", "t0 p3",
        "t0 p4", "t0 p5", "t0 q0", "t0 q1", "t0 q2", "t0 q4",
    ];
    assert_eq!(arcs(&ruled(1, &table)), old);
}

/// The arcs that an unfolded event has by the old rule, told from its two lists alone: a second place for each condition that it puts or
/// takes and that is not both, or is ordinary.
fn old_arcs(unfolding: &Unfolding, number: u16) -> Vec<String> {
    let event = unfolding.event(number).unwrap();
    let ordinary = |b: &u16| unfolding.conditions[usize::from(*b)].copy.is_none();
    let both = |b: &u16| event.preconditions.contains(b) && event.postconditions.contains(b);
    let mut arcs = Vec::new();
    for (list, other, into) in [
        (&event.preconditions, &event.postconditions, true),
        (&event.postconditions, &event.preconditions, false),
    ] {
        let arc = |id: String| match into {
            true => format!("{id} t{number}"),
            false => format!("t{number} {id}"),
        };
        let second = other.iter().filter(|b| ordinary(b) || !both(b));
        arcs.extend(list.iter().map(|b| arc(format!("p{b}"))));
        arcs.extend(second.map(|b| arc(format!("q{b}"))));
    }
    arcs
}

#[test]
fn the_arcs_by_the_old_rule_are_those_of_the_lists() {
    let mut random = Random::given();
    let mut more = 0;
    for _ in 0..2_000 {
        let net = small_or_middle(&mut random);
        let Ok(unfolding) = unfold(&net) else {
            continue;
        };
        let bare = table_bytes(&net);
        let old = arcs(&ruled(1, &bare));
        let numbers = (0..=u16::MAX).take(unfolding.events.len());
        let expected: Vec<String> = numbers.flat_map(|e| old_arcs(&unfolding, e)).collect();
        assert_eq!(old, expected);
        more += usize::from(old.len() > arcs(&bare).len());
    }
    assert!(more > 300, "{more}");
}

// ---- a Rule record before any table

/// A net that states no rule, small, middle or with many repeats, of at most some thousand unfolded events.
fn small_or_middle(random: &mut Random) -> Net {
    loop {
        let net = match random.below(4) {
            0 => middle_net(random),
            1 => repeating_net(random),
            _ => small_net(random),
        };
        if counts(&net).events <= 5_000 {
            return Net { rule: None, ..net };
        }
    }
}

/// What every call on a table is asked with.
struct Asked {
    run: Vec<u16>,
    unfolded_run: Vec<u16>,
    marking: Vec<u8>,
    unfolded_marking: Vec<u8>,
    number: u16,
    k: usize,
}

/// A marking that is mostly sound, and in which mostly all preconditions of an event hold, if there is such an event.
fn marking_for<G: Game>(random: &mut Random, game: &G, number: u16) -> Vec<u8> {
    let mut marking = any_marking(random, game.persistent().len().max(1));
    let taken = game.event(number).unwrap_or_default().preconditions;
    for b in taken.into_iter().filter(|_| random.percent(95)) {
        if let Some(byte) = marking.get_mut(usize::from(b)) {
            *byte = 1;
        }
    }
    marking
}

/// Something to ask about a net: runs that mostly play by the paper's rule, markings at which an event mostly nearly fires.
fn any_asked(random: &mut Random, net: &Net) -> Asked {
    let (way, mut other) = (any_walk(random), any_walk(random));
    other.steps = other.steps.min(20);
    let number = random.below(net.events.len() + 1) as u16;
    let run = walk(random, net, net.events.len(), &way);
    let (unfolded_run, unfolded_marking) = match unfold(net) {
        Ok(unfolding) => (
            walk(random, &unfolding, unfolding.events.len(), &other),
            marking_for(random, &unfolding, number),
        ),
        Err(_) => (run.clone(), vec![1]),
    };
    Asked {
        marking: marking_for(random, net, number),
        k: random.below(run.len() + 1),
        run,
        unfolded_run,
        unfolded_marking,
        number,
    }
}

/// An answer as text, so that answers of all types stand in one list.
fn told<T: std::fmt::Debug>(answer: Answer<T>) -> Answer<String> {
    answer.map(|value| format!("{value:?}"))
}

/// The answers of the calls that fire no event.
fn still_answers(table: &[u8], asked: &Asked) -> Vec<Answer<String>> {
    let number = asked.number;
    let behind = calls::event_behind(table, number).ok();
    let copy = calls::condition_behind(table, number).ok();
    let mut answers = vec![
        told(calls::judge(table)),
        told(calls::table_counts(table)),
        told(calls::is_persistent(table, number)),
        told(calls::preconditions(table, number)),
        told(calls::postconditions(table, number)),
        told(calls::start_list(table)),
        told(written(7, 300, |out| calls::start(table, out))),
        told(calls::unfolded_counts(table)),
        told(calls::colour_count(table, number)),
        told(calls::colour_markers(table, number, asked.k)),
        told(calls::event_behind(table, number)),
        told(calls::condition_behind(table, number)),
        told(unfolded_lists(table, number)),
        told(unfolded_start(table)),
    ];
    answers.extend(behind.map(|e| told(calls::event_number(table, e.event, &e.markers))));
    answers.extend(copy.map(|c| told(calls::condition_number(table, &c))));
    answers
}

/// The answers of the calls on the table that fire its events.
fn playing_answers(table: &[u8], asked: &Asked) -> Vec<Answer<String>> {
    let run = &asked.run;
    vec![
        told(replay(table, run)),
        told(exchange(table, run, asked.k)),
        told(lift(table, run)),
        told(lifted_end(table, run)),
    ]
}

/// The answers of the calls that fire unfolded events.
fn unfolded_answers(table: &[u8], asked: &Asked) -> Vec<Answer<String>> {
    vec![
        told(project(table, &asked.unfolded_run)),
        told(replay_unfolded(table, &asked.unfolded_run)),
    ]
}

/// The answers of the calls that fire one event at a lent marking.
fn firing_answers(table: &[u8], asked: &Asked) -> [Answer<String>; 2] {
    [
        told(fire(table, &asked.marking, asked.number)),
        told(fire_unfolded(table, &asked.unfolded_marking, asked.number)),
    ]
}

/// Elements of the export: how many there are, and one of them.
fn export_answers(table: &[u8], asked: &Asked) -> Vec<Answer<String>> {
    let number = u64::from(asked.number) * 3;
    let element = written(7, 300, |out| calls::element(table, number, out));
    vec![told(calls::element_count(table)), told(element)]
}

/// The answers of all calls, and the listing.
fn all_answers(table: &[u8], asked: &Asked) -> Vec<Answer<String>> {
    let file = record_bytes(RUN, &word_bytes(&asked.run[..asked.run.len().min(4_096)]));
    let mut answers = still_answers(table, asked);
    answers.extend(playing_answers(table, asked));
    answers.extend(unfolded_answers(table, asked));
    answers.extend(firing_answers(table, asked));
    answers.extend(export_answers(table, asked));
    if calls::judge(table).is_ok() {
        answers.push(Ok(listing(table, &file)));
    }
    answers
}

#[test]
fn a_rule_record_of_0_changes_no_answer() {
    let mut random = Random::given();
    for _ in 0..1_500 {
        let net = small_or_middle(&mut random);
        let asked = any_asked(&mut random, &net);
        let bare = table_bytes(&net);
        let paper = ruled(0, &bare);
        assert_eq!(all_answers(&paper, &asked), all_answers(&bare, &asked));
        let (one, other) = (read_table(&bare).unwrap(), read_table(&paper).unwrap());
        assert_eq!(other.start_part.start, one.start_part.start + 5);
        for (one, other) in one.parts.iter().zip(&other.parts) {
            assert_eq!(other.preconditions.start, one.preconditions.start + 5);
            assert_eq!(other.postconditions.end, one.postconditions.end + 5);
        }
    }
}

/// A refusal of a table's judge as it stands once five bytes come before.
fn moved(refusal: Refusal) -> Refusal {
    Refusal {
        place: refusal.place + 5,
        ..refusal
    }
}

#[test]
fn every_refusal_of_a_table_moves_by_5() {
    let mut random = Random::given();
    let mut seen = [0; 10];
    for case in 0..6_000 {
        let mut net = match case % 100 {
            0 => any_net(&mut random),
            _ => small_net(&mut random),
        };
        net.rule = None;
        let asked = any_asked(&mut random, &small_net(&mut Random::new(case)));
        let bad = damaged(&mut random, &net);
        if bad.bytes.get(2..4) == Some(&[6, 0]) {
            continue;
        }
        seen[usize::from(bad.refusal.number)] += 1;
        for byte in [0, 1] {
            let answers = all_answers(&ruled(byte, &bad.bytes), &asked);
            let expected = Err(moved(bad.refusal));
            assert!(answers.iter().all(|answer| *answer == expected), "{net:?}");
        }
    }
    assert!(seen[1..].iter().all(|count| *count > 50), "{seen:?}");
}

// ---- the old rule, told once more

/// What stops an event by the old rule: a precondition that does not hold, else an ordinary postcondition that holds.
fn old_stop(net: &Net, marking: &[bool], number: u16) -> Option<(u8, Option<u16>)> {
    let Some(event) = net.events.get(usize::from(number)) else {
        return Some((10, None));
    };
    let conditions = (0..=u16::MAX).zip(marking.iter().zip(&net.persistent));
    for (b, (holds, _)) in conditions.clone() {
        if event.preconditions.contains(&b) && !holds {
            return Some((11, Some(b)));
        }
    }
    for (b, (holds, persistent)) in conditions {
        if event.postconditions.contains(&b) && *holds && !persistent {
            return Some((12, Some(b)));
        }
    }
    None
}

/// What stops an unfolded event by the old rule: what is missing, else what it puts and holds, but for a copy that it gives back.
fn old_unfolded_stop(
    unfolding: &Unfolding,
    marking: &[bool],
    number: u16,
) -> Option<(u8, Option<u16>)> {
    let Some(event) = unfolding.event(number) else {
        return Some((10, None));
    };
    let taken = |c: usize| event.preconditions.contains(&(c as u16));
    let put = |c: usize| event.postconditions.contains(&(c as u16));
    let given_back = |c: usize| unfolding.conditions[c].copy.is_some() && taken(c);
    let all = 0..marking.len();
    let lacking = all.clone().find(|c| taken(*c) && !marking[*c]);
    let contact = all
        .clone()
        .find(|c| put(*c) && marking[*c] && !given_back(*c));
    match (lacking, contact) {
        (Some(c), _) => Some((11, Some(c as u16))),
        (None, Some(c)) => Some((12, Some(c as u16))),
        (None, None) => None,
    }
}

/// The refusal of a run by the first step that is stopped, the steps before it being played by the paper's rule.
fn first_stopped<G: Game>(
    game: &G,
    run: &[u16],
    stop: impl Fn(&[bool], u16) -> Option<(u8, Option<u16>)>,
) -> Option<Refusal> {
    let mut marking = game.start();
    for (place, number) in run.iter().enumerate() {
        if let Some((number, by)) = stop(&marking, *number) {
            return Some(Refusal { number, place, by });
        }
        marking = play(game, marking, &[*number]).unwrap();
    }
    None
}

/// The refusal of one firing at a lent marking, where that is sound.
fn firing_stopped(
    lent: &[u8],
    conditions: usize,
    stop: impl Fn(&[bool]) -> Option<(u8, Option<u16>)>,
) -> Option<Refusal> {
    if lent.len() != conditions || lent.iter().any(|byte| *byte > 1) {
        return None;
    }
    let marking: Vec<bool> = lent.iter().map(|byte| *byte == 1).collect();
    let (number, by) = stop(&marking)?;
    let place = by.map_or(0, usize::from);
    Some(Refusal { number, place, by })
}

/// Refused as expected, or else answered as the table that states no rule is.
fn refused_or_alike(
    answers: &[Answer<String>],
    expected: Option<Refusal>,
    bare: &[Answer<String>],
) {
    match expected {
        Some(refusal) => assert!(answers.iter().all(|answer| *answer == Err(refusal))),
        None => assert_eq!(answers, bare),
    }
}

/// How often a firing or a run came to a 12 where the paper's rule gives none at that step: in the table's game and in the unfolded one.
#[derive(Default, Debug)]
struct Parted {
    fired: usize,
    unfolded_fired: usize,
    played: usize,
    unfolded_played: usize,
}

/// An answer by the old rule is a 12 that the paper's rule does not give there.
fn parts(old: &Answer<String>, bare: &Answer<String>) -> usize {
    let is_12 = |answer: &Answer<String>| answer.as_ref().is_err_and(|r| r.number == 12);
    usize::from(is_12(old) && !is_12(bare))
}

impl Parted {
    /// Holds the calls on the table's game to the old rule.
    fn hold_game(&mut self, net: &Net, bare: &[u8], asked: &Asked) {
        let old = ruled(1, bare);
        let stop = |marking: &[bool], number| old_stop(net, marking, number);
        let too_long = asked.run.len() > 4_096;
        let stopped = first_stopped(net, &asked.run, stop).filter(|_| !too_long);
        let (answers, alike) = (playing_answers(&old, asked), playing_answers(bare, asked));
        let unfolds = unfold(net).is_ok();
        let across = stopped.filter(|_| unfolds);
        refused_or_alike(&answers[..2], stopped, &alike[..2]);
        refused_or_alike(&answers[2..], across, &alike[2..]);
        self.played += parts(&answers[0], &alike[0]);
        let fired = firing_stopped(&asked.marking, net.persistent.len(), |marking| {
            old_stop(net, marking, asked.number)
        });
        let (answers, alike) = (firing_answers(&old, asked), firing_answers(bare, asked));
        refused_or_alike(&answers[..1], fired, &alike[..1]);
        self.fired += parts(&answers[0], &alike[0]);
    }

    /// Holds the calls on the unfolded game to the old rule, where the net unfolds.
    fn hold_unfolded(&mut self, net: &Net, bare: &[u8], asked: &Asked) {
        let Ok(unfolding) = unfold(net) else {
            return;
        };
        let old = ruled(1, bare);
        let stop = |marking: &[bool], number| old_unfolded_stop(&unfolding, marking, number);
        let stopped = first_stopped(&unfolding, &asked.unfolded_run, stop);
        let (answers, alike) = (unfolded_answers(&old, asked), unfolded_answers(bare, asked));
        refused_or_alike(&answers, stopped, &alike);
        self.unfolded_played += parts(&answers[0], &alike[0]);
        let conditions = unfolding.conditions.len();
        let fired = firing_stopped(&asked.unfolded_marking, conditions, |marking| {
            old_unfolded_stop(&unfolding, marking, asked.number)
        });
        let (answers, alike) = (firing_answers(&old, asked), firing_answers(bare, asked));
        refused_or_alike(&answers[1..], fired, &alike[1..]);
        self.unfolded_fired += parts(&answers[1], &alike[1]);
    }
}

#[test]
fn a_rule_record_of_1_changes_only_what_the_old_rule_stops() {
    let mut random = Random::given();
    let mut parted = Parted::default();
    for _ in 0..3_000 {
        let net = small_or_middle(&mut random);
        let asked = any_asked(&mut random, &net);
        let bare = table_bytes(&net);
        let old = ruled(1, &bare);
        assert_eq!(still_answers(&old, &asked), still_answers(&bare, &asked));
        parted.hold_game(&net, &bare, &asked);
        parted.hold_unfolded(&net, &bare, &asked);
    }
    let Parted {
        fired,
        unfolded_fired,
        played,
        unfolded_played,
    } = parted;
    let counts = [fired, unfolded_fired, played, unfolded_played];
    assert!(counts.iter().all(|count| *count > 50), "{parted:?}");
}

#[test]
fn by_the_old_rule_persistent_conditions_alone_stop_nothing() {
    let mut random = Random::given();
    let mut stepped = 0;
    for _ in 0..1_000 {
        let mut net = small_or_middle(&mut random);
        net.persistent = vec![true; net.persistent.len()];
        if net.events.iter().any(|e| e.preconditions.len() > 16) || counts(&net).events > 5_000 {
            continue;
        }
        let asked = any_asked(&mut random, &net);
        let bare = table_bytes(&net);
        assert_eq!(
            all_answers(&ruled(1, &bare), &asked),
            all_answers(&bare, &asked)
        );
        stepped += asked.run.len().min(1) + asked.unfolded_run.len().min(1);
    }
    assert!(stepped > 300, "{stepped}");
}

#[test]
fn by_the_old_rule_lifts_and_projections_go_there_and_back() {
    let mut random = Random::given();
    let (mut stepped, mut unfolded_stepped) = (0, 0);
    for _ in 0..3_000 {
        let mut net = small_or_middle(&mut random);
        net.rule = Some(Rule::Old);
        let Ok(unfolding) = unfold(&net) else {
            continue;
        };
        let table = table_bytes(&net);
        let way = Walk {
            steps: random.below(20),
            arbitrary: 0,
            avoid_repeats: true,
        };
        let run = walk(&mut random, &net, net.events.len(), &way);
        let lifted = lift(&table, &run).unwrap();
        assert_eq!(project(&table, &lifted), Ok(run.clone()));
        assert_eq!(replay_unfolded(&table, &lifted), lifted_end(&table, &run));
        let unfolded_run = walk(&mut random, &unfolding, unfolding.events.len(), &way);
        let back = project(&table, &unfolded_run).unwrap();
        assert!(replay(&table, &back).is_ok());
        stepped += run.len();
        unfolded_stepped += unfolded_run.len();
    }
    let counts = [stepped, unfolded_stepped];
    assert!(counts.iter().all(|count| *count > 3_000), "{counts:?}");
}
