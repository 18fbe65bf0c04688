//! The nets and limits of the requirements, asked of the library through the driver that the environment names.

use wire::{
    whole, Answer, Call, ConditionOrigin, Copy, Counts, Driver, Failure, Refusal, Request, START,
};

/// A record with a header.
fn record(kind: u16, payload: &[u8]) -> Vec<u8> {
    let length = payload.len() as u16;
    [&length.to_le_bytes()[..], &kind.to_le_bytes(), payload].concat()
}

/// Numbers as bytes.
fn bytes(numbers: &[u16]) -> Vec<u8> {
    numbers.iter().flat_map(|n| n.to_le_bytes()).collect()
}

/// A table: a byte for each condition, the two lists of each event, the start.
fn table(conditions: &[u8], events: &[(Vec<u16>, Vec<u16>)], start: &[u16]) -> Vec<u8> {
    let mut all = record(1, conditions);
    for (pre, post) in events {
        let counts = [pre.len() as u16, post.len() as u16];
        all.extend(record(2, &bytes(&[&counts[..], pre, post].concat())));
    }
    all.extend(record(3, &bytes(start)));
    all
}

fn net_a(start: &[u16]) -> Vec<u8> {
    let events = [
        (vec![0], vec![1, 2]),
        (vec![1, 2], vec![3]),
        (vec![3], vec![1]),
    ];
    table(&[0, 0, 1, 0], &events, start)
}

fn net_b() -> Vec<u8> {
    table(&[0, 1], &[(vec![0], vec![0, 1]), (vec![1], vec![])], &[0])
}

fn net_c() -> Vec<u8> {
    table(&[1], &[(vec![0], vec![0])], &[0])
}

/// Net S: event 0 uses and marks [0], which event 1 marks too; events 0 and 2 use [1], which event 3 marks; [3] is used by no event.
fn net_s(start: &[u16]) -> Vec<u8> {
    let events = [
        (vec![0, 1], vec![0, 3]),
        (vec![2], vec![0, 3]),
        (vec![1], vec![]),
        (vec![2], vec![1, 2]),
    ];
    table(&[1, 1, 0, 1], &events, start)
}

fn net_e(start: &[u16]) -> Vec<u8> {
    let events = [(vec![0], vec![2]), (vec![1], vec![2]), (vec![2], vec![])];
    table(&[0, 0, 1], &events, start)
}

fn net_d() -> Vec<u8> {
    let mut events: Vec<_> = (0..10).map(|k| (vec![10 + k], vec![k])).collect();
    events.push(((0..10).collect(), vec![20]));
    events.push((vec![20], vec![]));
    let conditions = [vec![1; 10], vec![0; 11]].concat();
    table(&conditions, &events, &(10..20).collect::<Vec<u16>>())
}

/// The table of 65,535 unfolded events, and what may be added to it.
fn limit(more_conditions: &[u8], more_events: &[(Vec<u16>, Vec<u16>)]) -> Vec<u8> {
    let mut events: Vec<_> = (0..15).map(|k| (vec![], vec![k])).collect();
    events.extend((4..=15).rev().map(|n| ((0..n).collect(), vec![])));
    events.extend_from_slice(more_events);
    table(&[&[1; 15], more_conditions].concat(), &events, &[])
}

/// Net P, with which the two rules part: event 0 takes and puts the ordinary 0, and events 1 and 2 read [2], which events 0 and 1 mark.
fn net_p(start: &[u16]) -> Vec<u8> {
    let events = [
        (vec![0], vec![0, 2]),
        (vec![0, 2], vec![1, 2]),
        (vec![1, 2], vec![0]),
    ];
    table(&[0, 0, 1], &events, start)
}

/// A table with a Rule record before it.
fn ruled(rule: u8, table: &[u8]) -> Vec<u8> {
    [&record(6, &[rule])[..], table].concat()
}

fn driver() -> Driver {
    Driver::open().expect("DOVETRELLIS_DRIVER names the driver, as .ci/run does")
}

/// A refusal that no condition is told with.
fn refused<T>(number: u64, place: u64) -> Answer<T> {
    let by = None;
    Err(Failure::Refused(Refusal { number, place, by }))
}

/// A refusal by a condition: 11 or 12.
fn refused_by<T>(number: u64, place: u64, condition: u64) -> Answer<T> {
    let by = Some(condition);
    Err(Failure::Refused(Refusal { number, place, by }))
}

/// The conditions that hold in a marking.
fn held(marking: &[u8]) -> Vec<usize> {
    (0..marking.len()).filter(|b| marking[*b] == 1).collect()
}

/// The lifted run of a run.
fn lifted(driver: &mut Driver, table: &[u8], run: &[u16]) -> Answer<Vec<u16>> {
    let mut output = vec![0; run.len()];
    driver.lift(table, run, &mut output)?;
    Ok(output)
}

/// What holds at the end of the lifted run of a run.
fn lifted_end(driver: &mut Driver, table: &[u8], run: &[u16]) -> Answer<Vec<usize>> {
    let conditions = driver.unfolded_counts(table)?.conditions;
    let mut output = vec![0; conditions as usize];
    driver.lift_end(table, run, &mut output)?;
    Ok(held(&output))
}

#[test]
fn net_a_is_judged_and_played() {
    let (mut driver, table) = (driver(), net_a(&[0]));
    assert_eq!(table.len(), 54);
    assert_eq!(driver.judge(&table), Ok(()));
    assert_eq!(driver.judge(&table[..53]), refused(1, 48));
    let counts = Counts {
        conditions: 4,
        events: 3,
    };
    assert_eq!(driver.counts(&table), Ok(counts));
    assert_eq!(whole(1, |out| driver.pre(&table, 1, out)), Ok(vec![1, 2]));
    assert_eq!(whole(1, |out| driver.post(&table, 0, out)), Ok(vec![1, 2]));
    assert_eq!(driver.pre(&table, 3, &mut []), refused(10, 0));
    let mut marking = [9; 4];
    assert_eq!(driver.start(&table, &mut marking), Ok(()));
    assert_eq!(marking, [1, 0, 0, 0]);
    assert_eq!(driver.can_fire(&table, &marking, 0), Ok(()));
    assert_eq!(driver.fire(&table, &mut marking, 0), Ok(()));
    assert_eq!(marking, [0, 1, 1, 0]);
    assert_eq!(
        driver.fire(&table, &mut [1, 1, 0, 0], 0),
        refused_by(12, 1, 1)
    );
    assert_eq!(
        driver.fire(&table, &mut [0, 1, 0, 0], 1),
        refused_by(11, 2, 2)
    );
    assert_eq!(driver.fire(&table, &mut [0, 1, 0], 1), refused(18, 4));
    let mut end = [9; 5];
    assert_eq!(driver.replay(&table, &[0, 1, 2, 1], &mut end), Ok(()));
    assert_eq!(end, [0, 0, 1, 1, 9]);
}

#[test]
fn net_a_is_unfolded() {
    let (mut driver, table) = (driver(), net_a(&[0]));
    let counts = Counts {
        conditions: 5,
        events: 4,
    };
    assert_eq!(driver.unfolded_counts(&table), Ok(counts));
    let lists = [
        (vec![0], vec![1, 3]),
        (vec![1, 2], vec![2, 4]),
        (vec![1, 3], vec![3, 4]),
        (vec![4], vec![1]),
    ];
    for (number, (pre, post)) in (0..).zip(lists) {
        assert_eq!(
            whole(0, |out| driver.unfolded_pre(&table, number, out)),
            Ok(pre)
        );
        assert_eq!(
            whole(0, |out| driver.unfolded_post(&table, number, out)),
            Ok(post)
        );
    }
}

#[test]
fn net_a_is_numbered_both_ways() {
    let (mut driver, table) = (driver(), net_a(&[0]));
    for number in 0..4 {
        let mut markers = [0; 16];
        let origin = driver.event_origin(&table, number, &mut markers).unwrap();
        let markers = &markers[..origin.count];
        assert_eq!(
            driver.event_number(&table, origin.event, markers),
            Ok(number)
        );
    }
    for number in 0..5 {
        let origin = driver.condition_origin(&table, number).unwrap();
        assert_eq!(driver.condition_number(&table, origin), Ok(number));
    }
    let copy = ConditionOrigin {
        condition: 2,
        copy: Some(Copy {
            marker: START,
            user: 1,
        }),
    };
    assert_eq!(driver.condition_origin(&table, 2), Ok(copy));
}

#[test]
fn net_a_is_played_unfolded() {
    let (mut driver, table) = (driver(), net_a(&[0]));
    let mut marking = [9; 5];
    assert_eq!(driver.unfolded_start(&table, &mut marking), Ok(()));
    assert_eq!(marking, [1, 0, 0, 0, 0]);
    assert_eq!(driver.unfolded_fire(&table, &mut marking, 0), Ok(()));
    assert_eq!(marking, [0, 1, 0, 1, 0]);
}

#[test]
fn net_a_is_lifted_and_projected() {
    let (mut driver, table) = (driver(), net_a(&[0]));
    let run = [0, 1, 2, 1];
    assert_eq!(lifted(&mut driver, &table, &run), Ok(vec![0, 2, 3, 2]));
    assert_eq!(lifted_end(&mut driver, &table, &run), Ok(vec![3, 4]));
    let (mut back, mut end) = ([9; 4], [9; 5]);
    assert_eq!(driver.project(&table, &[0, 2, 3, 2], &mut back), Ok(()));
    assert_eq!(back, run);
    assert_eq!(
        driver.unfolded_replay(&table, &[0, 2, 3, 2], &mut end),
        Ok(())
    );
    assert_eq!(end, [0, 0, 0, 1, 1]);
    let other = net_a(&[0, 2]);
    assert_eq!(lifted(&mut driver, &other, &[0, 1]), Ok(vec![0, 1]));
    assert_eq!(lifted_end(&mut driver, &other, &[0, 1]), Ok(vec![2, 3, 4]));
}

#[test]
fn a_firing_is_stopped_at_a_condition() {
    let (mut driver, table) = (driver(), net_a(&[0]));
    for (marking, event, expected) in [
        ([1, 1, 0, 0], 0, refused_by(12, 1, 1)),
        ([0, 1, 0, 0], 1, refused_by(11, 2, 2)),
        ([0, 0, 0, 1], 1, refused_by(11, 1, 1)),
        ([0, 1, 1, 1], 0, refused_by(11, 0, 0)),
        ([1, 1, 0, 0], 3, refused(10, 0)),
    ] {
        assert_eq!(driver.can_fire(&table, &marking, event), expected);
        let mut lent = marking;
        assert_eq!(driver.fire(&table, &mut lent, event), expected);
        assert_eq!(lent, marking);
    }
    for (marking, unfolded, expected) in [
        ([0, 1, 0, 0, 0], 1, refused_by(11, 2, 2)),
        ([0, 0, 0, 0, 0], 1, refused_by(11, 1, 1)),
        ([1, 0, 0, 1, 0], 0, refused_by(12, 3, 3)),
        ([1, 1, 0, 1, 0], 0, refused_by(12, 1, 1)),
        ([1, 1, 0, 1, 0], 4, refused(10, 0)),
    ] {
        let mut lent = marking;
        assert_eq!(driver.unfolded_fire(&table, &mut lent, unfolded), expected);
        assert_eq!(lent, marking);
    }
}

/// Every call on a run of the table that is refused at a step.
fn stopped_run(driver: &mut Driver, table: &[u8], run: &[u16], expected: Answer<()>) {
    assert_eq!(driver.replay(table, run, &mut [9; 9]), expected);
    assert_eq!(driver.exchange(table, &mut run.to_vec(), 0), expected);
    assert_eq!(driver.lift(table, run, &mut [9; 9]), expected);
    assert_eq!(driver.lift_end(table, run, &mut [9; 9]), expected);
}

/// Every call on a run of unfolded events that is refused at a step.
fn stopped_unfolded(driver: &mut Driver, table: &[u8], lifted: &[u16], expected: Answer<()>) {
    assert_eq!(driver.project(table, lifted, &mut [9; 9]), expected);
    assert_eq!(driver.unfolded_replay(table, lifted, &mut [9; 9]), expected);
}

#[test]
fn a_run_is_stopped_at_a_step_by_a_condition() {
    let mut driver = driver();
    let table = net_a(&[0]);
    stopped_run(&mut driver, &table, &[0, 2], refused_by(11, 1, 3));
    stopped_run(&mut driver, &table, &[1], refused_by(11, 0, 1));
    stopped_run(&mut driver, &table, &[0, 1, 1], refused_by(11, 2, 1));
    stopped_run(&mut driver, &table, &[0, 0], refused_by(11, 1, 0));
    stopped_run(&mut driver, &table, &[0, 3], refused(10, 1));
    stopped_run(&mut driver, &net_a(&[0, 1]), &[0], refused_by(12, 0, 1));
    let both = net_a(&[0, 3]);
    stopped_run(&mut driver, &both, &[0, 2], refused_by(12, 1, 1));
    stopped_unfolded(&mut driver, &table, &[0, 1], refused_by(11, 1, 2));
    stopped_unfolded(&mut driver, &table, &[0, 2, 2], refused_by(11, 2, 1));
    stopped_unfolded(&mut driver, &table, &[0, 4], refused(10, 1));
    stopped_unfolded(&mut driver, &both, &[0, 2], refused_by(12, 1, 4));
    stopped_unfolded(&mut driver, &net_b(), &[0, 0], refused_by(12, 1, 2));
}

#[test]
fn no_condition_is_told_with_any_other_number() {
    let mut driver = driver();
    let mut request = Request::new(Call::Replay, &net_a(&[0]));
    for (steps, lent, number) in [(&[0, 1][..], 4, 0), (&[0, 1], 3, 16), (&[0, 3], 4, 10)] {
        request.given = bytes(steps);
        request.lent = vec![9; lent];
        let reply = driver.ask(&request).unwrap();
        assert_eq!((reply.number, reply.by), (number, 0));
    }
}

#[test]
fn net_b_does_not_lift_a_repeat() {
    let mut driver = driver();
    let mut end = [9; 2];
    assert_eq!(driver.replay(&net_b(), &[0, 0], &mut end), Ok(()));
    assert_eq!(end, [1, 1]);
    assert_eq!(lifted(&mut driver, &net_b(), &[0, 0]), refused(15, 1));
    assert_eq!(lifted_end(&mut driver, &net_b(), &[0, 0]), refused(15, 1));
    assert_eq!(lifted(&mut driver, &net_b(), &[0, 1, 1, 0]), refused(15, 3));
}

#[test]
fn net_c_lifts_a_repeat_by_its_own_marker() {
    let (mut driver, table) = (driver(), net_c());
    assert_eq!(lifted(&mut driver, &table, &[0]), Ok(vec![0]));
    assert_eq!(lifted(&mut driver, &table, &[0, 0]), Ok(vec![0, 1]));
    assert_eq!(lifted_end(&mut driver, &table, &[0, 0]), Ok(vec![0, 1]));
    let longest = lifted(&mut driver, &table, &[0; 4_096]).unwrap();
    assert_eq!((longest[0], &longest[1..]), (0, &[1; 4_095][..]));
    let mut back = [9; 3];
    assert_eq!(driver.project(&table, &[0, 1, 1], &mut back), Ok(()));
    assert_eq!(back, [0, 0, 0]);
    stopped_unfolded(&mut driver, &table, &[0, 0], refused_by(12, 1, 1));
    stopped_unfolded(&mut driver, &table, &[0, 1, 0], refused_by(12, 2, 1));
}

#[test]
fn a_repeat_picks_itself_only_for_what_it_marks() {
    let mut driver = driver();
    let mut number = |markers: &[u32]| driver.event_number(&net_s(&[]), 0, markers).unwrap();
    let (by_start, then_by_start) = (number(&[START, START]), number(&[0, START]));
    let (by_events, then_by_events) = (number(&[1, 3]), number(&[0, 3]));
    assert_eq!(
        lifted(&mut driver, &net_s(&[0, 1, 2]), &[0, 0, 0]),
        Ok(vec![by_start, then_by_start, then_by_start])
    );
    let after_others = lifted(&mut driver, &net_s(&[2]), &[3, 1, 0, 0, 0]).unwrap();
    assert_eq!(
        after_others[2..],
        [by_events, then_by_events, then_by_events]
    );
}

#[test]
fn repeats_that_lift_are_passed_over_by_15() {
    let (mut driver, table) = (driver(), net_s(&[0, 1, 2]));
    let late = [0, 0, 2, 2, 3, 0, 3];
    assert_eq!(lifted(&mut driver, &table, &late), refused(15, 6));
    assert_eq!(lifted_end(&mut driver, &table, &late), refused(15, 6));
    let unknown = [0, 0, 3, 3, 0, 4];
    assert_eq!(lifted(&mut driver, &table, &unknown), refused(10, 5));
    let stopped = [0, 0, 3, 3, 1, 3];
    assert_eq!(lifted(&mut driver, &table, &stopped), refused_by(11, 5, 2));
}

#[test]
fn what_no_event_uses_may_be_marked_again() {
    let mut driver = driver();
    let unused = table(&[0, 1], &[(vec![0], vec![0, 1])], &[0]);
    assert_eq!(lifted(&mut driver, &unused, &[0, 0, 0]), Ok(vec![0, 0, 0]));
}

#[test]
fn net_e_is_exchanged() {
    let mut driver = driver();
    let mut run = [0, 1, 2];
    assert_eq!(
        driver.exchange(&net_e(&[0, 1]), &mut run, 0),
        refused(17, 0)
    );
    let table = net_e(&[0, 1, 2]);
    assert_eq!(driver.exchange(&table, &mut run, 0), Ok(()));
    assert_eq!(run, [1, 0, 2]);
    assert_eq!(lifted(&mut driver, &table, &run), Ok(vec![1, 0, 2]));
    assert_eq!(
        driver.exchange(&table, &mut run, u64::MAX),
        refused(10, u64::MAX)
    );
    let table = net_e(&[0, 1]);
    assert_eq!(lifted(&mut driver, &table, &[0, 1, 2]), Ok(vec![0, 1, 3]));
    assert_eq!(lifted(&mut driver, &table, &[1, 0, 2]), Ok(vec![1, 0, 4]));
    assert_eq!(lifted_end(&mut driver, &table, &[1, 0, 2]), Ok(vec![3, 4]));
}

#[test]
fn net_d_needs_more_than_ten_bits() {
    let (mut driver, table) = (driver(), net_d());
    let counts = Counts {
        conditions: 31,
        events: 1_035,
    };
    assert_eq!(driver.unfolded_counts(&table), Ok(counts));
    assert_eq!(driver.event_number(&table, 11, &[]), Ok(1_034));
}

#[test]
fn the_limits_hold() {
    let mut driver = driver();
    let counts = driver.unfolded_counts(&limit(&[], &[])).unwrap();
    assert_eq!(counts.events, 65_535);
    let one_more = limit(&[0], &[(vec![], vec![15])]);
    assert_eq!(driver.unfolded_counts(&one_more), refused(14, 0));
    let idle = limit(&[1], &[(vec![], vec![15])]);
    assert_eq!(driver.unfolded_counts(&idle), refused(13, 27));
    let mut end = [9; 16];
    assert_eq!(driver.replay(&idle, &[], &mut end), Ok(()));
    assert_eq!(end, [0; 16]);
    let mut run = vec![0; 4_097];
    assert_eq!(driver.exchange(&idle, &mut run, 0), refused(3, 0));
}

#[test]
fn a_rule_record_is_judged() {
    let (mut driver, net) = (driver(), net_a(&[0]));
    for rule in [0, 1] {
        assert_eq!(driver.judge(&ruled(rule, &net)), Ok(()));
        assert_eq!(driver.judge(&ruled(rule, &[])), refused(1, 5));
        assert_eq!(driver.judge(&ruled(rule, &net[..53])), refused(1, 53));
        assert_eq!(driver.judge(&ruled(rule, &ruled(0, &net))), refused(2, 5));
        assert_eq!(
            driver.judge(&ruled(rule, &record(2, &[0; 4]))),
            refused(2, 5)
        );
        let longer = [&ruled(rule, &net)[..], &[0]].concat();
        assert_eq!(driver.judge(&longer), refused(9, 59));
    }
    for length in 0..5 {
        assert_eq!(driver.judge(&record(6, &[9])[..length]), refused(1, 0));
    }
    for payload in [&[][..], &[0, 0], &[9; 257]] {
        let broken = [record(6, payload), net.clone()].concat();
        assert_eq!(driver.judge(&broken), refused(3, 0));
    }
    for rule in [2, 255] {
        assert_eq!(driver.judge(&ruled(rule, &net)), refused(4, 0));
    }
    for (at, place) in [(8, 8), (22, 22), (48, 48)] {
        let misplaced = [&net[..at], &record(6, &[1]), &net[at..]].concat();
        assert_eq!(driver.judge(&misplaced), refused(2, place));
    }
    let last = [&net[..], &record(6, &[1])].concat();
    assert_eq!(driver.judge(&last), refused(9, 54));
    assert_eq!(driver.judge(&record(262, &[1])), refused(2, 0));
}

#[test]
fn a_rule_record_moves_no_number() {
    let mut driver = driver();
    for rule in [0, 1] {
        let (bare, table) = (net_a(&[0]), ruled(rule, &net_a(&[0])));
        assert_eq!(driver.counts(&table), driver.counts(&bare));
        assert_eq!(
            driver.unfolded_counts(&table),
            driver.unfolded_counts(&bare)
        );
        assert_eq!(whole(0, |out| driver.pre(&table, 1, out)), Ok(vec![1, 2]));
        assert_eq!(whole(0, |out| driver.post(&table, 0, out)), Ok(vec![1, 2]));
        assert_eq!(
            whole(0, |out| driver.unfolded_post(&table, 2, out)),
            Ok(vec![3, 4])
        );
        let run = [0, 1, 2, 1];
        assert_eq!(lifted(&mut driver, &table, &run), Ok(vec![0, 2, 3, 2]));
        assert_eq!(lifted_end(&mut driver, &table, &run), Ok(vec![3, 4]));
        assert_eq!(driver.element_count(&table), Ok(38));
    }
}

#[test]
fn by_the_old_rule_a_condition_that_is_taken_and_put_blocks() {
    let (mut driver, net) = (driver(), net_p(&[0]));
    for paper in [net.clone(), ruled(0, &net)] {
        assert_eq!(driver.can_fire(&paper, &[1, 0, 0], 0), Ok(()));
        assert_eq!(lifted(&mut driver, &paper, &[0, 1, 2]), Ok(vec![0, 2, 5]));
    }
    let old = ruled(1, &net);
    assert_eq!(driver.fire(&old, &mut [1, 0, 0], 0), refused_by(12, 0, 0));
    assert_eq!(driver.fire(&old, &mut [0, 0, 0], 0), refused_by(11, 0, 0));
    let mut start = [1, 0, 0, 0, 0, 0, 0, 0];
    assert_eq!(
        driver.unfolded_fire(&old, &mut start, 0),
        refused_by(12, 0, 0)
    );
    stopped_run(&mut driver, &old, &[0, 1, 2], refused_by(12, 0, 0));
    stopped_unfolded(&mut driver, &old, &[0, 2, 5], refused_by(12, 0, 0));
    let marked = ruled(1, &net_p(&[0, 2]));
    assert_eq!(lifted(&mut driver, &marked, &[1, 2]), Ok(vec![1, 4]));
    assert_eq!(
        lifted_end(&mut driver, &marked, &[1, 2]),
        Ok(vec![0, 2, 3, 6, 7])
    );
    stopped_run(&mut driver, &marked, &[1, 2, 0], refused_by(12, 2, 0));
    stopped_unfolded(&mut driver, &marked, &[1, 4, 0], refused_by(12, 2, 0));
}

#[test]
fn by_the_old_rule_copies_are_given_back_and_the_lowest_is_told() {
    let mut driver = driver();
    let own = ruled(1, &net_c());
    assert_eq!(lifted(&mut driver, &own, &[0, 0, 0]), Ok(vec![0, 1, 1]));
    assert_eq!(driver.fire(&own, &mut [1], 0), Ok(()));
    stopped_unfolded(&mut driver, &own, &[0, 0], refused_by(12, 1, 1));
    let net = table(&[0; 4], &[(vec![1, 3], vec![0, 1, 2, 3])], &[]);
    let old = ruled(1, &net);
    for (mut marking, paper_stop, old_stop) in [
        ([0, 1, 0, 1], Ok(()), refused_by(12, 1, 1)),
        ([0, 1, 1, 1], refused_by(12, 2, 2), refused_by(12, 1, 1)),
        ([1, 1, 0, 1], refused_by(12, 0, 0), refused_by(12, 0, 0)),
        ([1, 1, 1, 0], refused_by(11, 3, 3), refused_by(11, 3, 3)),
    ] {
        assert_eq!(driver.can_fire(&net, &marking, 0), paper_stop);
        assert_eq!(driver.can_fire(&old, &marking, 0), old_stop);
        assert_eq!(driver.unfolded_fire(&old, &mut marking, 0), old_stop);
    }
}

#[test]
fn records_are_read_and_written() {
    let mut driver = driver();
    let run = [0, 1, 2, 1];
    let record = whole(0, |out| driver.write_run(&run, out)).unwrap();
    assert_eq!(record, [8, 0, 4, 0, 0, 0, 1, 0, 2, 0, 1, 0]);
    assert_eq!(
        whole(0, |out| driver.read_run(&record, out)),
        Ok(run.to_vec())
    );
    assert_eq!(driver.read_lifted(&record, &mut []), refused(2, 0));
    let record = whole(0, |out| driver.write_lifted(&run, out)).unwrap();
    assert_eq!(
        whole(0, |out| driver.read_lifted(&record, out)),
        Ok(run.to_vec())
    );
    assert_eq!(driver.write_lifted(&run, &mut [0; 11]), refused(16, 12));
}

/// The net of two hands: event 0 marks [2], which event 3 uses, and condition 5 holds only after event 0 came twice.
fn net_of_hands() -> Vec<u8> {
    let events = [
        (vec![0], vec![1, 2]),
        (vec![1, 3], vec![0, 4]),
        (vec![1, 4], vec![0, 5]),
        (vec![2, 6], vec![7]),
    ];
    table(&[0, 0, 1, 0, 0, 0, 0, 0], &events, &[0, 3, 6])
}

/// The lossy events of a table.
fn lossy(driver: &mut Driver, table: &[u8]) -> Answer<Vec<usize>> {
    let mut output = [9; 257];
    driver.lossy(table, &mut output)?;
    let events = driver.counts(table)?.events as usize;
    assert!(output[..events].iter().all(|byte| *byte <= 1));
    assert!(output[events..].iter().all(|byte| *byte == 9));
    Ok(held(&output[..events]))
}

#[test]
fn lossy_events_are_told() {
    let mut driver = driver();
    let hands = net_of_hands();
    assert_eq!(lossy(&mut driver, &hands), Ok(vec![0]));
    let run = [0, 1, 0, 2];
    let mut end = [9; 8];
    assert_eq!(driver.replay(&hands, &run, &mut end), Ok(()));
    assert_eq!(held(&end), [0, 2, 5, 6]);
    assert_eq!(lifted(&mut driver, &hands, &run), refused(15, 2));
    for table in [net_a(&[0]), net_b(), net_c(), net_d(), net_e(&[0, 1])] {
        assert_eq!(lossy(&mut driver, &table), Ok(vec![]));
    }
    assert_eq!(lossy(&mut driver, &ruled(1, &hands)), Ok(vec![0]));
    assert_eq!(lossy(&mut driver, &limit(&[0], &[])), Ok(vec![]));
    let mut short = [9; 3];
    assert_eq!(driver.lossy(&hands, &mut short), refused(16, 4));
    assert_eq!(driver.lossy(&hands[..20], &mut short), refused(1, 12));
    assert_eq!(short, [9; 3]);
}

/// An element of the export as text.
fn element(driver: &mut Driver, table: &[u8], number: u64) -> Answer<String> {
    let bytes = whole(60, |out| driver.element(table, number, out))?;
    Ok(String::from_utf8_lossy(&bytes).into_owned())
}

/// The first and the last element of every export.
const OPENS: &str = "<pnml xmlns=\"http://www.pnml.org/version-2009/grammar/pnml\"><net id=\"n\" \
                     type=\"http://www.pnml.org/version-2009/grammar/ptnet\"><page id=\"g\">";
const CLOSES: &str = "</page></net></pnml>";

/// The export of net A: places, those with a token marked by a star, then transitions, then arcs.
const NET_A: [&str; 36] = [
    "p0*", "p1", "p2", "p3", "p4", "q0", "q1*", "q2*", "q3*", "q4*", "t0", "t1", "t2", "t3",
    "p0 t0", "q1 t0", "q3 t0", "t0 p1", "t0 p3", "t0 q0", "p1 t1", "p2 t1", "q4 t1", "t1 p2",
    "t1 p4", "t1 q1", "p1 t2", "p3 t2", "q4 t2", "t2 p3", "t2 p4", "t2 q1", "p4 t3", "q1 t3",
    "t3 p1", "t3 q4",
];

/// The text of a part of net A's export, by its place in the list.
fn part_text(place: usize, part: &str) -> String {
    if let Some((source, target)) = part.split_once(' ') {
        let arc = place - 14;
        return format!("<arc id=\"a{arc}\" source=\"{source}\" target=\"{target}\"/>");
    }
    match (part.strip_suffix('*'), part.starts_with('t')) {
        (Some(id), _) => {
            format!("<place id=\"{id}\"><initialMarking><text>1</text></initialMarking></place>")
        }
        (None, true) => format!("<transition id=\"{part}\"/>"),
        (None, false) => format!("<place id=\"{part}\"/>"),
    }
}

#[test]
fn net_a_is_exported() {
    let (mut driver, table) = (driver(), net_a(&[0]));
    assert_eq!(driver.element_count(&table), Ok(38));
    assert_eq!(element(&mut driver, &table, 0), Ok(OPENS.to_string()));
    for (place, part) in NET_A.iter().enumerate() {
        let found = element(&mut driver, &table, 1 + place as u64);
        assert_eq!(found, Ok(part_text(place, part)));
    }
    assert_eq!(element(&mut driver, &table, 37), Ok(CLOSES.to_string()));
    for past in [38, 1 << 32, u64::MAX] {
        assert_eq!(driver.element(&table, past, &mut []), refused(10, 0));
    }
    let mut output = [9; 21];
    assert_eq!(
        driver.element(&table, 37, &mut output[..19]),
        refused(16, 20)
    );
    assert_eq!(output, [9; 21]);
    assert_eq!(driver.element(&table, 37, &mut output), Ok(20));
    assert_eq!(output[20], 9);
}

#[test]
fn a_net_without_places_and_transitions_has_two_elements() {
    let (mut driver, table) = (driver(), table(&[1], &[], &[]));
    assert_eq!(driver.element_count(&table), Ok(2));
    assert_eq!(element(&mut driver, &table, 0), Ok(OPENS.to_string()));
    assert_eq!(element(&mut driver, &table, 1), Ok(CLOSES.to_string()));
    assert_eq!(driver.element(&table, 2, &mut []), refused(10, 0));
}

#[test]
fn by_the_old_rule_the_second_place_is_taken_and_put_back() {
    let (mut driver, net) = (driver(), net_p(&[0]));
    let old = ruled(1, &net);
    let count = driver.element_count(&net).unwrap();
    assert_eq!(driver.element_count(&ruled(0, &net)), Ok(count));
    assert_eq!(driver.element_count(&old), Ok(count + 2));
    let first = 1 + 2 * 8 + 7;
    let arcs = [
        "p0 t0", "q0 t0", "q4 t0", "q5 t0", "t0 p0", "t0 p4", "t0 p5", "t0 q0",
    ];
    for (place, arc) in arcs.iter().enumerate() {
        let found = element(&mut driver, &old, first + place as u64);
        assert_eq!(found, Ok(part_text(14 + place, arc)));
    }
    let ends =
        |text: Answer<String>| text.map(|text| text[text.find(" source=").unwrap()..].to_string());
    for number in first + 8..count + 1 {
        let one = ends(element(&mut driver, &old, number));
        assert_eq!(one, ends(element(&mut driver, &net, number - 2)));
    }
    assert_eq!(
        element(&mut driver, &old, count + 1),
        Ok(CLOSES.to_string())
    );
    assert_eq!(element(&mut driver, &old, count + 2), refused(10, 0));
}

#[test]
fn the_export_keeps_its_limits() {
    let (mut driver, table) = (driver(), limit(&[], &[]));
    let (places, events, arcs) = (2 * 228, 65_535, 1_835_172);
    let count = 2 + places + events + arcs;
    assert_eq!(driver.element_count(&table), Ok(count));
    let transition = "<transition id=\"t65534\"/>".to_string();
    assert_eq!(
        element(&mut driver, &table, places + events),
        Ok(transition)
    );
    let last = "<arc id=\"a1835171\" source=\"t65534\" target=\"p95\"/>".to_string();
    assert_eq!(element(&mut driver, &table, count - 2), Ok(last));
    assert_eq!(element(&mut driver, &table, count), refused(10, 0));
    let one_more = limit(&[0], &[(vec![], vec![15])]);
    assert_eq!(driver.element_count(&one_more), refused(14, 0));
    let idle = limit(&[1], &[(vec![], vec![15])]);
    assert_eq!(driver.element(&idle, 0, &mut []), refused(13, 27));
}
