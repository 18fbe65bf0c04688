//! Points that the requirements leave open, as they are read.

use second::calls;
use second::records::{record_bytes, word_bytes, CONDITIONS, EVENT, MARKING};
use second::table::{event_bytes, table_bytes};
use second::unfolding::Marker;
use second::unfolding::Marker::{ByEvent, Start};

use crate::common::*;

#[test]
fn exchange_at_the_largest_number_does_not_overflow() {
    let table = net_a(&[0]);
    assert_eq!(
        exchange(&table, &[0, 1], usize::MAX),
        refused(10, usize::MAX)
    );
    assert_eq!(
        exchange(&table, &[0, 1], usize::MAX - 1),
        refused(10, usize::MAX - 1)
    );
    assert_eq!(exchange(&table, &[], 0), refused(10, 0));
}

#[test]
fn exchange_of_two_steps_of_one_event_gives_17() {
    assert_eq!(exchange(&net_c(), &[0, 0], 0), refused(17, 0));
}

#[test]
fn exchange_does_not_concern_the_unfolding() {
    let events: [(&[u16], &[u16]); 3] = [(&[], &[0]), (&[1], &[]), (&[2], &[])];
    let table = table_bytes(&net(&[1, 0, 0], &events, &[1, 2]));
    assert_eq!(counts(&table), refused(13, 0));
    assert_eq!(exchange(&table, &[1, 2, 0], 0), Ok(vec![2, 1, 0]));
}

#[test]
fn all_steps_come_before_a_repeat() {
    let table = net_b();
    assert_eq!(lift(&table, &[0, 0, 1, 1, 0, 1, 1, 2]), refused(10, 7));
    let events: [(&[u16], &[u16]); 3] = [(&[], &[0]), (&[0], &[1]), (&[2], &[])];
    let table = table_bytes(&net(&[1, 0, 0], &events, &[]));
    assert_eq!(lift(&table, &[0, 0, 1, 1]), refused_by(12, 3, 1));
    assert_eq!(lift(&table, &[0, 0, 1, 2]), refused_by(11, 3, 2));
    assert_eq!(lift(&table, &[0, 0, 1, 0]), refused(15, 1));
}

#[test]
fn the_place_of_15_is_the_first_second_occurrence() {
    let events: [(&[u16], &[u16]); 3] = [(&[], &[0]), (&[], &[1]), (&[0, 1], &[])];
    let table = table_bytes(&net(&[1, 1], &events, &[]));
    assert_eq!(lift(&table, &[0, 1, 2, 2, 1, 0, 1]), refused(15, 4));
}

/// Net S: event 0 uses and marks [0], which event 1 marks too; events 0 and 2 use [1], which event 3 marks; [3] is used by no event.
fn net_s(start: &[u16]) -> Vec<u8> {
    let events: [(&[u16], &[u16]); 4] = [
        (&[0, 1], &[0, 3]),
        (&[2], &[0, 3]),
        (&[1], &[]),
        (&[2], &[1, 2]),
    ];
    table_bytes(&net(&[1, 1, 0, 1], &events, start))
}

#[test]
fn a_later_occurrence_picks_itself_only_for_what_it_marks() {
    let number = |markers: &[Marker]| calls::event_number(&net_s(&[]), 0, markers).unwrap();
    let table = net_s(&[0, 1, 2]);
    let (first, later) = (number(&[Start, Start]), number(&[ByEvent(0), Start]));
    assert_eq!(lift(&table, &[0, 0, 0]), Ok(vec![first, later, later]));
    let table = net_s(&[2]);
    let (first, later) = (
        number(&[ByEvent(1), ByEvent(3)]),
        number(&[ByEvent(0), ByEvent(3)]),
    );
    let lifted = lift(&table, &[3, 1, 0, 0, 0]).unwrap();
    assert_eq!(lifted[2..], [first, later, later]);
}

#[test]
fn repeats_that_lift_are_passed_over_by_15() {
    let table = net_s(&[0, 1, 2]);
    assert_eq!(lift(&table, &[0, 0, 2, 2, 3, 0, 3]), refused(15, 6));
    assert_eq!(lifted_end(&table, &[3, 0, 0, 3, 0, 3]), refused(15, 3));
    assert_eq!(lift(&table, &[0, 0, 3, 3, 0, 4]), refused(10, 5));
    assert_eq!(lift(&table, &[0, 0, 3, 3, 1, 3]), refused_by(11, 5, 2));
}

#[test]
fn what_no_event_uses_may_be_marked_again() {
    let table = table_bytes(&net(&[0, 1], &[(&[0], &[0, 1])], &[0]));
    assert_eq!(lift(&table, &[0, 0, 0]), Ok(vec![0, 0, 0]));
    let events: [(&[u16], &[u16]); 2] = [(&[0], &[0, 1]), (&[0, 1], &[0])];
    let table = table_bytes(&net(&[0, 1], &events, &[0, 1]));
    assert_eq!(lift(&table, &[0, 1, 1, 0]), refused(15, 3));
}

#[test]
fn one_condition_that_another_event_uses_is_enough_for_15() {
    let events: [(&[u16], &[u16]); 2] = [(&[0, 1], &[0, 1, 2]), (&[1], &[])];
    let table = table_bytes(&net(&[1, 1, 1], &events, &[0, 1]));
    assert_eq!(lift(&table, &[0, 1, 0]), refused(15, 2));
    let alone = table_bytes(&net(&[1, 1, 1], &events[..1], &[0, 1]));
    assert_eq!(lift(&alone, &[0, 0]), Ok(vec![0, 3]));
}

#[test]
fn a_wrong_length_has_the_number_of_conditions_as_place() {
    let table = net_a(&[0]);
    for length in [0, 1, 3, 5, 300] {
        assert_eq!(fire(&table, &vec![9; length], 0), refused(18, 4));
    }
    assert_eq!(
        written(7, 100, |out| calls::replay(&table, &[], out)),
        Ok(vec![1, 0, 0, 0])
    );
}

#[test]
fn a_table_that_ends_early_gives_1_where_a_record_was_due() {
    assert_eq!(calls::judge(&[]), refused(1, 0));
    assert_eq!(calls::judge(&net_a(&[0])[..8]), refused(1, 8));
    assert_eq!(calls::judge(&net_a(&[0])[..48]), refused(1, 48));
}

#[test]
fn after_the_marking_anything_is_9() {
    let event = event_bytes(&event(&[0], &[]));
    let marking = record_bytes(MARKING, &[]);
    for rest in [vec![1], vec![255; 3], event, marking] {
        let table = [net_a(&[0]), rest].concat();
        assert_eq!(calls::judge(&table), refused(9, 54));
    }
}

#[test]
fn a_broken_257th_event_gives_1_2_or_6() {
    let one = event_bytes(&event(&[0], &[]));
    let before = [
        record_bytes(CONDITIONS, &[0]),
        vec![one.clone(); 256].concat(),
    ]
    .concat();
    let with = |rest: &[u8]| calls::judge(&[&before[..], rest].concat());
    let place = before.len();
    assert_eq!(with(&one[..one.len() - 1]), refused(1, place));
    assert_eq!(with(&record_bytes(1, &[0])), refused(2, place));
    assert_eq!(with(&record_bytes(EVENT, &[0])), refused(6, place));
    assert_eq!(
        with(&record_bytes(EVENT, &word_bytes(&[0, 0]))),
        refused(6, place)
    );
    assert_eq!(
        with(&record_bytes(EVENT, &word_bytes(&[1, 0, 5]))),
        refused(6, place)
    );
    assert_eq!(with(&record_bytes(MARKING, &[])), Ok(()));
}

#[test]
fn the_length_of_an_event_is_meant_in_whole_numbers() {
    for counts in [[32_768, 0], [0, 32_768], [65_535, 32_769], [32_768, 32_768]] {
        let event = record_bytes(EVENT, &word_bytes(&counts));
        let table = [
            record_bytes(CONDITIONS, &[0]),
            event,
            record_bytes(MARKING, &[]),
        ]
        .concat();
        assert_eq!(calls::judge(&table), refused(3, 5));
    }
}

#[test]
fn refusal_13_comes_before_14() {
    let mut both = second::generator::endless_net();
    both.persistent.push(true);
    both.events[200] = event(&[], &[16]);
    assert_eq!(counts(&table_bytes(&both)), refused(13, 200));
}

#[test]
fn the_persistent_premise_alone_gives_17() {
    assert_eq!(exchange(&net_r(), &[0, 1], 0), refused(17, 0));
    assert_eq!(exchange(&net_r(), &[0, 1], 1), refused(10, 1));
    assert_eq!(exchange(&net_r(), &[1, 0], 0), refused_by(11, 0, 2));
}

#[test]
fn an_unused_persistent_condition_has_no_copies() {
    let table = table_bytes(&net(&[1, 0], &[(&[1], &[0])], &[0, 1]));
    assert_eq!(counts(&table), Ok((1, 1)));
    assert_eq!(unfolded_start(&table), Ok(vec![0]));
    assert_eq!(unfolded_lists(&table, 0), Ok((vec![0], vec![])));
    assert_eq!(lift(&table, &[0]), Ok(vec![0]));
}

#[test]
fn a_table_without_events_plays_and_unfolds() {
    let table = table_bytes(&net(&[0, 1], &[], &[0, 1]));
    assert_eq!(counts(&table), Ok((1, 0)));
    assert_eq!(replay(&table, &[]), Ok(vec![0, 1]));
    assert_eq!(replay(&table, &[0]), refused(10, 0));
    assert_eq!(unfolded_start(&table), Ok(vec![0]));
}
