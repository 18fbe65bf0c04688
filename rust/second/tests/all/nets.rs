//! Nets A to E and the errors that look right (01, Nets to test with; Errors that look right).

use second::calls;
use second::table::table_bytes;
use second::unfolding::Marker::{ByEvent, Start};
use second::unfolding::{CopyFor, UnfoldedCondition, UnfoldedEvent};

use crate::common::*;

// ---- net A

#[test]
fn net_a_has_these_54_bytes() {
    let records: [&[u8]; 5] = [
        &[4, 0, 1, 0, 0, 0, 1, 0],
        &[10, 0, 2, 0, 1, 0, 2, 0, 0, 0, 1, 0, 2, 0],
        &[10, 0, 2, 0, 2, 0, 1, 0, 1, 0, 2, 0, 3, 0],
        &[8, 0, 2, 0, 1, 0, 1, 0, 3, 0, 1, 0],
        &[2, 0, 3, 0, 0, 0],
    ];
    assert_eq!(net_a(&[0]), records.concat());
    assert_eq!(net_a(&[0]).len(), 54);
}

#[test]
fn net_a_has_5_unfolded_conditions_and_4_unfolded_events() {
    assert_eq!(counts(&net_a(&[0])), Ok((5, 4)));
}

#[test]
fn net_a_has_the_unfolded_lists() {
    let table = net_a(&[0]);
    assert_eq!(unfolded_lists(&table, 0), Ok((vec![0], vec![1, 3])));
    assert_eq!(unfolded_lists(&table, 1), Ok((vec![1, 2], vec![2, 4])));
    assert_eq!(unfolded_lists(&table, 2), Ok((vec![1, 3], vec![3, 4])));
    assert_eq!(unfolded_lists(&table, 3), Ok((vec![4], vec![1])));
    assert_eq!(unfolded_lists(&table, 4), refused(10, 0));
}

#[test]
fn net_a_replays_and_lifts_0_1_2_1() {
    let table = net_a(&[0]);
    let run = [0, 1, 2, 1];
    assert_eq!(replay(&table, &run), Ok(vec![2, 3]));
    assert_eq!(lift(&table, &run), Ok(vec![0, 2, 3, 2]));
    assert_eq!(lifted_end(&table, &run), Ok(vec![3, 4]));
    assert_eq!(replay_unfolded(&table, &[0, 2, 3, 2]), Ok(vec![3, 4]));
    assert_eq!(project(&table, &[0, 2, 3, 2]), Ok(run.to_vec()));
}

#[test]
fn net_a_from_0_2_lifts_0_1_by_the_start() {
    let table = net_a(&[0, 2]);
    assert_eq!(fire(&table, &lent(4, &[0, 2]), 0), Ok(vec![1, 2]));
    assert_eq!(lift(&table, &[0, 1]), Ok(vec![0, 1]));
    assert_eq!(lifted_end(&table, &[0, 1]), Ok(vec![2, 3, 4]));
}

#[test]
fn net_a_stops_with_12_and_11() {
    let table = net_a(&[0]);
    assert_eq!(fire(&table, &lent(4, &[0, 1]), 0), refused_by(12, 1, 1));
    assert_eq!(fire(&table, &lent(4, &[1]), 1), refused_by(11, 2, 2));
}

#[test]
fn net_a_shows_its_lists_as_parts_of_the_table() {
    let table = net_a(&[0]);
    assert_eq!(calls::preconditions(&table, 1), Ok(&table[30..34]));
    assert_eq!(calls::postconditions(&table, 1), Ok(&table[34..36]));
    assert_eq!(calls::start_list(&table), Ok(&table[52..54]));
    assert_eq!(calls::preconditions(&table, 3), refused(10, 0));
    assert_eq!(calls::postconditions(&table, 3), refused(10, 0));
    let shown = calls::preconditions(&table, 0).unwrap();
    assert!(std::ptr::eq(shown, &table[16..18]));
}

#[test]
fn net_a_has_its_counts_kinds_and_start() {
    let table = net_a(&[0]);
    let counts = calls::table_counts(&table).unwrap();
    assert_eq!((counts.conditions, counts.events), (4, 3));
    let kinds: Vec<bool> = (0..4)
        .map(|b| calls::is_persistent(&table, b).unwrap())
        .collect();
    assert_eq!(kinds, [false, false, true, false]);
    assert_eq!(calls::is_persistent(&table, 4), refused(10, 0));
    assert_eq!(
        written(7, 9, |out| calls::start(&table, out)),
        Ok(vec![1, 0, 0, 0])
    );
    assert_eq!(unfolded_start(&table), Ok(vec![0]));
}

// ---- net B

#[test]
fn net_b_fires_event_0_at_0() {
    assert_eq!(fire(&net_b(), &lent(2, &[0]), 0), Ok(vec![0, 1]));
}

#[test]
fn net_b_replays_0_0_and_does_not_lift_it() {
    assert_eq!(replay(&net_b(), &[0, 0]), Ok(vec![0, 1]));
    assert_eq!(lift(&net_b(), &[0, 0]), refused(15, 1));
    assert_eq!(lifted_end(&net_b(), &[0, 0]), refused(15, 1));
}

// ---- net C

#[test]
fn net_c_unfolds_and_lifts_0() {
    let table = net_c();
    assert_eq!(unfolded_lists(&table, 0), Ok((vec![0], vec![0, 1])));
    assert_eq!(unfolded_lists(&table, 1), Ok((vec![1], vec![1])));
    assert_eq!(lift(&table, &[0]), Ok(vec![0]));
}

#[test]
fn net_c_replays_0_0_and_lifts_it() {
    assert_eq!(replay(&net_c(), &[0, 0]), Ok(vec![0]));
    assert_eq!(lift(&net_c(), &[0, 0]), Ok(vec![0, 1]));
    assert_eq!(lifted_end(&net_c(), &[0, 0]), Ok(vec![0, 1]));
    assert_eq!(lift(&net_c(), &[0, 0, 0, 0]), Ok(vec![0, 1, 1, 1]));
}

#[test]
fn net_c_projects_0_1_to_0_0() {
    assert_eq!(project(&net_c(), &[0, 1]), Ok(vec![0, 0]));
}

// ---- net E

#[test]
fn net_e_lifts_by_the_first_marker() {
    let table = net_e(&[0, 1]);
    assert_eq!(lift(&table, &[0, 1, 2]), Ok(vec![0, 1, 3]));
    assert_eq!(lift(&table, &[1, 0, 2]), Ok(vec![1, 0, 4]));
    assert_eq!(lifted_end(&table, &[0, 1, 2]), Ok(vec![3, 4]));
    assert_eq!(lifted_end(&table, &[1, 0, 2]), Ok(vec![3, 4]));
}

#[test]
fn net_e_exchanges_only_where_the_condition_held() {
    assert_eq!(exchange(&net_e(&[0, 1]), &[0, 1, 2], 0), refused(17, 0));
    let table = net_e(&[0, 1, 2]);
    assert_eq!(exchange(&table, &[0, 1, 2], 0), Ok(vec![1, 0, 2]));
    assert_eq!(lift(&table, &[0, 1, 2]), Ok(vec![0, 1, 2]));
    assert_eq!(lift(&table, &[1, 0, 2]), Ok(vec![1, 0, 2]));
}

// ---- net D

#[test]
fn net_d_has_31_unfolded_conditions_and_1035_unfolded_events() {
    let table = net_d();
    assert_eq!(counts(&table), Ok((31, 1_035)));
    assert_eq!(calls::event_number(&table, 11, &[]), Ok(1_034));
    let behind = UnfoldedEvent {
        event: 11,
        markers: Vec::new(),
    };
    assert_eq!(calls::event_behind(&table, 1_034), Ok(behind));
    assert_eq!(calls::event_behind(&table, 1_035), refused(10, 0));
}

#[test]
fn net_d_counts_the_lowest_choice_slowest() {
    let table = net_d();
    let mut markers = [Start; 10];
    assert_eq!(calls::event_number(&table, 10, &markers), Ok(10));
    markers[9] = ByEvent(9);
    assert_eq!(calls::event_number(&table, 10, &markers), Ok(11));
    markers[9] = Start;
    markers[0] = ByEvent(0);
    assert_eq!(calls::event_number(&table, 10, &markers), Ok(522));
    assert_eq!(calls::colour_count(&table, 10), Ok(1_024));
    assert_eq!(calls::colour_markers(&table, 10, 512), Ok(markers.to_vec()));
    assert_eq!(calls::colour_markers(&table, 10, 1_024), refused(10, 0));
    assert_eq!(calls::colour_count(&table, 12), refused(10, 0));
}

#[test]
fn net_d_lifts_its_full_run() {
    let run: Vec<u16> = (0..12).collect();
    let lifted = [&run[..10], &[10 + 1_023, 1_034]].concat();
    assert_eq!(lift(&net_d(), &run), Ok(lifted));
}

// ---- two markers and two users

#[test]
fn copies_count_by_marker_then_by_user() {
    let events: [(&[u16], &[u16]); 3] = [(&[], &[0]), (&[0], &[]), (&[0], &[])];
    let table = table_bytes(&net(&[1], &events, &[]));
    let expected = [(Start, 1), (Start, 2), (ByEvent(0), 1), (ByEvent(0), 2)];
    for (number, (marker, user)) in expected.into_iter().enumerate() {
        let copy = Some(CopyFor { marker, user });
        let condition = UnfoldedCondition { condition: 0, copy };
        assert_eq!(
            calls::condition_behind(&table, number as u16),
            Ok(condition)
        );
        assert_eq!(
            calls::condition_number(&table, &condition),
            Ok(number as u16)
        );
    }
    assert_eq!(unfolded_lists(&table, 0), Ok((vec![], vec![2, 3])));
    assert_eq!(unfolded_lists(&table, 3), Ok((vec![1], vec![1])));
    assert_eq!(unfolded_lists(&table, 4), Ok((vec![3], vec![3])));
}

// ---- errors that look right

#[test]
fn numbers_are_not_cut_to_ten_bits() {
    assert_ne!(1_034 % 1_024, 1_034);
    let run: Vec<u16> = (0..12).collect();
    assert_eq!(lift(&net_d(), &run).unwrap()[11], 1_034);
}

#[test]
fn a_persistent_precondition_is_not_consumed_and_makes_no_contact() {
    assert_eq!(fire(&net_a(&[0]), &lent(4, &[1, 2]), 1), Ok(vec![2, 3]));
    assert_eq!(fire(&net_a(&[0]), &lent(4, &[0, 2]), 0), Ok(vec![1, 2]));
}

#[test]
fn the_read_copy_is_given_back() {
    assert_eq!(replay_unfolded(&net_a(&[0]), &[0, 2, 3, 2]), Ok(vec![3, 4]));
}

#[test]
fn the_start_is_a_marker() {
    assert_eq!(calls::event_number(&net_c(), 0, &[Start]), Ok(0));
    assert_eq!(calls::event_number(&net_c(), 0, &[ByEvent(0)]), Ok(1));
    assert_eq!(lift(&net_c(), &[0]), Ok(vec![0]));
}

#[test]
fn an_event_that_came_before_does_not_take_the_earliest_marker() {
    assert_eq!(project(&net_c(), &[0, 0]), refused_by(12, 1, 1));
    assert_eq!(project(&net_c(), &[0, 1, 0]), refused_by(12, 2, 1));
    assert_eq!(project(&net_c(), &[1]), refused_by(11, 0, 1));
}

#[test]
fn the_earliest_marker_is_taken_not_the_latest() {
    assert_ne!(lift(&net_e(&[0, 1, 2]), &[0, 1, 2]), Ok(vec![0, 1, 4]));
}

#[test]
fn net_a_does_not_exchange_steps_0_and_1() {
    assert_eq!(exchange(&net_a(&[0]), &[0, 1, 2, 1], 0), refused(17, 0));
}
