//! Each refusal number with its place, and which comes first (01, Refusal numbers); 11 and 12 with their condition (02, No. 2).

use second::calls;
use second::records::{record_bytes, word_bytes, CONDITIONS, EVENT, MARKING};
use second::table::{event_bytes, table_bytes};
use second::unfolding::Marker::{ByEvent, Start};
use second::unfolding::{CopyFor, Marker, UnfoldedCondition};

use crate::common::*;

/// Net A's table with one byte changed.
fn changed(place: usize, byte: u8) -> Vec<u8> {
    let mut table = net_a(&[0]);
    table[place] = byte;
    table
}

/// A table of one ordinary condition with the given Event records and an empty Marking.
fn with_events(records: &[Vec<u8>]) -> Vec<u8> {
    let first = record_bytes(CONDITIONS, &[0]);
    let last = record_bytes(MARKING, &[]);
    [first, records.concat(), last].concat()
}

/// An Event record from the numbers of its payload.
fn event_record(numbers: &[u16]) -> Vec<u8> {
    record_bytes(EVENT, &word_bytes(numbers))
}

#[test]
fn refusal_1_is_a_header_or_payload_past_the_input() {
    let table = net_a(&[0]);
    let offsets = [0, 8, 22, 36, 48];
    for length in 0..table.len() {
        let place = offsets.iter().rev().find(|o| **o <= length);
        assert_eq!(calls::judge(&table[..length]), refused(1, *place.unwrap()));
    }
    assert_eq!(calls::judge(&table), Ok(()));
}

#[test]
fn refusal_2_is_a_kind_not_allowed_there() {
    assert_eq!(calls::judge(&changed(2, 2)), refused(2, 0));
    assert_eq!(calls::judge(&changed(3, 1)), refused(2, 0));
    assert_eq!(calls::judge(&changed(10, 7)), refused(2, 8));
    assert_eq!(calls::judge(&changed(10, 1)), refused(2, 8));
    assert_eq!(calls::judge(&changed(50, 4)), refused(2, 48));
    assert_eq!(calls::judge(&changed(51, 1)), refused(2, 48));
}

#[test]
fn refusal_3_is_a_length_that_breaks_its_rule() {
    assert_eq!(calls::judge(&changed(12, 2)), refused(3, 8));
    assert_eq!(calls::judge(&changed(14, 1)), refused(3, 8));
    assert_eq!(calls::judge(&record_bytes(CONDITIONS, &[])), refused(3, 0));
    assert_eq!(
        calls::judge(&record_bytes(CONDITIONS, &[0; 257])),
        refused(3, 0)
    );
    for length in 0..4 {
        let table = with_events(&[record_bytes(EVENT, &vec![0; length])]);
        assert_eq!(calls::judge(&table), refused(3, 5));
    }
    let odd = [
        record_bytes(CONDITIONS, &[0]),
        record_bytes(MARKING, &[0; 3]),
    ]
    .concat();
    assert_eq!(calls::judge(&odd), refused(3, 5));
}

#[test]
fn refusal_4_is_a_condition_byte_above_1() {
    assert_eq!(calls::judge(&changed(6, 2)), refused(4, 0));
    assert_eq!(calls::judge(&changed(7, 255)), refused(4, 0));
}

#[test]
fn refusal_5_is_a_list_not_ascending_or_out_of_range() {
    let mut table = net_a(&[0]);
    table.swap(30, 32);
    assert_eq!(calls::judge(&table), refused(5, 22));
    assert_eq!(calls::judge(&changed(32, 1)), refused(5, 22));
    assert_eq!(calls::judge(&changed(20, 1)), refused(5, 8));
    assert_eq!(calls::judge(&changed(20, 4)), refused(5, 8));
    assert_eq!(calls::judge(&changed(21, 1)), refused(5, 8));
    assert_eq!(calls::judge(&changed(52, 4)), refused(5, 48));
    assert_eq!(calls::judge(&net_a(&[1, 0])), refused(5, 48));
    assert_eq!(calls::judge(&net_a(&[1, 1])), refused(5, 48));
}

#[test]
fn refusal_6_is_a_257th_event() {
    let one = event_bytes(&event(&[0], &[]));
    let all = vec![one.clone(); 257];
    assert_eq!(calls::judge(&with_events(&all[..256])), Ok(()));
    assert_eq!(
        calls::judge(&with_events(&all)),
        refused(6, 5 + 256 * one.len())
    );
}

#[test]
fn refusal_7_is_an_event_with_both_lists_empty() {
    let table = with_events(&[event_record(&[1, 0, 0]), event_record(&[0, 0])]);
    assert_eq!(calls::judge(&table), refused(7, 15));
}

#[test]
fn refusal_8_is_a_17th_persistent_precondition() {
    let read: Vec<u16> = (0..17).collect();
    let accepted = table_bytes(&net(&[1; 17], &[(&read[1..], &read)], &read));
    assert_eq!(calls::judge(&accepted), Ok(()));
    let refused_table = table_bytes(&net(&[1; 17], &[(&read[1..], &[]), (&read, &[])], &[]));
    assert_eq!(calls::judge(&refused_table), refused(8, 21 + 40));
}

#[test]
fn refusal_9_is_bytes_after_the_last_record() {
    let table = [net_a(&[0]), vec![0]].concat();
    assert_eq!(calls::judge(&table), refused(9, 54));
}

#[test]
fn within_a_record_the_order_is_1_2_6_3_4_5_7_8() {
    let cut_and_wrong_kind = [5, 0, 9, 0, 0];
    assert_eq!(calls::judge(&cut_and_wrong_kind), refused(1, 0));
    assert_eq!(calls::judge(&record_bytes(9, &[])), refused(2, 0));
    assert_eq!(
        calls::judge(&record_bytes(CONDITIONS, &[2; 257])),
        refused(3, 0)
    );
    let unsound = with_events(&[event_record(&[2, 0, 0, 0, 0])]);
    assert_eq!(calls::judge(&unsound), refused(3, 5));
    let mut read: Vec<u16> = (0..17).collect();
    read.push(16);
    let crowded = table_bytes(&net(&[1; 17], &[(&read, &[])], &[]));
    assert_eq!(calls::judge(&crowded), refused(5, 21));
}

#[test]
fn the_first_bad_record_decides() {
    let table = with_events(&[event_record(&[0, 0]), event_record(&[1, 0, 5])]);
    assert_eq!(calls::judge(&table), refused(7, 5));
    let table = with_events(&[event_record(&[1, 0, 5]), event_record(&[0, 0])]);
    assert_eq!(calls::judge(&table), refused(5, 5));
    let table = with_events(&vec![event_record(&[0, 0]); 257]);
    assert_eq!(calls::judge(&table), refused(7, 5));
}

#[test]
fn refusal_10_is_no_such_thing() {
    let table = net_a(&[0]);
    assert_eq!(fire(&table, &lent(4, &[]), 3), refused(10, 0));
    assert_eq!(replay(&table, &[0, 3]), refused(10, 1));
    assert_eq!(lift(&table, &[0, 3]), refused(10, 1));
    assert_eq!(project(&table, &[0, 4]), refused(10, 1));
    assert_eq!(fire_unfolded(&table, &lent(5, &[]), 4), refused(10, 0));
    assert_eq!(calls::event_behind(&table, 4), refused(10, 0));
    assert_eq!(calls::condition_behind(&table, 5), refused(10, 0));
    assert_eq!(exchange(&table, &[0, 3], 0), refused(10, 1));
    assert_eq!(exchange(&table, &[0, 1], 1), refused(10, 1));
    for markers in [&[][..], &[Start, Start], &[ByEvent(1)], &[ByEvent(9)]] {
        assert_eq!(calls::event_number(&table, 1, markers), refused(10, 0));
    }
    assert_eq!(calls::event_number(&table, 0, &[Start]), refused(10, 0));
    assert_eq!(calls::event_number(&table, 3, &[]), refused(10, 0));
}

/// The number of an unfolded condition of net A.
fn condition_of_a(condition: u16, copy: Option<(Marker, u16)>) -> second::refusal::Answer<u16> {
    let copy = copy.map(|(marker, user)| CopyFor { marker, user });
    calls::condition_number(&net_a(&[0]), &UnfoldedCondition { condition, copy })
}

#[test]
fn conditions_have_numbers_with_the_right_marker_and_user_only() {
    assert_eq!(condition_of_a(0, None), Ok(0));
    assert_eq!(condition_of_a(2, Some((Start, 1))), Ok(2));
    assert_eq!(condition_of_a(2, Some((ByEvent(0), 1))), Ok(3));
    assert_eq!(condition_of_a(3, None), Ok(4));
    assert_eq!(condition_of_a(4, None), refused(10, 0));
    assert_eq!(condition_of_a(2, None), refused(10, 0));
    assert_eq!(condition_of_a(0, Some((Start, 1))), refused(10, 0));
    assert_eq!(condition_of_a(2, Some((Start, 0))), refused(10, 0));
    assert_eq!(condition_of_a(2, Some((ByEvent(1), 1))), refused(10, 0));
}

#[test]
fn refusal_11_is_a_precondition_that_does_not_hold() {
    let table = net_a(&[0]);
    assert_eq!(replay(&table, &[0, 2]), refused_by(11, 1, 3));
    assert_eq!(lift(&table, &[1]), refused_by(11, 0, 1));
    assert_eq!(lifted_end(&table, &[1]), refused_by(11, 0, 1));
    assert_eq!(project(&table, &[0, 1]), refused_by(11, 1, 2));
    assert_eq!(replay_unfolded(&table, &[0, 1]), refused_by(11, 1, 2));
    assert_eq!(
        fire_unfolded(&table, &lent(5, &[1]), 1),
        refused_by(11, 2, 2)
    );
    assert_eq!(exchange(&table, &[0, 2], 5), refused_by(11, 1, 3));
}

#[test]
fn refusal_12_is_contact() {
    let table = net_a(&[0, 1]);
    assert_eq!(replay(&table, &[0]), refused_by(12, 0, 1));
    assert_eq!(lift(&table, &[0]), refused_by(12, 0, 1));
    assert_eq!(lifted_end(&table, &[0]), refused_by(12, 0, 1));
    assert_eq!(exchange(&table, &[0], 0), refused_by(12, 0, 1));
    assert_eq!(project(&net_b(), &[0, 0]), refused_by(12, 1, 2));
    assert_eq!(replay_unfolded(&net_b(), &[0, 0]), refused_by(12, 1, 2));
    assert_eq!(
        fire_unfolded(&net_a(&[0]), &lent(5, &[0, 3]), 0),
        refused_by(12, 3, 3)
    );
}

#[test]
fn the_lowest_condition_at_fault_is_told() {
    let events: [(&[u16], &[u16]); 2] = [(&[0, 1, 3], &[2, 4, 5]), (&[4], &[0, 1, 2, 4, 5])];
    let table = table_bytes(&net(&[0, 1, 1, 0, 0, 0], &events, &[]));
    assert_eq!(fire(&table, &lent(6, &[0]), 0), refused_by(11, 1, 1));
    assert_eq!(fire(&table, &lent(6, &[0, 1]), 0), refused_by(11, 3, 3));
    assert_eq!(
        fire(&table, &lent(6, &[0, 1, 2, 3, 4, 5]), 0),
        refused_by(12, 4, 4)
    );
    assert_eq!(fire(&table, &lent(6, &[]), 0), refused_by(11, 0, 0));
    assert_eq!(
        fire(&table, &lent(6, &[0, 1, 2, 4]), 1),
        refused_by(12, 0, 0)
    );
    assert_eq!(
        fire(&table, &lent(6, &[1, 2, 4, 5]), 1),
        refused_by(12, 5, 5)
    );
    assert_eq!(replay(&table, &[1]), refused_by(11, 0, 4));
}

#[test]
fn refusal_11_wins_over_12() {
    let table = net_a(&[0]);
    assert_eq!(fire(&table, &lent(4, &[1, 3]), 1), refused_by(11, 2, 2));
    assert_eq!(
        fire_unfolded(&table, &lent(5, &[1, 4]), 1),
        refused_by(11, 2, 2)
    );
    assert_eq!(
        replay_from(&table, &lent(4, &[1]), &[0]),
        refused_by(11, 0, 0)
    );
}

#[test]
fn refusal_13_is_the_lowest_event_that_touches_nothing() {
    let table = table_bytes(&net(&[1, 0], &[(&[1], &[]), (&[], &[0]), (&[], &[0])], &[]));
    let number = UnfoldedCondition {
        condition: 1,
        copy: None,
    };
    assert_eq!(counts(&table), refused(13, 1));
    assert_eq!(lift(&table, &[9]), refused(13, 1));
    assert_eq!(lifted_end(&table, &[9]), refused(13, 1));
    assert_eq!(project(&table, &[9]), refused(13, 1));
    assert_eq!(replay_unfolded(&table, &[9]), refused(13, 1));
    assert_eq!(replay_unfolded_from(&table, &[9], &[9]), refused(13, 1));
    assert_eq!(fire_unfolded(&table, &[9], 9), refused(13, 1));
    assert_eq!(unfolded_start(&table), refused(13, 1));
    assert_eq!(unfolded_lists(&table, 9), refused(13, 1));
    assert_eq!(calls::event_behind(&table, 9), refused(13, 1));
    assert_eq!(calls::event_number(&table, 9, &[]), refused(13, 1));
    assert_eq!(calls::condition_behind(&table, 9), refused(13, 1));
    assert_eq!(calls::condition_number(&table, &number), refused(13, 1));
    assert_eq!(calls::colour_count(&table, 9), refused(13, 1));
    assert_eq!(calls::colour_markers(&table, 9, 9), refused(13, 1));
    assert_eq!(replay(&table, &[1, 2]), Ok(vec![0]));
}

#[test]
fn refusal_16_tells_the_elements_needed() {
    let table = net_a(&[0]);
    let run = [0, 1, 2, 1];
    assert_eq!(
        written(7, 3, |out| calls::replay(&table, &run, out)),
        refused(16, 4)
    );
    assert_eq!(
        written(7, 3, |out| calls::start(&table, out)),
        refused(16, 4)
    );
    assert_eq!(
        written(7, 3, |out| calls::lift(&table, &run, out)),
        refused(16, 4)
    );
    assert_eq!(
        written(7, 4, |out| calls::lifted_end(&table, &run, out)),
        refused(16, 5)
    );
    assert_eq!(
        written(7, 4, |out| calls::unfolded_start(&table, out)),
        refused(16, 5)
    );
    assert_eq!(
        written(7, 0, |out| calls::project(&table, &[0, 2], out)),
        refused(16, 2)
    );
    assert_eq!(
        written(7, 1, |out| calls::unfolded_preconditions(&table, 1, out)),
        refused(16, 2)
    );
    assert_eq!(
        written(7, 1, |out| calls::unfolded_postconditions(&table, 1, out)),
        refused(16, 2)
    );
    assert_eq!(
        written(7, 4, |out| calls::replay_unfolded(&table, &[0], out)),
        refused(16, 5)
    );
}

#[test]
fn refusal_16_comes_after_all_others() {
    assert_eq!(
        written(7, 0, |out| calls::lift(&net_b(), &[0, 0], out)),
        refused(15, 1)
    );
    assert_eq!(
        written(7, 0, |out| calls::replay(&net_b(), &[1], out)),
        refused_by(11, 0, 1)
    );
    assert_eq!(
        written(7, 0, |out| calls::project(&net_b(), &[9], out)),
        refused(10, 0)
    );
    let asked = |out: &mut [u16]| calls::unfolded_preconditions(&net_b(), 9, out);
    assert_eq!(written(7, 0, asked), refused(10, 0));
}

#[test]
fn an_output_of_just_the_length_is_enough() {
    let table = net_a(&[0]);
    let run = [0, 1, 2, 1];
    assert_eq!(
        written(7, 4, |out| calls::replay(&table, &run, out)),
        Ok(vec![0, 0, 1, 1])
    );
    assert_eq!(
        written(7, 4, |out| calls::lift(&table, &run, out)),
        Ok(vec![0, 2, 3, 2])
    );
    assert_eq!(
        written(7, 5, |out| calls::lifted_end(&table, &run, out)),
        Ok(vec![0, 0, 0, 1, 1])
    );
}

#[test]
fn refusal_17_is_an_exchange_without_its_premises() {
    let table = net_e(&[0, 1]);
    assert_eq!(exchange(&table, &[0, 1, 2], 0), refused(17, 0));
    assert_eq!(exchange(&table, &[0, 1, 2], 1), Ok(vec![0, 2, 1]));
    assert_eq!(exchange(&table, &[0, 2, 1], 0), refused(17, 0));
    assert_eq!(exchange(&net_a(&[0]), &[0, 1, 2, 1], 2), refused(17, 2));
}

#[test]
fn an_exchange_may_let_the_second_mark_what_the_first_leaves_alone() {
    let table = table_bytes(&net(&[0, 0, 1], &[(&[0], &[]), (&[1], &[2])], &[0, 1]));
    assert_eq!(exchange(&table, &[0, 1], 0), Ok(vec![1, 0]));
    assert_eq!(exchange(&table, &[1, 0], 0), Ok(vec![0, 1]));
}

#[test]
fn events_that_share_an_ordinary_condition_are_not_exchanged() {
    let events: [(&[u16], &[u16]); 4] = [(&[0], &[0]), (&[0], &[0, 1]), (&[1], &[]), (&[2], &[0])];
    let table = table_bytes(&net(&[0, 0, 0], &events, &[0]));
    assert_eq!(exchange(&table, &[0, 1], 0), refused(17, 0));
    assert_eq!(exchange(&table, &[1, 2], 0), refused(17, 0));
    assert_eq!(exchange(&table, &[1, 0, 2], 1), Ok(vec![1, 2, 0]));
}

#[test]
fn refusal_18_is_a_marking_of_wrong_length_or_byte() {
    let table = net_a(&[0]);
    assert_eq!(fire(&table, &[0; 3], 9), refused(18, 4));
    assert_eq!(fire(&table, &[0; 5], 9), refused(18, 4));
    assert_eq!(fire(&table, &[0, 2, 0, 3], 9), refused(18, 1));
    assert_eq!(replay_from(&table, &[3, 2, 0], &[9; 5_000]), refused(18, 4));
    assert_eq!(
        replay_from(&table, &[0, 0, 0, 3], &[9; 5_000]),
        refused(18, 3)
    );
    assert_eq!(fire_unfolded(&table, &[0; 4], 9), refused(18, 5));
    assert_eq!(fire_unfolded(&table, &[0, 0, 0, 0, 2], 9), refused(18, 4));
    assert_eq!(replay_unfolded_from(&table, &[0; 6], &[9]), refused(18, 5));
    assert_eq!(
        replay_unfolded_from(&table, &[0; 6], &[9; 5_000]),
        refused(3, 0)
    );
}

#[test]
fn the_table_is_judged_before_all_else() {
    let bad = [net_a(&[0]), vec![0]].concat();
    let run = [9; 5_000];
    assert_eq!(fire(&bad, &[], 9), refused(9, 54));
    assert_eq!(replay(&bad, &run), refused(9, 54));
    assert_eq!(replay_from(&bad, &[], &run), refused(9, 54));
    assert_eq!(exchange(&bad, &run, 9), refused(9, 54));
    assert_eq!(lift(&bad, &run), refused(9, 54));
    assert_eq!(lifted_end(&bad, &run), refused(9, 54));
    assert_eq!(project(&bad, &run), refused(9, 54));
    assert_eq!(replay_unfolded(&bad, &run), refused(9, 54));
    assert_eq!(replay_unfolded_from(&bad, &[], &run), refused(9, 54));
    assert_eq!(fire_unfolded(&bad, &[], 9), refused(9, 54));
    assert_eq!(counts(&bad), refused(9, 54));
    assert_eq!(unfolded_start(&bad), refused(9, 54));
    assert_eq!(calls::preconditions(&bad, 9), refused(9, 54));
    assert_eq!(calls::postconditions(&bad, 9), refused(9, 54));
    assert_eq!(calls::start_list(&bad), refused(9, 54));
    assert_eq!(calls::is_persistent(&bad, 9), refused(9, 54));
}

#[test]
fn a_run_too_long_comes_before_the_unfolding() {
    let idle = table_bytes(&net(&[1], &[(&[], &[0])], &[]));
    let run = [9; 5_000];
    assert_eq!(lift(&idle, &run), refused(3, 0));
    assert_eq!(lifted_end(&idle, &run), refused(3, 0));
    assert_eq!(project(&idle, &run), refused(3, 0));
    assert_eq!(replay_unfolded(&idle, &run), refused(3, 0));
    assert_eq!(replay_unfolded_from(&idle, &[], &run), refused(3, 0));
}
