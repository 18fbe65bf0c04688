//! The limits of the unfolding and of a table (01, Nets to test with: limits).

use second::calls;
use second::generator::{condition_limit_net, endless_net, event_limit_net};
use second::table::{table_bytes, Event, Net};

use crate::common::*;

/// The net at the limit of unfolded events with one more condition and an event that puts it.
fn limit_with(persistent: bool) -> Net {
    let mut net = event_limit_net();
    net.persistent.push(persistent);
    net.events.push(event(&[], &[15]));
    net
}

#[test]
fn a_net_of_65535_unfolded_events_is_accepted() {
    assert_eq!(counts(&table_bytes(&event_limit_net())), Ok((228, 65_535)));
}

#[test]
fn one_event_more_gives_14() {
    assert_eq!(counts(&table_bytes(&limit_with(false))), refused(14, 0));
}

#[test]
fn an_unused_persistent_postcondition_gives_13_and_the_table_plays() {
    let table = table_bytes(&limit_with(true));
    assert_eq!(counts(&table), refused(13, 27));
    assert_eq!(replay(&table, &[27]), Ok(vec![15]));
    assert_eq!(lift(&table, &[27]), refused(13, 27));
}

#[test]
fn an_empty_run_ends_at_its_start() {
    let table = net_a(&[0]);
    assert_eq!(replay(&table, &[]), Ok(vec![0]));
    assert_eq!(replay_from(&table, &lent(4, &[1, 3]), &[]), Ok(vec![1, 3]));
    assert_eq!(lift(&table, &[]), Ok(vec![]));
    assert_eq!(lifted_end(&table, &[]), Ok(vec![0]));
    assert_eq!(project(&table, &[]), Ok(vec![]));
    assert_eq!(replay_unfolded(&table, &[]), Ok(vec![0]));
}

#[test]
fn the_last_unfolded_event_is_number_65534() {
    let table = table_bytes(&event_limit_net());
    assert_eq!(calls::event_behind(&table, 65_534).unwrap().event, 26);
    assert_eq!(calls::event_behind(&table, 65_535), refused(10, 0));
}

#[test]
fn a_lift_reaches_the_last_number() {
    let table = table_bytes(&event_limit_net());
    let run: Vec<u16> = (0..27).collect();
    let lifted = lift(&table, &run).unwrap();
    assert_eq!(lifted[15], 15 + 32_767);
    assert_eq!(lifted[26], 65_534);
    assert_eq!(project(&table, &lifted), Ok(run));
}

#[test]
fn a_long_run_at_the_limit_of_conditions_projects() {
    let mut net = condition_limit_net();
    net.start = vec![0, 1];
    let table = table_bytes(&net);
    let run: Vec<u16> = (0..255).collect();
    let lifted = lift(&table, &run).unwrap();
    assert_eq!(lifted[254], 254 * 256);
    assert_eq!(project(&table, &lifted), Ok(run));
    assert_eq!(lifted_end(&table, &[]).unwrap().len(), 2 * 255);
}

#[test]
fn conditions_alone_reach_the_limit() {
    let mut net = condition_limit_net();
    assert_eq!(counts(&table_bytes(&net)), Ok((65_535, 65_280)));
    assert_eq!(
        calls::condition_behind(&table_bytes(&net), 65_535),
        refused(10, 0)
    );
    net.persistent.push(false);
    assert_eq!(counts(&table_bytes(&net)), refused(14, 0));
}

#[test]
fn a_product_past_all_machine_numbers_gives_14() {
    let table = table_bytes(&endless_net());
    assert_eq!(counts(&table), refused(14, 0));
    assert_eq!(lift(&table, &[0]), refused(14, 0));
    assert_eq!(replay(&table, &[0, 0]), Ok((0..16).collect()));
}

#[test]
fn tables_of_256_conditions_256_events_and_16_persistent_preconditions_are_accepted() {
    let read: Vec<u16> = (0..17).collect();
    let wide = Event {
        preconditions: read[..16].to_vec(),
        postconditions: vec![255],
    };
    let mut net = Net {
        persistent: vec![true; 256],
        events: vec![wide; 256],
        start: vec![0, 255],
        rule: None,
    };
    assert_eq!(calls::judge(&table_bytes(&net)), Ok(()));
    net.events[0].preconditions = read.clone();
    net.persistent[16] = false;
    assert_eq!(calls::judge(&table_bytes(&net)), Ok(()));
    net.persistent[16] = true;
    assert_eq!(calls::judge(&table_bytes(&net)), refused(8, 260));
}

#[test]
fn runs_of_4096_steps_are_played_and_longer_ones_refused() {
    let table = table_bytes(&net(&[0, 1], &[(&[0, 1], &[0])], &[0, 1]));
    let run = vec![0; 4_097];
    assert_eq!(replay(&table, &run[..4_096]), Ok(vec![0, 1]));
    assert_eq!(lift(&table, &run[..4_096]), Ok(vec![0; 4_096]));
    assert_eq!(project(&table, &run[..4_096]), Ok(vec![0; 4_096]));
    assert_eq!(replay(&table, &run), refused(3, 0));
    assert_eq!(replay_from(&table, &lent(2, &[]), &run), refused(3, 0));
    assert_eq!(lift(&table, &run), refused(3, 0));
    assert_eq!(lifted_end(&table, &run), refused(3, 0));
    assert_eq!(project(&table, &run), refused(3, 0));
    assert_eq!(replay_unfolded(&table, &run), refused(3, 0));
    assert_eq!(exchange(&table, &run, 0), refused(3, 0));
}
