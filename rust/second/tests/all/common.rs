//! Nets, tables and calls with watched outputs, for all tests.

use std::fmt::Debug;

use second::calls;
use second::refusal::{Answer, Refusal};
use second::table::{table_bytes, Event, Net};

/// An event from its two lists.
pub fn event(preconditions: &[u16], postconditions: &[u16]) -> Event {
    Event {
        preconditions: preconditions.to_vec(),
        postconditions: postconditions.to_vec(),
    }
}

/// A net from the kinds of its conditions, its events and its start.
pub fn net(kinds: &[u8], events: &[(&[u16], &[u16])], start: &[u16]) -> Net {
    Net {
        persistent: kinds.iter().map(|kind| *kind == 1).collect(),
        events: events.iter().map(|(a, z)| event(a, z)).collect(),
        start: start.to_vec(),
        rule: None,
    }
}

pub fn net_a(start: &[u16]) -> Vec<u8> {
    let events: [(&[u16], &[u16]); 3] = [(&[0], &[1, 2]), (&[1, 2], &[3]), (&[3], &[1])];
    table_bytes(&net(&[0, 0, 1, 0], &events, start))
}

pub fn net_b() -> Vec<u8> {
    table_bytes(&net(&[0, 1], &[(&[0], &[0, 1]), (&[1], &[])], &[0]))
}

pub fn net_c() -> Vec<u8> {
    table_bytes(&net(&[1], &[(&[0], &[0])], &[0]))
}

pub fn net_e(start: &[u16]) -> Vec<u8> {
    let events: [(&[u16], &[u16]); 3] = [(&[0], &[2]), (&[1], &[2]), (&[2], &[])];
    table_bytes(&net(&[0, 0, 1], &events, start))
}

pub fn net_d() -> Vec<u8> {
    let persistent = (0..21).map(|b| b < 10).collect();
    let mut events: Vec<Event> = (0..10).map(|k| event(&[10 + k], &[k])).collect();
    events.push(event(&(0..10).collect::<Vec<u16>>(), &[20]));
    events.push(event(&[20], &[]));
    table_bytes(&Net {
        persistent,
        events,
        start: (10..20).collect(),
        rule: None,
    })
}

/// Net R: the second event reads what the first marks, and they share nothing ordinary.
pub fn net_r() -> Vec<u8> {
    table_bytes(&net(&[0, 0, 1], &[(&[0], &[2]), (&[1, 2], &[])], &[0, 1]))
}

/// A refusal that no condition is told with, as an answer.
pub fn refused<T>(number: u8, place: usize) -> Answer<T> {
    Err(Refusal::at(number, place))
}

/// A refusal by a condition, as an answer: 11 or 12.
pub fn refused_by<T>(number: u8, place: usize, condition: u16) -> Answer<T> {
    let by = Some(condition);
    Err(Refusal { number, place, by })
}

/// A marking as it is lent.
pub fn lent(conditions: usize, held: &[usize]) -> Vec<u8> {
    (0..conditions)
        .map(|b| u8::from(held.contains(&b)))
        .collect()
}

/// What a call writes into a watched output: past the answer, and on a refusal everywhere, each element must stay.
pub fn written<T: Copy + PartialEq + Debug>(
    watch: T,
    size: usize,
    call: impl FnOnce(&mut [T]) -> Answer<usize>,
) -> Answer<Vec<T>> {
    let mut output = vec![watch; size];
    let answer = call(&mut output);
    let kept = answer.unwrap_or(0);
    assert!(output[kept..].iter().all(|element| *element == watch));
    answer?;
    output.truncate(kept);
    Ok(output)
}

/// The room that watched outputs have.
const ROOM: usize = 66_000;

/// The conditions that a written marking says hold.
fn held(marking: Vec<u8>) -> Vec<usize> {
    assert!(marking.iter().all(|byte| *byte <= 1));
    (0..marking.len()).filter(|b| marking[*b] == 1).collect()
}

pub fn replay(table: &[u8], run: &[u16]) -> Answer<Vec<usize>> {
    written(7, ROOM, |out| calls::replay(table, run, out)).map(held)
}

pub fn replay_from(table: &[u8], marking: &[u8], run: &[u16]) -> Answer<Vec<usize>> {
    written(7, ROOM, |out| calls::replay_from(table, marking, run, out)).map(held)
}

pub fn replay_unfolded(table: &[u8], run: &[u16]) -> Answer<Vec<usize>> {
    written(7, ROOM, |out| calls::replay_unfolded(table, run, out)).map(held)
}

pub fn replay_unfolded_from(table: &[u8], marking: &[u8], run: &[u16]) -> Answer<Vec<usize>> {
    written(7, ROOM, |out| {
        calls::replay_unfolded_from(table, marking, run, out)
    })
    .map(held)
}

pub fn lift(table: &[u8], run: &[u16]) -> Answer<Vec<u16>> {
    written(777, ROOM, |out| calls::lift(table, run, out))
}

pub fn lifted_end(table: &[u8], run: &[u16]) -> Answer<Vec<usize>> {
    written(7, ROOM, |out| calls::lifted_end(table, run, out)).map(held)
}

pub fn project(table: &[u8], run: &[u16]) -> Answer<Vec<u16>> {
    written(777, ROOM, |out| calls::project(table, run, out))
}

pub fn unfolded_start(table: &[u8]) -> Answer<Vec<usize>> {
    written(7, ROOM, |out| calls::unfolded_start(table, out)).map(held)
}

/// The two lists of an unfolded event.
pub fn unfolded_lists(table: &[u8], number: u16) -> Answer<(Vec<u16>, Vec<u16>)> {
    let before = written(777, ROOM, |out| {
        calls::unfolded_preconditions(table, number, out)
    })?;
    let after = written(777, ROOM, |out| {
        calls::unfolded_postconditions(table, number, out)
    })?;
    Ok((before, after))
}

/// The run after an exchange; a refused run must stay as it was.
pub fn exchange(table: &[u8], run: &[u16], k: usize) -> Answer<Vec<u16>> {
    let mut other = run.to_vec();
    let answer = calls::exchange(table, &mut other, k);
    if answer.is_err() {
        assert_eq!(other, run);
    }
    answer.map(|()| other)
}

/// The conditions that hold after a firing; a refused marking must stay as it was.
pub fn fire(table: &[u8], marking: &[u8], event: u16) -> Answer<Vec<usize>> {
    let mut after = marking.to_vec();
    let answer = calls::fire_event(table, &mut after, event);
    assert_eq!(calls::has_concession(table, marking, event), answer);
    if answer.is_err() {
        assert_eq!(after, marking);
    }
    answer.map(|()| held(after))
}

/// The unfolded conditions that hold after a firing in the unfolded net; a refused marking must stay as it was.
pub fn fire_unfolded(table: &[u8], marking: &[u8], number: u16) -> Answer<Vec<usize>> {
    let mut after = marking.to_vec();
    let answer = calls::fire_unfolded(table, &mut after, number);
    assert_eq!(
        calls::has_unfolded_concession(table, marking, number),
        answer
    );
    if answer.is_err() {
        assert_eq!(after, marking);
    }
    answer.map(|()| held(after))
}

/// The counts of the unfolding, conditions first.
pub fn counts(table: &[u8]) -> Answer<(u128, u128)> {
    let counts = calls::unfolded_counts(table)?;
    Ok((counts.conditions, counts.events))
}
