//! The calls on a table: each judges the table first, then what it was lent, in the order of 01, Refusal numbers.

use crate::across::{lifted, projected};
use crate::export::Doubled;
use crate::game::{exchanged, fire, play, Game, Stop};
use crate::lent::{marking_bytes, read_marking, write_answer};
use crate::losses::is_lossy;
use crate::records::MOST_STEPS;
use crate::refusal::{refuse, require, Answer};
use crate::table::{read_table, Net, Table};
use crate::unfolding::{
    colours, unfold, Counts, Marker, UnfoldedCondition, UnfoldedEvent, Unfolding,
};

/// The number of conditions and of events of a table.
#[derive(Clone, Copy, Debug, PartialEq, Eq)]
pub struct TableCounts {
    pub conditions: usize,
    pub events: usize,
}

/// The net of a table, or 1 to 9.
fn net_of(table: &[u8]) -> Answer<Net> {
    Ok(read_table(table)?.net)
}

/// The net of a table and its unfolding, or 1 to 9, 13, 14.
fn unfolding_of(table: &[u8]) -> Answer<(Net, Unfolding)> {
    let net = net_of(table)?;
    let unfolding = unfold(&net)?;
    Ok((net, unfolding))
}

/// The net of a table and its unfolding for a call on a run, whose length is judged between the two.
fn unfolding_for_run(table: &[u8], run: &[u16]) -> Answer<(Net, Unfolding)> {
    let net = net_of(table)?;
    judge_length(run)?;
    let unfolding = unfold(&net)?;
    Ok((net, unfolding))
}

/// Refuses a run of over 4,096 steps.
fn judge_length(run: &[u16]) -> Answer<()> {
    require(run.len() <= MOST_STEPS, 3, 0)
}

/// What an asked number stands for, or 10 at place 0.
fn known<T>(found: Option<T>) -> Answer<T> {
    match found {
        Some(value) => Ok(value),
        None => refuse(10, 0),
    }
}

// ---- the table

/// Judges a table (1 to 9).
pub fn judge(table: &[u8]) -> Answer<()> {
    read_table(table).map(|_| ())
}

/// The number of conditions and of events of the table.
pub fn table_counts(table: &[u8]) -> Answer<TableCounts> {
    let net = net_of(table)?;
    Ok(TableCounts {
        conditions: net.persistent.len(),
        events: net.events.len(),
    })
}

/// A condition of the table is persistent.
pub fn is_persistent(table: &[u8], condition: u16) -> Answer<bool> {
    let net = net_of(table)?;
    known(net.persistent.get(usize::from(condition)).copied())
}

/// The preconditions of an event: a slice of the table, not copied.
pub fn preconditions(table: &[u8], event: u16) -> Answer<&[u8]> {
    let Table { parts, .. } = read_table(table)?;
    let parts = known(parts.get(usize::from(event)))?;
    Ok(&table[parts.preconditions.clone()])
}

/// The postconditions of an event: a slice of the table, not copied.
pub fn postconditions(table: &[u8], event: u16) -> Answer<&[u8]> {
    let Table { parts, .. } = read_table(table)?;
    let parts = known(parts.get(usize::from(event)))?;
    Ok(&table[parts.postconditions.clone()])
}

/// The conditions that hold at the start: a slice of the table, not copied.
pub fn start_list(table: &[u8]) -> Answer<&[u8]> {
    let part = read_table(table)?.start_part;
    Ok(&table[part])
}

/// Writes the table's Marking to the lent output, one byte for each condition.
pub fn start(table: &[u8], output: &mut [u8]) -> Answer<usize> {
    let net = net_of(table)?;
    write_answer(&marking_bytes(&net.start()), output)
}

// ---- the token game

/// Tests the concession of an event at a lent marking: the refusals of firing, and nothing written.
pub fn has_concession(table: &[u8], marking: &[u8], event: u16) -> Answer<()> {
    let net = net_of(table)?;
    let before = read_marking(marking, net.persistent.len())?;
    fire(&net, &before, event)
        .map(|_| ())
        .map_err(Stop::of_firing)
}

/// Fires an event: the new marking is written over the lent one.
pub fn fire_event(table: &[u8], marking: &mut [u8], event: u16) -> Answer<()> {
    let net = net_of(table)?;
    let before = read_marking(marking, net.persistent.len())?;
    let after = fire(&net, &before, event).map_err(Stop::of_firing)?;
    marking.copy_from_slice(&marking_bytes(&after));
    Ok(())
}

/// Replays a run from the table's Marking and writes its end.
pub fn replay(table: &[u8], run: &[u16], end: &mut [u8]) -> Answer<usize> {
    let net = net_of(table)?;
    judge_length(run)?;
    write_answer(&marking_bytes(&play(&net, net.start(), run)?), end)
}

/// Replays a run from a lent marking and writes its end.
pub fn replay_from(table: &[u8], marking: &[u8], run: &[u16], end: &mut [u8]) -> Answer<usize> {
    let net = net_of(table)?;
    let before = read_marking(marking, net.persistent.len())?;
    judge_length(run)?;
    write_answer(&marking_bytes(&play(&net, before, run)?), end)
}

/// Exchanges steps k and k + 1 of the lent run; only those two numbers are written.
pub fn exchange(table: &[u8], run: &mut [u16], k: usize) -> Answer<()> {
    let net = net_of(table)?;
    judge_length(run)?;
    let other = exchanged(&net, run, k)?;
    run[k..k + 2].copy_from_slice(&other[k..k + 2]);
    Ok(())
}

// ---- the unfolding

/// The number of unfolded conditions and of unfolded events.
pub fn unfolded_counts(table: &[u8]) -> Answer<Counts> {
    let (_, unfolding) = unfolding_of(table)?;
    Ok(Counts {
        conditions: unfolding.conditions.len() as u128,
        events: unfolding.events.len() as u128,
    })
}

/// The colours of an event in their order.
fn colours_of(net: &Net, event: u16) -> Answer<Vec<Vec<Marker>>> {
    let event = known(net.events.get(usize::from(event)))?;
    Ok(colours(net, event))
}

/// The number of colours of an event.
pub fn colour_count(table: &[u8], event: u16) -> Answer<usize> {
    let (net, _) = unfolding_of(table)?;
    Ok(colours_of(&net, event)?.len())
}

/// The markers of an event's colour by the colour's number.
pub fn colour_markers(table: &[u8], event: u16, colour: usize) -> Answer<Vec<Marker>> {
    let (net, _) = unfolding_of(table)?;
    known(colours_of(&net, event)?.get(colour).cloned())
}

/// What an unfolded event's number stands for: an event and its markers.
pub fn event_behind(table: &[u8], number: u16) -> Answer<UnfoldedEvent> {
    let (_, unfolding) = unfolding_of(table)?;
    known(unfolding.events.get(usize::from(number)).cloned())
}

/// The unfolded event number for an event and markers, one for each persistent precondition.
pub fn event_number(table: &[u8], event: u16, markers: &[Marker]) -> Answer<u16> {
    let (_, unfolding) = unfolding_of(table)?;
    known(unfolding.event_number(&UnfoldedEvent {
        event,
        markers: markers.to_vec(),
    }))
}

/// The condition, or the condition with marker and user, behind an unfolded condition number.
pub fn condition_behind(table: &[u8], number: u16) -> Answer<UnfoldedCondition> {
    let (_, unfolding) = unfolding_of(table)?;
    known(unfolding.conditions.get(usize::from(number)).copied())
}

/// The unfolded condition number for an ordinary condition, or for a persistent one with marker and user.
pub fn condition_number(table: &[u8], condition: &UnfoldedCondition) -> Answer<u16> {
    let (_, unfolding) = unfolding_of(table)?;
    known(unfolding.condition_number(condition))
}

/// Writes the preconditions of an unfolded event, ascending.
pub fn unfolded_preconditions(table: &[u8], number: u16, output: &mut [u16]) -> Answer<usize> {
    let (_, unfolding) = unfolding_of(table)?;
    write_answer(&known(unfolding.event(number))?.preconditions, output)
}

/// Writes the postconditions of an unfolded event, ascending.
pub fn unfolded_postconditions(table: &[u8], number: u16, output: &mut [u16]) -> Answer<usize> {
    let (_, unfolding) = unfolding_of(table)?;
    write_answer(&known(unfolding.event(number))?.postconditions, output)
}

/// Writes the unfolded start, one byte for each unfolded condition.
pub fn unfolded_start(table: &[u8], output: &mut [u8]) -> Answer<usize> {
    let (_, unfolding) = unfolding_of(table)?;
    write_answer(&marking_bytes(&unfolding.start()), output)
}

/// Tests the concession of an unfolded event at a lent unfolded marking; nothing is written.
pub fn has_unfolded_concession(table: &[u8], marking: &[u8], number: u16) -> Answer<()> {
    let (_, unfolding) = unfolding_of(table)?;
    let before = read_marking(marking, unfolding.conditions.len())?;
    fire(&unfolding, &before, number)
        .map(|_| ())
        .map_err(Stop::of_firing)
}

/// Fires an unfolded event: the new unfolded marking is written over the lent one.
pub fn fire_unfolded(table: &[u8], marking: &mut [u8], number: u16) -> Answer<()> {
    let (_, unfolding) = unfolding_of(table)?;
    let before = read_marking(marking, unfolding.conditions.len())?;
    let after = fire(&unfolding, &before, number).map_err(Stop::of_firing)?;
    marking.copy_from_slice(&marking_bytes(&after));
    Ok(())
}

/// Replays an unfolded run from the unfolded start and writes its end.
pub fn replay_unfolded(table: &[u8], run: &[u16], end: &mut [u8]) -> Answer<usize> {
    let (_, unfolding) = unfolding_for_run(table, run)?;
    let last = play(&unfolding, unfolding.start(), run)?;
    write_answer(&marking_bytes(&last), end)
}

/// Replays an unfolded run from a lent unfolded marking and writes its end.
pub fn replay_unfolded_from(
    table: &[u8],
    marking: &[u8],
    run: &[u16],
    end: &mut [u8],
) -> Answer<usize> {
    let (_, unfolding) = unfolding_for_run(table, run)?;
    let before = read_marking(marking, unfolding.conditions.len())?;
    let last = play(&unfolding, before, run)?;
    write_answer(&marking_bytes(&last), end)
}

// ---- runs across

/// Lifts a run of the table and writes the lifted run.
pub fn lift(table: &[u8], run: &[u16], output: &mut [u16]) -> Answer<usize> {
    let (net, unfolding) = unfolding_for_run(table, run)?;
    write_answer(&lifted(&net, &unfolding, run)?, output)
}

/// Lifts a run of the table and writes where the lifted run ends in the unfolded net.
pub fn lifted_end(table: &[u8], run: &[u16], end: &mut [u8]) -> Answer<usize> {
    let (net, unfolding) = unfolding_for_run(table, run)?;
    let lifted = lifted(&net, &unfolding, run)?;
    let last = play(&unfolding, unfolding.start(), &lifted)?;
    write_answer(&marking_bytes(&last), end)
}

/// Projects an unfolded run and writes the run of the table.
pub fn project(table: &[u8], run: &[u16], output: &mut [u16]) -> Answer<usize> {
    let (_, unfolding) = unfolding_for_run(table, run)?;
    write_answer(&projected(&unfolding, run)?, output)
}

// ---- the export

/// The number of elements of the export.
pub fn element_count(table: &[u8]) -> Answer<u64> {
    let (_, unfolding) = unfolding_of(table)?;
    Ok(Doubled::of(&unfolding).element_count())
}

/// Writes the text of one element of the export.
pub fn element(table: &[u8], number: u64, output: &mut [u8]) -> Answer<usize> {
    let (_, unfolding) = unfolding_of(table)?;
    let text = known(Doubled::of(&unfolding).element(number))?;
    write_answer(text.as_bytes(), output)
}

// ---- what the unfolded net may lose

/// Writes which events are lossy, one byte for each event.
pub fn lossy(table: &[u8], output: &mut [u8]) -> Answer<usize> {
    let net = net_of(table)?;
    let events = (0..=u16::MAX).take(net.events.len());
    let bytes: Vec<u8> = events.map(|e| u8::from(is_lossy(&net, e))).collect();
    write_answer(&bytes, output)
}
