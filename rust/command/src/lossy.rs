//! Lossy events: runs in which they come again may be missing in the unfolded net, and markings with them.

use wire::Driver;

use crate::names::{condition_called, event_called, some_of};
use crate::source::Source;
use crate::stop::Stopped;

/// The most events of which it is said on a line of its own what they mark, and for which other.
const MOST_LINES: usize = 10;

/// The lossy events of a table, as the library tells them.
pub fn lossy_events(library: &mut Driver, table: &Source) -> Stopped<Vec<u16>> {
    let mut bytes = vec![0; table.table.events.len()];
    let told = library.lossy(&table.bytes, &mut bytes);
    told.map_err(|failure| table.failed(failure))?;
    let lossy = (0..=u16::MAX).zip(bytes).filter(|(_, byte)| *byte == 1);
    Ok(lossy.map(|(event, _)| event).collect())
}

/// What may be missing for a lossy event: the runs in which it comes again, since it marks for another.
fn line(table: &Source, event: u16) -> String {
    let called = event_called(&table.table, event);
    let lacks = format!("the unfolded net may lack runs in which {called} comes again");
    match table.marked_for_other(event) {
        None => lacks,
        Some((condition, user)) => {
            let condition = condition_called(&table.table, condition);
            let user = event_called(&table.table, user);
            format!("{lacks}: it marks {condition}, which {user} reads")
        }
    }
}

/// The persistent conditions that no event reads, as a sentence has them: they have no place in the unfolded net.
fn untold(table: &Source) -> Vec<String> {
    let table = &table.table;
    let is_read = |b: &u16| table.events.iter().any(|e| e.preconditions.contains(b));
    let numbers = (0..=u16::MAX).take(table.conditions.len());
    let untold = numbers.filter(|b| table.is_persistent(*b) && !is_read(b));
    untold.map(|b| condition_called(table, b)).collect()
}

/// That nothing is lost, and which conditions the unfolded net does not tell of.
fn whole(table: &Source) -> String {
    let all = "the unfolded net reaches every marking that the table reaches";
    let untold = untold(table);
    match untold.is_empty() {
        true => all.to_string(),
        false => format!(
            "{all}, but does not tell of {}, which no event reads",
            some_of(&untold)
        ),
    }
}

/// What the lossy events of a table that unfolds mean for its unfolded net, in lines; that nothing is lost where there are none.
pub fn told(table: &Source, events: &[u16]) -> Vec<String> {
    if events.is_empty() {
        return vec![whole(table)];
    }
    let (first, more) = events.split_at(events.len().min(MOST_LINES));
    let mut lines: Vec<String> = first.iter().map(|event| line(table, *event)).collect();
    if !more.is_empty() {
        let more: Vec<String> = more
            .iter()
            .map(|event| event_called(&table.table, *event))
            .collect();
        lines.push(format!("and so it may where these do: {}", more.join(", ")));
    }
    lines
}
