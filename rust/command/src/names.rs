//! Conditions and events by name, as sentences have them.

use text::Table;

/// The most names that a sentence has.
const MOST_NAMED: usize = 10;

/// What an event is called in a sentence: its name, or that it is an event of this number.
pub fn event_called(table: &Table, number: u16) -> String {
    let event = table.events.get(usize::from(number));
    let name = event.and_then(|event| event.name.clone());
    name.unwrap_or_else(|| format!("event {number}"))
}

/// What a condition is called in a sentence: its name, or that it is a condition of this number.
pub fn condition_called(table: &Table, number: u16) -> String {
    let condition = table.conditions.get(usize::from(number));
    let name = condition.and_then(|condition| condition.name.clone());
    name.unwrap_or_else(|| format!("condition {number}"))
}

/// Things one after another, the first ten of many, and how many more there are.
pub fn some_of(things: &[String]) -> String {
    match things.get(..MOST_NAMED) {
        Some(first) if things.len() > MOST_NAMED => {
            let more = things.len() - MOST_NAMED;
            format!("{} and {more} more", first.join(", "))
        }
        _ => things.join(", "),
    }
}
