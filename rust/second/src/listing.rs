//! The listing: the text that the program writes for a table file and a run file (01, Listing; 02, No. 2).

use crate::across::lifted;
use crate::game::{markings_along, play, Game};
use crate::lent::list_of;
use crate::records::{steps_of_record, RUN};
use crate::refusal::{require, Answer, Refusal};
use crate::table::read_table;
use crate::unfolding::unfold;

/// The most bytes of a table file.
pub const MOST_NET_BYTES: usize = 65_536;

/// The most bytes of a run file.
pub const MOST_RUN_BYTES: usize = 8_196;

/// A marking as text: its conditions with commas, or a dash where nothing holds.
fn marking_text(marking: &[bool]) -> String {
    let list = list_of(marking);
    if list.is_empty() {
        return "-".to_string();
    }
    let texts: Vec<String> = list.iter().map(usize::to_string).collect();
    texts.join(",")
}

/// The lines of the listing, or the refusal that takes their place.
fn lines(net_file: &[u8], run_file: &[u8]) -> Answer<Vec<String>> {
    require(net_file.len() <= MOST_NET_BYTES, 19, 0)?;
    let net = read_table(net_file)?.net;
    require(run_file.len() <= MOST_RUN_BYTES, 19, 0)?;
    let run = steps_of_record(run_file, RUN)?;
    let unfolding = unfold(&net)?;
    let unfolded_run = lifted(&net, &unfolding, &run)?;
    let markings = markings_along(&net, net.start(), &run)?;
    let end = play(&unfolding, unfolding.start(), &unfolded_run)?;
    let mut lines = vec![format!("start {}", marking_text(&markings[0]))];
    for (step, (event, number)) in run.iter().zip(&unfolded_run).enumerate() {
        let after = marking_text(&markings[step + 1]);
        lines.push(format!("{step} {event} {number} {after}"));
    }
    lines.push(format!("end unfolded {}", marking_text(&end)));
    Ok(lines)
}

/// The line of a refusal: its number and place, and for 11 and 12 the condition.
pub fn refusal_line(refusal: Refusal) -> String {
    let Refusal { number, place, by } = refusal;
    match by {
        None => format!("refused {number} at {place}"),
        Some(condition) => format!("refused {number} at {place} by {condition}"),
    }
}

/// The text of the listing for the bytes of the two files; every line ends in a newline.
pub fn listing(net_file: &[u8], run_file: &[u8]) -> String {
    let lines = lines(net_file, run_file).unwrap_or_else(|refusal| vec![refusal_line(refusal)]);
    lines.iter().map(|line| format!("{line}\n")).collect()
}
