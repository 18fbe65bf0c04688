//! What the rule of a table has to do with a case, so that the tally can tell what was met (02, No. 4).

use second::game::Game;
use second::records::{HEADER, RULE};
use second::table::{read_table, Net, Rule};
use second::unfolding::unfold;
use wire::{Call, Reply, Request};

use crate::expected::expected;

/// What a case met of the rules.
#[derive(Clone, Copy, Debug, PartialEq, Eq, PartialOrd, Ord)]
pub enum Ruled {
    /// The table was accepted, and a Rule record of 0 or of 1 stood there.
    Paper,
    Old,
    /// A 12 that is the old rule's alone: by the paper's rule the event would have fired.
    OldAlone,
    /// A 12 by a lower condition than the paper's rule tells.
    OldLower,
    /// An arc of the export from or to the second place of a condition that the event both takes and puts.
    SecondTaken,
    SecondPut,
    /// An export with such arcs was counted.
    SecondCounted,
    /// A refused table whose first record is a Rule that is cut off.
    Cut,
    /// One that ends right after the Rule record.
    EndsAfter,
    /// One with two Rule records in front.
    Twice,
    /// One with a Rule record further on.
    Elsewhere,
    /// One whose Rule record has no byte, more than one, or another byte.
    NoByte,
    ManyBytes,
    OtherByte,
}

impl Ruled {
    /// What is met call by call, in words.
    pub const BY_CALL: [(Ruled, &'static str); 7] = [
        (Ruled::Paper, "rule 0"),
        (Ruled::Old, "rule 1"),
        (Ruled::OldAlone, "12 old alone"),
        (Ruled::OldLower, "12 old lower"),
        (Ruled::SecondTaken, "q taken"),
        (Ruled::SecondPut, "q put back"),
        (Ruled::SecondCounted, "q counted"),
    ];

    /// What the judge of a table refuses, in words; every call has the same judge.
    pub const BROKEN: [(Ruled, &'static str); 7] = [
        (Ruled::Cut, "1 cut"),
        (Ruled::EndsAfter, "1 after it"),
        (Ruled::Twice, "2 twice"),
        (Ruled::Elsewhere, "2 elsewhere"),
        (Ruled::NoByte, "3 no byte"),
        (Ruled::ManyBytes, "3 many bytes"),
        (Ruled::OtherByte, "4 other byte"),
    ];

    /// A call can meet this, by whether it fires events.
    pub fn can_be_met(self, call: Call, fires: bool) -> bool {
        match self {
            Ruled::Paper | Ruled::Old => !call.is_on_record(),
            Ruled::OldAlone | Ruled::OldLower => fires,
            Ruled::SecondTaken | Ruled::SecondPut => call == Call::Element,
            Ruled::SecondCounted => call == Call::ElementCount,
            _ => false,
        }
    }
}

/// The kind of the record at an offset is that of a Rule.
fn is_rule(table: &[u8], offset: usize) -> bool {
    table.get(offset + 2..offset + HEADER) == Some(&RULE.to_le_bytes())
}

/// How the Rule record of a refused table is broken, if its refusal is of such a record.
fn broken(table: &[u8], number: u8, place: usize) -> Option<Ruled> {
    let after = HEADER + 1;
    match (number, place, is_rule(table, place)) {
        (1, 0, true) => Some(Ruled::Cut),
        (1, _, _) if place == after && table.len() == after && is_rule(table, 0) => {
            Some(Ruled::EndsAfter)
        }
        (2, _, true) if place == after && is_rule(table, 0) => Some(Ruled::Twice),
        (2, _, true) => Some(Ruled::Elsewhere),
        (3, _, true) if table[0] == 0 && table[1] == 0 => Some(Ruled::NoByte),
        (3, _, true) => Some(Ruled::ManyBytes),
        (4, _, true) => Some(Ruled::OtherByte),
        _ => None,
    }
}

/// What the same request comes to by the paper's rule, where its table states the old one.
fn by_paper(request: &Request) -> Reply {
    let mut request = request.clone();
    request.table[HEADER] = Rule::Paper.byte();
    expected(&request)
}

/// What a 12 by the old rule has of it: the paper's rule has no 12 at that step, or one by another condition.
fn contact_kind(request: &Request, reply: &Reply) -> Option<Ruled> {
    let paper = by_paper(request);
    let is_firing = matches!(
        request.call,
        Call::CanFire | Call::Fire | Call::UnfoldedFire
    );
    let is_12_too = paper.number == 12 && (is_firing || paper.place == reply.place);
    match (is_12_too, paper.by == reply.by) {
        (false, _) => Some(Ruled::OldAlone),
        (true, false) => Some(Ruled::OldLower),
        (true, true) => None,
    }
}

/// The number after a letter.
fn number_after(letter: char, id: &str) -> Option<u16> {
    id.strip_prefix(letter)?.parse().ok()
}

/// Which of the old rule's arcs an element of the export is, if it is one.
fn arc_kind(net: &Net, element: &str) -> Option<Ruled> {
    let words: Vec<&str> = element.split('"').collect();
    let (source, target) = (words.get(3)?, words.get(5)?);
    let taken = number_after('q', source).zip(number_after('t', target));
    let put = number_after('q', target).zip(number_after('t', source));
    let (condition, event) = taken.or(put)?;
    let event = unfold(net).ok()?.event(event)?;
    let both =
        event.preconditions.contains(&condition) && event.postconditions.contains(&condition);
    both.then_some(match taken {
        Some(_) => Ruled::SecondTaken,
        None => Ruled::SecondPut,
    })
}

/// What a case on a table of the old rule met beside that.
fn old_kind(request: &Request, reply: &Reply, net: &Net) -> Option<Ruled> {
    match (request.call, reply.number) {
        (_, 12) => contact_kind(request, reply),
        (Call::Element, 0) => {
            let text = reply.lent.get(..reply.values[0] as usize)?;
            arc_kind(net, std::str::from_utf8(text).ok()?)
        }
        (Call::ElementCount, 0) => {
            let more = by_paper(request).values[0] < reply.values[0];
            more.then_some(Ruled::SecondCounted)
        }
        _ => None,
    }
}

/// What a case met of the rules.
pub fn rules_met(request: &Request, reply: &Reply) -> Vec<Ruled> {
    if request.call.is_on_record() {
        return Vec::new();
    }
    let table = match read_table(&request.table) {
        Ok(table) => table,
        Err(refusal) => {
            let broken = broken(&request.table, refusal.number, refusal.place);
            return broken.into_iter().collect();
        }
    };
    match table.net.rule {
        None => Vec::new(),
        Some(Rule::Paper) => vec![Ruled::Paper],
        Some(Rule::Old) => {
            let more = old_kind(request, reply, &table.net);
            [Ruled::Old].into_iter().chain(more).collect()
        }
    }
}
