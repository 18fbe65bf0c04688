//! What was seen: how often each call gave each refusal, by which kind of condition, which kinds of repeats were lifted or refused, which
//! events were lossy or what spared them, what tables stated as their rule and what came of it, and whether any was missed.

use std::collections::{BTreeMap, BTreeSet};

use second::calls::{condition_behind, is_persistent, judge};
use second::losses::{spared, Spared};
use second::records::words;
use second::repeats::{repeats, Repeat};
use second::table::read_table;
use wire::{Call, Reply, Request};

use crate::rules::{rules_met, Ruled};

/// What is told of an outcome beside its number.
#[derive(Clone, Copy, PartialEq, Eq, PartialOrd, Ord)]
enum More {
    Nothing,
    /// A 3 is that of a run's length, and not of a record of the table.
    OfRun,
    /// An 11 or 12 is by such a condition.
    Ordinary,
    Persistent,
    Copy,
}

impl More {
    /// In words, after the number.
    fn text(self) -> &'static str {
        match self {
            More::Nothing => "",
            More::OfRun => " of the run",
            More::Ordinary => " by an ordinary condition",
            More::Persistent => " by a persistent condition",
            More::Copy => " by a copy",
        }
    }
}

/// What a call came to: 0 or a refusal's number, and what is told beside it.
type Outcome = (u64, More);

/// Every number and kind of condition that a step can be stopped by, with the words above its column; a persistent condition of the
/// table makes no contact.
const STOPS: [(u64, More, &str); 5] = [
    (11, More::Ordinary, "11 ordinary"),
    (11, More::Persistent, "11 persistent"),
    (11, More::Copy, "11 copy"),
    (12, More::Ordinary, "12 ordinary"),
    (12, More::Copy, "12 copy"),
];

/// The refusals of a table.
const TABLE: [u64; 9] = [1, 2, 3, 4, 5, 6, 7, 8, 9];

/// The refusals that a call can give after those of the table, by the header; 3 is that of the run's length.
fn own_refusals(call: Call) -> &'static [u64] {
    match call {
        Call::Judge | Call::Counts => &[],
        Call::Pre | Call::Post => &[10, 16],
        Call::Start | Call::Lossy => &[16],
        Call::CanFire | Call::Fire => &[10, 11, 12, 18],
        Call::Replay => &[3, 10, 11, 12, 16],
        Call::Exchange => &[3, 10, 11, 12, 17],
        Call::UnfoldedCounts | Call::ElementCount => &[13, 14],
        Call::EventOrigin | Call::UnfoldedPre | Call::UnfoldedPost | Call::Element => {
            &[10, 13, 14, 16]
        }
        Call::EventNumber | Call::ConditionOrigin | Call::ConditionNumber => &[10, 13, 14],
        Call::UnfoldedStart => &[13, 14, 16],
        Call::UnfoldedFire => &[10, 11, 12, 13, 14, 18],
        Call::Lift | Call::LiftEnd => &[3, 10, 11, 12, 13, 14, 15, 16],
        Call::Project | Call::UnfoldedReplay => &[3, 10, 11, 12, 13, 14, 16],
        Call::ReadRun | Call::ReadLifted => &[1, 2, 3, 9, 16],
        Call::WriteRun | Call::WriteLifted => &[3, 16],
    }
}

/// A call fires unfolded events, so that unfolded conditions stop it.
fn is_unfolded(call: Call) -> bool {
    matches!(
        call,
        Call::UnfoldedFire | Call::Project | Call::UnfoldedReplay
    )
}

/// A call can be stopped by conditions of this kind.
fn can_stop(call: Call, kind: More) -> bool {
    kind == More::Ordinary || (kind == More::Copy) == is_unfolded(call)
}

/// What a call can come to by one of its own refusals: 11 and 12 by each kind of condition.
fn own_outcomes(call: Call, number: u64) -> Vec<Outcome> {
    match number {
        3 => vec![(3, More::OfRun)],
        11 | 12 => STOPS
            .iter()
            .filter(|(stop, kind, _)| *stop == number && can_stop(call, *kind))
            .map(|(stop, kind, _)| (*stop, *kind))
            .collect(),
        _ => vec![(number, More::Nothing)],
    }
}

/// Everything that a call can come to.
fn outcomes(call: Call) -> Vec<Outcome> {
    let own = own_refusals(call).iter();
    let own = own.flat_map(|number| own_outcomes(call, *number));
    let table = TABLE.iter().map(|n| (*n, More::Nothing));
    let table = table.filter(|_| !call.is_on_record());
    let fine = [(0, More::Nothing)];
    fine.into_iter().chain(table).chain(own).collect()
}

/// The kind of the condition that stopped a step.
fn kind_of(request: &Request, by: u64) -> More {
    let by = by as u16;
    if is_unfolded(request.call) {
        return match condition_behind(&request.table, by) {
            Ok(behind) if behind.copy.is_none() => More::Ordinary,
            _ => More::Copy,
        };
    }
    match is_persistent(&request.table, by) {
        Ok(false) => More::Ordinary,
        _ => More::Persistent,
    }
}

/// What one case came to.
fn outcome(request: &Request, reply: &Reply) -> Outcome {
    let more = match reply.number {
        3 if request.call.is_on_record() || judge(&request.table).is_ok() => More::OfRun,
        11 | 12 => kind_of(request, reply.by),
        _ => More::Nothing,
    };
    (reply.number, more)
}

/// The calls that lift a run.
const LIFTS: [Call; 2] = [Call::Lift, Call::LiftEnd];

/// The kinds of repeats that one case met: those of a run that was lifted, or the one for which it was refused.
fn repeats_met(request: &Request, reply: &Reply) -> BTreeSet<Repeat> {
    let is_told = LIFTS.contains(&request.call) && matches!(reply.number, 0 | 15);
    let Some(table) = read_table(&request.table).ok().filter(|_| is_told) else {
        return BTreeSet::new();
    };
    let mut met = repeats(&table.net, &words(&request.given));
    met.retain(|kind| kind.is_refused() == (reply.number == 15));
    met
}

/// What an event can be to the call that tells the lossy ones: lossy, or spared for one reason alone; with the words above its column.
fn losses() -> impl Iterator<Item = (Option<Spared>, &'static str)> {
    let reasons = Spared::ALL.into_iter();
    let alone = reasons.map(|(reason, words)| (Some(reason), words));
    [(None, "lossy")].into_iter().chain(alone)
}

/// What the events of one case are to it; one that several reasons spare would be spared without any one of them.
fn losses_met(request: &Request, reply: &Reply) -> Vec<Option<Spared>> {
    let is_told = request.call == Call::Lossy && reply.number == 0;
    let Some(table) = read_table(&request.table).ok().filter(|_| is_told) else {
        return Vec::new();
    };
    let events = (0..=u16::MAX).take(table.net.events.len());
    let reasons = events.map(|event| spared(&table.net, event));
    let met = reasons.filter(|reasons| reasons.len() < 2);
    met.map(|reasons| reasons.first().copied()).collect()
}

/// A line of a table: what it is of, then columns.
fn row(of: &str, columns: impl Iterator<Item = String>) -> String {
    let mut text = format!("{of:<18}");
    columns.for_each(|column| text.push_str(&format!("{column:>15}")));
    format!("{}\n", text.trim_end())
}

/// A count as it is shown: nothing where it is 0.
fn shown(count: u64) -> String {
    match count {
        0 => String::new(),
        count => count.to_string(),
    }
}

/// A call fires events, of the table or unfolded ones.
fn fires(call: Call) -> bool {
    own_refusals(call).contains(&11)
}

/// How often each call came to each outcome, those that lift met each kind of repeat, each met what there is of the rules, and the one that
/// tells lossy events met each kind of event.
#[derive(Default)]
pub struct Tally {
    seen: BTreeMap<(Call, Outcome), u64>,
    repeats: BTreeMap<(Call, Repeat), u64>,
    rules: BTreeMap<(Call, Ruled), u64>,
    losses: BTreeMap<Option<Spared>, u64>,
}

impl Tally {
    /// Counts a case.
    pub fn count(&mut self, request: &Request, reply: &Reply) {
        let key = (request.call, outcome(request, reply));
        *self.seen.entry(key).or_default() += 1;
        for kind in repeats_met(request, reply) {
            *self.repeats.entry((request.call, kind)).or_default() += 1;
        }
        for kind in rules_met(request, reply) {
            *self.rules.entry((request.call, kind)).or_default() += 1;
        }
        for kind in losses_met(request, reply) {
            *self.losses.entry(kind).or_default() += 1;
        }
    }

    /// How often a call came to a number.
    fn of(&self, call: Call, number: u64) -> u64 {
        let (first, last) = ((number, More::Nothing), (number, More::Copy));
        let seen = self.seen.range((call, first)..=(call, last));
        seen.map(|(_, count)| count).sum()
    }

    /// The table of what stopped steps: a row for each call that fires, a column for each number and kind of condition.
    fn stops_table(&self) -> String {
        let words = STOPS.iter().map(|(_, _, words)| words.to_string());
        let mut text = row("stopped by", words);
        for (call, name) in Call::ALL.into_iter().filter(|(call, _)| fires(*call)) {
            let count = |number, kind| self.seen.get(&(call, (number, kind))).copied();
            let counts = STOPS.iter().map(|(number, kind, _)| count(*number, *kind));
            text += &row(name, counts.map(|count| shown(count.unwrap_or(0))));
        }
        text
    }

    /// The table of repeats: a row for each call that lifts, a column for each kind.
    fn repeats_table(&self) -> String {
        let words = Repeat::ALL.iter().map(|(_, words)| words.to_string());
        let mut text = row("repeats", words);
        for call in LIFTS {
            let count = |kind| self.repeats.get(&(call, kind)).copied();
            let counts = Repeat::ALL.iter().map(|(kind, _)| count(*kind));
            text += &row(call.name(), counts.map(|count| shown(count.unwrap_or(0))));
        }
        text
    }

    /// The table of lossy events and of those that one reason alone spares.
    fn losses_table(&self) -> String {
        let counts = losses().map(|(kind, _)| self.losses.get(&kind).copied());
        let mut text = row("events", losses().map(|(_, words)| words.to_string()));
        text += &row(
            Call::Lossy.name(),
            counts.map(|count| shown(count.unwrap_or(0))),
        );
        text
    }

    /// How often all calls together met a rule's record that is broken in some way.
    fn of_broken(&self, kind: Ruled) -> u64 {
        let met = self.rules.iter().filter(|((_, met), _)| *met == kind);
        met.map(|(_, count)| count).sum()
    }

    /// The tables of rules: a row for each call on a table, a column for each thing met; then what all calls met of broken records.
    fn rules_table(&self) -> String {
        let words = Ruled::BY_CALL.iter().map(|(_, words)| words.to_string());
        let mut text = row("rules", words);
        let on_table = |(call, _): &(Call, &str)| !call.is_on_record();
        for (call, name) in Call::ALL.into_iter().filter(on_table) {
            let count = |kind| self.rules.get(&(call, kind)).copied();
            let counts = Ruled::BY_CALL.iter().map(|(kind, _)| count(*kind));
            text += &row(name, counts.map(|count| shown(count.unwrap_or(0))));
        }
        let words = Ruled::BROKEN.iter().map(|(_, words)| words.to_string());
        let counts = Ruled::BROKEN.iter().map(|(kind, _)| self.of_broken(*kind));
        text += &row("broken rules", words);
        text + &row("all calls", counts.map(shown))
    }

    /// The tables of counts: a row for each call, a column for each number; of 11 and 12 the conditions; of lifts the repeats; of lossy
    /// events what they are; the rules.
    pub fn table(&self) -> String {
        let mut text = format!("{:<18}{:>9}{:>9}", "call", "cases", "fine");
        (1..=18).for_each(|number| text.push_str(&format!("{number:>6}")));
        text.push('\n');
        for (call, name) in Call::ALL {
            let cases: u64 = (0..=18).map(|number| self.of(call, number)).sum();
            text.push_str(&format!("{name:<18}{cases:>9}{:>9}", self.of(call, 0)));
            for number in 1..=18 {
                text.push_str(&format!("{:>6}", shown(self.of(call, number))));
            }
            text.truncate(text.trim_end().len());
            text.push('\n');
        }
        text + &self.stops_table()
            + &self.repeats_table()
            + &self.losses_table()
            + &self.rules_table()
    }

    /// What no event was to the call that tells the lossy ones, as text.
    fn missed_losses(&self) -> impl Iterator<Item = String> + '_ {
        let missed = losses().filter(|(kind, _)| !self.losses.contains_key(kind));
        missed.map(|(_, words)| format!("lossy never met an event '{words}'"))
    }

    /// What no case met of the rules by a call, as text.
    fn missed_rules(&self, call: Call) -> impl Iterator<Item = String> + '_ {
        let can_be = move |(kind, _): &(Ruled, &str)| kind.can_be_met(call, fires(call));
        let unmet = move |(kind, _): &(Ruled, &str)| !self.rules.contains_key(&(call, *kind));
        let missed = Ruled::BY_CALL.into_iter().filter(can_be).filter(unmet);
        missed.map(move |(_, words)| format!("{} never met '{words}'", call.name()))
    }

    /// The broken Rule records that no case of any call met, as text.
    fn missed_broken(&self) -> impl Iterator<Item = String> + '_ {
        let unmet = |(kind, _): &(Ruled, &str)| self.of_broken(*kind) == 0;
        let missed = Ruled::BROKEN.into_iter().filter(unmet);
        missed.map(|(_, words)| format!("no call met a rule broken by '{words}'"))
    }

    /// The outcomes that no case came to, the repeats and what there is of the rules that none met, of one call or of all, as text.
    pub fn missed(&self, only: Option<Call>) -> Vec<String> {
        let mut missed = Vec::new();
        let wanted = |(call, _): &(Call, &str)| only.is_none_or(|only| only == *call);
        for (call, name) in Call::ALL.into_iter().filter(wanted) {
            for outcome in outcomes(call) {
                if !self.seen.contains_key(&(call, outcome)) {
                    let more = outcome.1.text();
                    missed.push(format!("{name} never came to {}{more}", outcome.0));
                }
            }
            for (kind, words) in Repeat::ALL {
                if LIFTS.contains(&call) && !self.repeats.contains_key(&(call, kind)) {
                    missed.push(format!("{name} never met a repeat '{words}'"));
                }
            }
            missed.extend(self.missed_rules(call));
            if call == Call::Lossy {
                missed.extend(self.missed_losses());
            }
        }
        if only.is_none() {
            missed.extend(self.missed_broken());
        }
        missed
    }

    /// The outcomes that came though the header does not list them, as text.
    pub fn unlisted(&self) -> Vec<String> {
        let listed = |key: &&(Call, Outcome)| !outcomes(key.0).contains(&key.1);
        let told = |(call, (number, more)): &(Call, Outcome)| {
            format!("{} came to {number}{}", call.name(), more.text())
        };
        self.seen.keys().filter(listed).map(told).collect()
    }
}

/// How large what was asked and answered came to be.
#[derive(Default)]
pub struct Sizes {
    table: usize,
    given: usize,
    lent: usize,
    long_runs: u64,
    large_tables: u64,
    large_unfoldings: u64,
    far_elements: u64,
}

impl Sizes {
    /// Counts a case: only calls that worked count as long or large.
    pub fn count(&mut self, request: &Request, reply: &Reply) {
        self.table = self.table.max(request.table.len());
        self.given = self.given.max(request.given.len());
        self.lent = self.lent.max(request.lent.len());
        let worked = reply.number == 0;
        let on_run = [
            Call::Replay,
            Call::Exchange,
            Call::Lift,
            Call::LiftEnd,
            Call::Project,
            Call::UnfoldedReplay,
        ];
        let long = on_run.contains(&request.call) && request.given.len() > 2 * 4_000;
        let unfolded = request.call == Call::UnfoldedCounts;
        let large = reply.values[..2].iter().any(|count| *count > 60_000);
        self.long_runs += u64::from(worked && long);
        self.large_tables += u64::from(worked && request.table.len() > 60_000);
        self.large_unfoldings += u64::from(worked && unfolded && large);
        let far = request.call == Call::Element && request.numbers[0] > 60_000;
        self.far_elements += u64::from(worked && far);
    }

    /// The sizes as lines.
    pub fn text(&self) -> String {
        format!(
            "largest: table {} bytes, given {} bytes, lent {} bytes\n\
             worked: {} on runs of over 4,000 steps, {} on tables of over 60,000 bytes, {} counted over 60,000 unfolded, \
             {} wrote elements past number 60,000\n",
            self.table,
            self.given,
            self.lent,
            self.long_runs,
            self.large_tables,
            self.large_unfoldings,
            self.far_elements
        )
    }
}
