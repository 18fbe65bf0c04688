//! Random small nets with answers, as lines for the proved model: those of its own table of examples, in its own notation, and lines
//! on what is refused, with the condition that stopped it, which the written module says how to compute.

use crate::across::{lifted, projected};
use crate::calls;
use crate::game::{exchanged, fire, play, Game, Stop};
use crate::generator::{
    condition_limit_net, event_limit_net, repeating_unfolding, small_net, walk, Random, Walk,
};
use crate::lent::{list_of, marking_of};
use crate::records::MOST_STEPS;
use crate::refusal::{Answer, Refusal};
use crate::repeats::{repeats, Repeat};
use crate::table::{table_bytes, Event, Net, Rule};
use crate::unfolding::{counts, judge_unfolding, unfold, Marker, UnfoldedEvent, Unfolding};

/// The most unfolded events of a net in a line, so that a line is checked quickly.
const MOST_EVENTS: u128 = 300;

/// The lines in one list, so that no list is too long to check.
const CHUNK: usize = 50;

/// Every kind of line, with the number of the refusal that it shows (0 for none), but for 15, which comes with the kinds of repeats; those
/// that say most come more often.
const KINDS: [(&str, u8); 43] = [
    ("counts", 0),
    ("lists", 0),
    ("lists", 0),
    ("behind", 0),
    ("numbered", 0),
    ("numbered", 10),
    ("unfolded", 0),
    ("notUnfolded", 13),
    ("stops", 0),
    ("stops", 10),
    ("stops", 11),
    ("stops", 12),
    ("stopsUnfolded", 0),
    ("stopsUnfolded", 10),
    ("stopsUnfolded", 11),
    ("stopsUnfolded", 12),
    ("fires", 0),
    ("fires", 0),
    ("plays", 0),
    ("plays", 0),
    ("notPlayed", 10),
    ("notPlayed", 11),
    ("notPlayed", 12),
    ("lifts", 0),
    ("lifts", 0),
    ("lifts", 0),
    ("notLifted", 10),
    ("notLifted", 11),
    ("notLifted", 12),
    ("notLifted", 13),
    ("projects", 0),
    ("projects", 0),
    ("notProjected", 10),
    ("notProjected", 11),
    ("notProjected", 12),
    ("notProjected", 13),
    ("exchanges", 0),
    ("exchanges", 0),
    ("notExchanged", 10),
    ("notExchanged", 11),
    ("notExchanged", 12),
    ("notExchanged", 17),
    ("notExchanged", 17),
];

/// The kinds of the written module itself; the others are the model's own.
const OWN: [&str; 6] = [
    "stops",
    "stopsUnfolded",
    "notPlayed",
    "notLifted",
    "notProjected",
    "notExchanged",
];

/// A line with its kind and the number of the refusal that it shows.
struct Line {
    kind: &'static str,
    number: u8,
    text: String,
}

/// A list in the notation: its elements, then the empty list.
fn list_text<T: ToString>(elements: &[T]) -> String {
    if elements.is_empty() {
        return "[]".to_string();
    }
    let texts: Vec<String> = elements.iter().map(T::to_string).collect();
    format!("({} ∷ [])", texts.join(" ∷ "))
}

/// An event in the notation.
fn row_text(event: &Event) -> String {
    let before = list_text(&event.preconditions);
    let after = list_text(&event.postconditions);
    format!("({before} ↝ {after})")
}

/// A net in the notation, under the rule that it has.
fn net_text(net: &Net) -> String {
    let kinds: Vec<u8> = net.persistent.iter().map(|p| u8::from(*p)).collect();
    let rows: Vec<String> = net.events.iter().map(row_text).collect();
    let start = list_text(&net.start);
    let text = format!("(net {} {} {start})", list_text(&kinds), list_text(&rows));
    match net.rule() {
        Rule::Paper => text,
        Rule::Old => format!("(underOld {text})"),
    }
}

/// The same net under the paper's rule.
fn by_paper(net: &Net) -> Net {
    Net {
        rule: None,
        ..net.clone()
    }
}

/// A marker in the notation.
fn marker_text(marker: &Marker) -> String {
    match marker {
        Marker::Start => "atStart".to_string(),
        Marker::ByEvent(event) => format!("byEvent {event}"),
    }
}

/// Markers in the notation.
fn markers_text(markers: &[Marker]) -> String {
    let texts: Vec<String> = markers.iter().map(marker_text).collect();
    list_text(&texts)
}

/// A condition in the notation, or that there is none.
fn condition_text(by: Option<u16>) -> String {
    by.map_or("none".to_string(), |condition| {
        format!("(some {condition})")
    })
}

/// What stops a firing in the notation, or that nothing does.
fn stop_text(stop: Option<Stop>) -> String {
    match stop {
        None => "none".to_string(),
        Some(Stop { number: 11, by }) => format!("(some (lacks {}))", by.unwrap_or_default()),
        Some(Stop { number: 12, by }) => format!("(some (meets {}))", by.unwrap_or_default()),
        Some(_) => "(some unknown)".to_string(),
    }
}

/// A line from a kind, the refusal number that it shows, its net and the rest of its text.
fn line(kind: &'static str, number: u8, net: &Net, rest: String) -> Line {
    let text = format!("{kind} {} {rest}", net_text(net));
    let text = match (text.trim_end(), OWN.contains(&kind)) {
        (own, true) => own.to_string(),
        (example, false) => format!("example ({example})"),
    };
    Line { kind, number, text }
}

/// A line from an answer: one kind for a value, with its text, another for a refusal, with the text of what was asked.
fn answer_line<T>(
    net: &Net,
    kinds: (&'static str, &'static str),
    asked: &str,
    answer: Answer<T>,
    value_text: impl Fn(&T) -> String,
) -> Line {
    match answer {
        Ok(value) => line(kinds.0, 0, net, format!("{asked} {}", value_text(&value))),
        Err(Refusal { number, place, by }) => {
            let by = condition_text(by);
            line(
                kinds.1,
                number,
                net,
                format!("{asked} {number} {place} {by}"),
            )
        }
    }
}

/// The numbers of unfolded conditions and events.
fn counts_line(net: &Net) -> Line {
    let counts = counts(net);
    line(
        "counts",
        0,
        net,
        format!("{} {}", counts.conditions, counts.events),
    )
}

/// Whether the net unfolds.
fn unfolding_line(net: &Net) -> Line {
    match judge_unfolding(net) {
        Ok(()) => line("unfolded", 0, net, String::new()),
        Err(r) => line(
            "notUnfolded",
            r.number,
            net,
            format!("{} {}", r.number, r.place),
        ),
    }
}

/// The two lists of an unfolded event.
fn lists_line(random: &mut Random, net: &Net, unfolding: &Unfolding) -> Option<Line> {
    let number = random.below(unfolding.events.len()) as u16;
    let event = unfolding.event(number)?;
    let before = list_text(&event.preconditions);
    let after = list_text(&event.postconditions);
    Some(line("lists", 0, net, format!("{number} {before} {after}")))
}

/// The event behind an unfolded event number.
fn behind_line(random: &mut Random, net: &Net, unfolding: &Unfolding) -> Option<Line> {
    let number = random.below(unfolding.events.len());
    let event = unfolding.events.get(number)?.event;
    Some(line("behind", 0, net, format!("{number} {event}")))
}

/// Markers that may be wrong in number or kind.
fn any_markers(random: &mut Random, net: &Net) -> Vec<Marker> {
    let marker = |choice: usize| match choice {
        0 => Marker::Start,
        _ => Marker::ByEvent(choice as u16 - 1),
    };
    (0..random.below(4))
        .map(|_| marker(random.below(net.events.len() + 2)))
        .collect()
}

/// The number of an event with markers; where there is none the model gives the count, which numbers nothing.
fn numbered_line(random: &mut Random, net: &Net, unfolding: &Unfolding) -> Option<Line> {
    let place = random.below(unfolding.events.len());
    let mut asked = unfolding.events.get(place)?.clone();
    if random.percent(50) {
        asked = UnfoldedEvent {
            event: random.below(net.events.len() + 1) as u16,
            markers: any_markers(random, net),
        };
    }
    let (event, markers) = (asked.event, markers_text(&asked.markers));
    let (shown, number) = match unfolding.event_number(&asked) {
        Some(number) => (0, usize::from(number)),
        None => (10, unfolding.events.len()),
    };
    Some(line(
        "numbered",
        shown,
        net,
        format!("{event} {markers} {number}"),
    ))
}

/// A random list of the conditions that hold, of so many.
fn any_held(random: &mut Random, conditions: usize) -> Vec<u16> {
    (0..=u16::MAX)
        .take(conditions)
        .filter(|_| random.percent(60))
        .collect()
}

/// A firing at a random marking, as a line on what stops it or on the marking after.
fn firing_line(random: &mut Random, net: &Net) -> Line {
    let conditions = net.persistent.len();
    let held = any_held(random, conditions);
    let event = random.below(net.events.len() + 1) as u16;
    let asked = format!("{} {event}", list_text(&held));
    match fire(net, &marking_of(&held, conditions), event) {
        Ok(after) if random.percent(70) => {
            let after = list_text(&list_of(&after));
            line("fires", 0, net, format!("{asked} {after}"))
        }
        fired => stop_line("stops", net, &asked, fired.err()),
    }
}

/// A line on what stops a firing, or that nothing does.
fn stop_line(kind: &'static str, net: &Net, asked: &str, stop: Option<Stop>) -> Line {
    let number = stop.map_or(0, |stop| stop.number);
    line(kind, number, net, format!("{asked} {}", stop_text(stop)))
}

/// A firing at a random marking of the unfolded net, as a line on what stops it.
fn unfolded_firing_line(random: &mut Random, net: &Net, unfolding: &Unfolding) -> Line {
    let conditions = unfolding.conditions.len();
    let held = any_held(random, conditions);
    let number = random.below(unfolding.events.len() + 1) as u16;
    let fired = fire(unfolding, &marking_of(&held, conditions), number);
    let asked = format!("{} {number}", list_text(&held));
    stop_line("stopsUnfolded", net, &asked, fired.err())
}

/// A way to walk of at most six steps.
fn short_walk(random: &mut Random) -> Walk {
    Walk {
        steps: random.below(7),
        arbitrary: [0, 10, 40][random.below(3)],
        avoid_repeats: random.percent(60),
    }
}

/// A short run of the table that mostly fires by the paper's rule, so that the old rule often stops it.
fn short_run(random: &mut Random, net: &Net) -> Vec<u16> {
    let way = short_walk(random);
    walk(random, &by_paper(net), net.events.len(), &way)
}

/// A replay.
fn replay_line(random: &mut Random, net: &Net) -> Line {
    let run = short_run(random, net);
    let end = play(net, net.start(), &run);
    let text = |end: &Vec<bool>| list_text(&list_of(end));
    answer_line(net, ("plays", "notPlayed"), &list_text(&run), end, text)
}

/// The lifted run of a run and its end in the unfolded net.
fn lift_of(net: &Net, run: &[u16]) -> Answer<(Vec<u16>, Vec<bool>)> {
    let unfolding = unfold(net)?;
    let lifted = lifted(net, &unfolding, run)?;
    let end = play(&unfolding, unfolding.start(), &lifted)?;
    Ok((lifted, end))
}

/// A lift of a run with its end.
fn lift_line(net: &Net, run: &[u16]) -> Line {
    let text = |(lifted, end): &(Vec<u16>, Vec<bool>)| {
        format!("{} {}", list_text(lifted), list_text(&list_of(end)))
    };
    let answer = lift_of(net, run);
    answer_line(net, ("lifts", "notLifted"), &list_text(run), answer, text)
}

/// A lift of a random run, if it has the wanted kind of repeat and lifts unless that kind does not.
fn repeat_line(random: &mut Random, kind: Repeat) -> Option<Line> {
    let (net, _) = repeating_unfolding(random);
    let way = Walk {
        steps: random.between(2, 7),
        arbitrary: 0,
        avoid_repeats: random.percent(50),
    };
    let run = walk(random, &net, net.events.len(), &way);
    let kinds = repeats(&net, &run);
    let is_refused = kinds.iter().any(|kind| kind.is_refused());
    let wanted = kinds.contains(&kind) && is_refused == kind.is_refused();
    wanted.then(|| lift_line(&net, &run))
}

/// A projection of a run that mostly fires by the paper's rule.
fn project_line(random: &mut Random, net: &Net, unfolding: &Unfolding) -> Line {
    let way = short_walk(random);
    let walked = Unfolding::of(&by_paper(net));
    let run = walk(random, &walked, walked.events.len(), &way);
    let answer = judge_unfolding(net).and_then(|()| projected(unfolding, &run));
    let text = |run: &Vec<u16>| list_text(run);
    answer_line(
        net,
        ("projects", "notProjected"),
        &list_text(&run),
        answer,
        text,
    )
}

/// An exchange.
fn exchange_line(random: &mut Random, net: &Net) -> Line {
    let run = short_run(random, net);
    let k = random.below(run.len() + 1);
    let asked = format!("{} {k}", list_text(&run));
    let text = |run: &Vec<u16>| list_text(run);
    let answer = exchanged(net, &run, k);
    answer_line(net, ("exchanges", "notExchanged"), &asked, answer, text)
}

/// A random line on a net that may be of the wanted kind; what it asks does not depend on the net's rule.
fn candidate(random: &mut Random, net: &Net, kind: &str) -> Option<Line> {
    if counts(net).events > MOST_EVENTS {
        return None;
    }
    let unfolding = Unfolding::of(net);
    match kind {
        "counts" => Some(counts_line(net)),
        "lists" => lists_line(random, net, &unfolding),
        "behind" => behind_line(random, net, &unfolding),
        "numbered" => numbered_line(random, net, &unfolding),
        "unfolded" | "notUnfolded" => Some(unfolding_line(net)),
        "stops" | "fires" => Some(firing_line(random, net)),
        "stopsUnfolded" => Some(unfolded_firing_line(random, net, &unfolding)),
        "plays" | "notPlayed" => Some(replay_line(random, net)),
        "lifts" | "notLifted" => {
            let run = short_run(random, net);
            Some(lift_line(net, &run))
        }
        "projects" | "notProjected" => Some(project_line(random, net, &unfolding)),
        _ => Some(exchange_line(random, net)),
    }
}

/// A random line of a kind on a 12 that is the old rule's alone, if the paper's rule answers something else where the same is asked.
fn old_line(random: &mut Random, kind: &str) -> Option<Line> {
    let paper = by_paper(&small_net(random));
    let old = Net {
        rule: Some(Rule::Old),
        ..paper.clone()
    };
    let by_paper = candidate(&mut random.clone(), &paper, kind)?;
    let line = candidate(random, &old, kind)?;
    let wanted = line.kind == kind && line.number == 12 && by_paper.number != 12;
    wanted.then_some(line)
}

/// A random line that has what is wanted at a place of the round: a kind and a number, or after those a kind of repeat, or after these a
/// kind that tells of the old rule.
fn wanted_line(random: &mut Random, place: usize) -> Option<Line> {
    if let Some((kind, number)) = KINDS.get(place) {
        let net = small_net(random);
        let line = candidate(random, &net, kind);
        return line.filter(|line| line.kind == *kind && line.number == *number);
    }
    match Repeat::ALL.get(place - KINDS.len()) {
        Some((repeat, _)) => repeat_line(random, *repeat),
        None => old_line(random, OWN[place - KINDS.len() - Repeat::ALL.len()]),
    }
}

/// The lines of one round.
pub const ROUND: usize = KINDS.len() + Repeat::ALL.len() + OWN.len();

/// So many lines that go round all kinds, all kinds of repeats, and all kinds on what the old rule alone stops.
pub fn lines(count: usize, seed: u64) -> Vec<String> {
    let mut random = Random::new(seed);
    let mut lines = Vec::with_capacity(count);
    while lines.len() < count {
        let line = wanted_line(&mut random, lines.len() % ROUND);
        lines.extend(line.map(|line| line.text));
    }
    lines
}

/// A run that is too long, in the notation and as numbers.
fn long_run() -> (&'static str, Vec<u16>) {
    ("(replicate 4097 0)", vec![0; MOST_STEPS + 1])
}

/// One persistent condition that holds, and one event that reads and marks it.
fn own_net() -> Net {
    Net {
        persistent: vec![true],
        events: vec![Event {
            preconditions: vec![0],
            postconditions: vec![0],
        }],
        start: vec![0],
        rule: None,
    }
}

/// Lines on a run of over 4,096 steps, asked by the calls since they judge the length.
fn length_lines() -> Vec<Line> {
    let net = own_net();
    let table = table_bytes(&net);
    let (asked, mut run) = long_run();
    let mut output = run.clone();
    let lifted = calls::lift(&table, &run, &mut output);
    let projected = calls::project(&table, &run, &mut output);
    let exchanged = calls::exchange(&table, &mut run, 0);
    let at_0 = format!("{asked} 0");
    vec![
        answer_line(
            &net,
            ("lifts", "notLifted"),
            asked,
            lifted,
            usize::to_string,
        ),
        answer_line(
            &net,
            ("projects", "notProjected"),
            asked,
            projected,
            usize::to_string,
        ),
        answer_line(
            &net,
            ("exchanges", "notExchanged"),
            &at_0,
            exchanged,
            |()| String::new(),
        ),
    ]
}

/// The nets at the limits of the unfolding and one step past them.
fn limit_nets() -> Vec<Net> {
    let further = |mut net: Net, persistent: bool, put: bool| {
        let condition = net.persistent.len() as u16;
        net.persistent.push(persistent);
        net.events.extend(put.then(|| Event {
            preconditions: Vec::new(),
            postconditions: vec![condition],
        }));
        net
    };
    vec![
        event_limit_net(),
        further(event_limit_net(), false, true),
        further(event_limit_net(), true, true),
        further(event_limit_net(), false, false),
        condition_limit_net(),
        further(condition_limit_net(), false, false),
        further(condition_limit_net(), true, false),
        further(further(event_limit_net(), false, true), true, true),
    ]
}

/// The lines that no small net can give: 3 and 14, and the nets at the limits.
pub fn limit_lines() -> Vec<String> {
    let mut lines = length_lines();
    for net in limit_nets() {
        let text = |(): &()| "[]".to_string();
        let refused = judge_unfolding(&net);
        lines.push(counts_line(&net));
        lines.push(unfolding_line(&net));
        if refused.is_err() {
            lines.push(answer_line(
                &net,
                ("lifts", "notLifted"),
                "[]",
                refused,
                text,
            ));
            lines.push(answer_line(
                &net,
                ("projects", "notProjected"),
                "[]",
                refused,
                text,
            ));
        }
    }
    lines.into_iter().map(|line| line.text).collect()
}

/// A line that is wrong, by one unfolded event: no check of it may pass.
pub fn wrong_lines() -> Vec<String> {
    let net = own_net();
    let counts = counts(&net);
    let wrong = format!("{} {}", counts.conditions, counts.events + 1);
    vec![line("counts", 0, &net, wrong).text]
}

/// What the written module takes from elsewhere.
const USES: &str = "\
use Rattle.std.specs.Prelude.{Bool, true, false, ◌&&◌, eqb, replicate}
use Rattle.std.proofs.Math.Option.{Option, none, some}
use mathlib.Core.List.{List, [], ◌∷◌}
use Prim.Native.Nat.{ℕ}
use Rattle.lists.specs.Lists.{mem}
use Rattle.model.specs.Net.{Net, Stop, unknown, lacks, meets, stopNumber, stopCondition, stopping}
use Rattle.model.specs.Runs.{atStart, byEvent, opening, Played, ends, refused, replay}
use Rattle.model.specs.Unfolding.{basic}
use Rattle.model.specs.Across.{numberOf, placeOf, byOf, Answer, run, refusal, lift, project, exchange}
use Rattle.model.specs.Examples.{Line, passes, net, underOld, ◌↝◌, counts, lists, behind, numbered, unfolded, notUnfolded, fires, plays, lifts, projects, exchanges}
";

/// The kinds of lines of the written module, and how each is computed.
const AGREEMENT: &str = "
-- A line of the model's own table of examples, or one on what is refused, with the condition that stopped it (02, No. 2).
pub data Compared : Type 0 where
  example : Line → Compared
  stops : Net → List ℕ → ℕ → Option Stop → Compared  -- marking, event, what stops it
  stopsUnfolded : Net → List ℕ → ℕ → Option Stop → Compared  -- unfolded marking, unfolded event, what stops it
  notPlayed : Net → List ℕ → ℕ → ℕ → Option ℕ → Compared  -- list, refusal, step, condition
  notLifted : Net → List ℕ → ℕ → ℕ → Option ℕ → Compared  -- run, refusal, place, condition
  notProjected : Net → List ℕ → ℕ → ℕ → Option ℕ → Compared  -- unfolded list, refusal, place, unfolded condition
  notExchanged : Net → List ℕ → ℕ → ℕ → ℕ → Option ℕ → Compared  -- run, step, refusal, place, condition

-- Two conditions are the same, or there is neither.
unfoldable pub sameCondition : Option ℕ → Option ℕ → Bool
sameCondition none none = true
sameCondition none (some b) = false
sameCondition (some a) none = false
sameCondition (some a) (some b) = eqb a b

-- Two stops are the same by number and condition, or there is neither.
unfoldable pub sameStop : Option Stop → Option Stop → Bool
unfolding sameCondition
sameStop none none = true
sameStop none (some w) = false
sameStop (some v) none = false
sameStop (some v) (some w) = eqb (stopNumber v) (stopNumber w) && sameCondition (stopCondition v) (stopCondition w)

-- A replay is refused with this number at this step, by this condition.
unfoldable pub isStopBy : Played → ℕ → ℕ → Option ℕ → Bool
unfolding sameCondition
isStopBy (ends s) x k c = false
isStopBy (refused v i) x k c = eqb (stopNumber v) x && eqb i k && sameCondition (stopCondition v) c

-- An answer is the refusal with this number and place, by this condition.
unfoldable pub isRefusalBy : Answer → ℕ → ℕ → Option ℕ → Bool
unfolding sameCondition
isRefusalBy (run w) x k c = false
isRefusalBy (refusal y) x k c = eqb (numberOf y) x && eqb (placeOf y) k && sameCondition (byOf y) c

-- The answer that the definitions give is the line's.
unfoldable pub agrees : Compared → Bool
unfolding passes stopping basic replay opening lift project exchange sameStop isStopBy isRefusalBy
agrees (example l) = passes l
agrees (stops n m e v) = sameStop (stopping n (λ b. mem b m) e) v
agrees (stopsUnfolded n m j v) = sameStop (stopping (basic n) (λ b. mem b m) j) v
agrees (notPlayed n r x k c) = isStopBy (replay n 0 (opening n) r) x k c
agrees (notLifted n r x k c) = isRefusalBy (lift n r) x k c
agrees (notProjected n w x k c) = isRefusalBy (project n w) x k c
agrees (notExchanged n r k x i c) = isRefusalBy (exchange n r k) x i c

-- Every line of a list agrees.
unfoldable pub allAgree : List Compared → Bool
unfolding agrees
allAgree [] = true
allAgree (x ∷ xs) = agrees x && allAgree xs
";

/// The module of the lists of lines.
pub fn specs_module(lines: &[String], seed: u64) -> String {
    let mut text = format!(
        "-- Lines answered by the second implementation from random small nets, seed {seed}.\n{USES}{AGREEMENT}"
    );
    for (chunk, lines) in lines.chunks(CHUNK).enumerate() {
        text.push_str(&format!(
            "\n-- Lines from {} on.\nunfoldable pub compared{chunk} : List Compared\nunfolding net underOld\ncompared{chunk} =\n",
            chunk * CHUNK
        ));
        let joined = lines.join("\n    ∷ ");
        text.push_str(&format!("    {joined}\n    ∷ []\n"));
    }
    text
}

/// The module of the proofs that every line agrees.
pub fn proofs_module(lines: &[String]) -> String {
    let chunks = lines.chunks(CHUNK).len();
    let names: Vec<String> = (0..chunks).map(|c| format!("compared{c}")).collect();
    let mut text = format!(
        "-- Every line of the second implementation agrees.\n\
         use lib.Dec.{{T}}\n\
         use Rattle.compared.specs.Compared.{{allAgree, {}}}\n",
        names.join(", ")
    );
    for name in names {
        text.push_str(&format!(
            "\n-- The lines of {name} agree.\npub {name}-agree : T (allAgree {name})\n\
             unfolding allAgree {name}\n{name}-agree = tt\n"
        ));
    }
    text
}

/// A word as the model spells it: its parts in small letters, joined by `_`. The lines and the modules join them by capitals, and a lemma's
/// name by a dash.
fn spelled(word: &str) -> String {
    let mut spelled = String::new();
    let mut before = None;
    for letter in word.chars() {
        let begins = letter.is_ascii_uppercase()
            && before.is_some_and(|c: char| c.is_ascii_lowercase() || c.is_ascii_digit());
        if begins {
            spelled.push('_');
        }
        spelled.push(if letter == '-' {
            '_'
        } else {
            letter.to_ascii_lowercase()
        });
        before = Some(letter);
    }
    spelled
}

/// A module as it is written for the model: its names as the model spells them. A name begins with a small letter; what begins with a
/// capital is a type or a module.
pub fn as_written(module: &str) -> String {
    let in_word = |c: char| c.is_ascii_alphanumeric() || matches!(c, '_' | '-');
    let mut written = String::new();
    let mut rest = module;
    while let Some(first) = rest.chars().next() {
        let end = match in_word(first) {
            true => rest.find(|c| !in_word(c)).unwrap_or(rest.len()),
            false => first.len_utf8(),
        };
        let (word, after) = rest.split_at(end);
        match first.is_ascii_lowercase() {
            true => written.push_str(&spelled(word)),
            false => written.push_str(word),
        }
        rest = after;
    }
    written
}
