//! Plain place/transition nets, played without capacities, and all markings that a net reaches (02, No. 1).
//!
//! A plain net is read from lines of text, one for each part of it, as whoever takes an exported file apart writes them:
//!
//! ```text
//! net NAME              a net begins; NAME is the file's name without its ending, and several nets may follow one another
//! place ID TOKENS       a place, and the tokens that it holds at the start, 0 where the file gives no initial marking
//! transition ID         a transition
//! arc SOURCE TARGET     an arc of weight 1, by ids: from a place into a transition, or from a transition to a place
//! ```
//!
//! One space stands between words. Places and transitions are numbered in the order of their lines; arcs may stand anywhere.

use std::collections::BTreeMap;

use crate::game::{fire, Game};
use crate::unfolding::Unfolding;

/// A transition: the places from which it takes a token and those to which it puts one, once for each arc.
#[derive(Clone, Debug, Default, PartialEq, Eq)]
pub struct Transition {
    pub taken: Vec<usize>,
    pub put: Vec<usize>,
}

/// A plain net: the tokens of its places at the start, and its transitions.
#[derive(Clone, Debug, Default, PartialEq, Eq)]
pub struct Plain {
    pub tokens: Vec<u64>,
    pub transitions: Vec<Transition>,
}

impl Plain {
    /// The marking after a transition, if each arc into it finds a token; no place is ever full.
    pub fn fired(&self, marking: &[u64], transition: usize) -> Option<Vec<u64>> {
        let transition = self.transitions.get(transition)?;
        let mut after = marking.to_vec();
        for place in &transition.taken {
            after[*place] = after[*place].checked_sub(1)?;
        }
        for place in &transition.put {
            after[*place] += 1;
        }
        Some(after)
    }

    /// What the net reaches.
    pub fn reached(&self, most: usize) -> Reached<Vec<u64>> {
        let fired = |marking: &Vec<u64>, transition| self.fired(marking, transition);
        search(self.tokens.clone(), self.transitions.len(), fired, most)
    }
}

/// What the unfolded net reaches, played with contact.
pub fn reached_unfolded(unfolding: &Unfolding, most: usize) -> Reached<Vec<bool>> {
    let fired = |marking: &Vec<bool>, event: usize| {
        let number = u16::try_from(event).ok()?;
        fire(unfolding, marking, number).ok()
    };
    search(unfolding.start(), unfolding.events.len(), fired, most)
}

// ---- the search

/// One firing: the place of the marking before it, its transition, and the place of the marking after it.
pub type Step = (usize, usize, usize);

/// The markings that were reached, the start first, and every firing between them, in the order in which they were found.
#[derive(Clone, Debug, PartialEq, Eq)]
pub struct Reached<M> {
    pub markings: Vec<M>,
    pub steps: Vec<Step>,
    /// No marking is missing: the search came to its end.
    pub whole: bool,
}

/// Searches from a start, nearest markings first and transitions in number order, until it would pass so many markings.
fn search<M: Clone + Ord>(
    start: M,
    transitions: usize,
    fired: impl Fn(&M, usize) -> Option<M>,
    most: usize,
) -> Reached<M> {
    let mut numbers = BTreeMap::from([(start.clone(), 0)]);
    let mut reached = Reached {
        markings: vec![start],
        steps: Vec::new(),
        whole: true,
    };
    let mut before = 0;
    while before < reached.markings.len() {
        for transition in 0..transitions {
            let Some(after) = fired(&reached.markings[before], transition) else {
                continue;
            };
            let next = reached.markings.len();
            let number = *numbers.entry(after.clone()).or_insert(next);
            if number == next {
                if next >= most {
                    reached.whole = false;
                    return reached;
                }
                reached.markings.push(after);
            }
            reached.steps.push((before, transition, number));
        }
        before += 1;
    }
    reached
}

// ---- lines of text

/// A plain net with the name and the ids that its lines give.
#[derive(Clone, Debug, Default, PartialEq, Eq)]
pub struct Named {
    pub name: String,
    pub places: Vec<String>,
    pub transitions: Vec<String>,
    pub plain: Plain,
}

/// What an id stands for.
#[derive(Clone, Copy)]
enum Node {
    Place(usize),
    Transition(usize),
}

/// A net in the reading: arcs wait until all ids are known.
#[derive(Default)]
struct Reading {
    net: Named,
    nodes: BTreeMap<String, Node>,
    arcs: Vec<(String, String)>,
}

impl Reading {
    /// Gives an id its meaning; false where it has one.
    fn named(&mut self, id: &str, node: Node) -> bool {
        self.nodes.insert(id.to_string(), node).is_none()
    }

    /// Takes one line of the net; false where it is none.
    fn take(&mut self, words: &[&str]) -> bool {
        match words {
            ["place", id, tokens] => {
                let Ok(tokens) = tokens.parse::<u32>() else {
                    return false;
                };
                self.net.plain.tokens.push(u64::from(tokens));
                self.net.places.push(id.to_string());
                self.named(id, Node::Place(self.net.places.len() - 1))
            }
            ["transition", id] => {
                self.net.plain.transitions.push(Transition::default());
                self.net.transitions.push(id.to_string());
                self.named(id, Node::Transition(self.net.transitions.len() - 1))
            }
            ["arc", source, target] => {
                self.arcs.push((source.to_string(), target.to_string()));
                true
            }
            _ => false,
        }
    }

    /// The net with its arcs, or the first arc that has no place on one side and no transition on the other.
    fn finished(mut self) -> Result<Named, String> {
        for (source, target) in &self.arcs {
            match (self.nodes.get(source), self.nodes.get(target)) {
                (Some(Node::Place(place)), Some(Node::Transition(transition))) => {
                    self.net.plain.transitions[*transition].taken.push(*place);
                }
                (Some(Node::Transition(transition)), Some(Node::Place(place))) => {
                    self.net.plain.transitions[*transition].put.push(*place);
                }
                _ => return Err(format!("{}: no arc {source} {target}", self.net.name)),
            }
        }
        Ok(self.net)
    }
}

/// The nets of lines of text, or what is wrong with them.
pub fn read_nets(text: &str) -> Result<Vec<Named>, String> {
    let mut readings: Vec<Reading> = Vec::new();
    for (line, words) in text.lines().enumerate() {
        let words: Vec<&str> = words.split(' ').collect();
        if let ["net", name] = words[..] {
            let mut reading = Reading::default();
            reading.net.name = name.to_string();
            readings.push(reading);
            continue;
        }
        let taken = readings.last_mut().is_some_and(|net| net.take(&words));
        if !taken {
            return Err(format!("line {}: {}", line + 1, words.join(" ")));
        }
    }
    readings.into_iter().map(Reading::finished).collect()
}

// ---- against the unfolded net

impl Named {
    /// The net with its parts in the order of the export: places p0, p1 and on, then q0, q1 and on, and transitions t0, t1 and on; none
    /// where there are not exactly these.
    pub fn in_order(&self, conditions: usize, events: usize) -> Option<Plain> {
        let ids = |letter: char, count: usize| (0..count).map(move |n| format!("{letter}{n}"));
        let places = ids('p', conditions).chain(ids('q', conditions));
        let places = order(places, &self.places)?;
        let transitions = order(ids('t', events), &self.transitions)?;
        let mut number = vec![0; places.len()];
        for (new, old) in places.iter().enumerate() {
            number[*old] = new;
        }
        let renumbered = |list: &[usize]| list.iter().map(|place| number[*place]).collect();
        let transition = |old: &usize| {
            let transition = &self.plain.transitions[*old];
            Transition {
                taken: renumbered(&transition.taken),
                put: renumbered(&transition.put),
            }
        };
        Some(Plain {
            tokens: places.iter().map(|old| self.plain.tokens[*old]).collect(),
            transitions: transitions.iter().map(transition).collect(),
        })
    }
}

/// The place of each wanted id in a list of different ids; none where the list has not exactly these.
fn order(wanted: impl Iterator<Item = String>, ids: &[String]) -> Option<Vec<usize>> {
    let places: BTreeMap<&String, usize> = ids.iter().zip(0..).collect();
    let order: Option<Vec<usize>> = wanted.map(|id| places.get(&id).copied()).collect();
    order.filter(|order| order.len() == ids.len())
}

/// The marking of the doubled net that corresponds to an unfolded marking: of a condition's two places exactly one has a token, the
/// first where the condition holds.
pub fn doubled_marking(marking: &[bool]) -> Vec<u64> {
    let first = marking.iter().map(|holds| u64::from(*holds));
    let second = marking.iter().map(|holds| u64::from(!holds));
    first.chain(second).collect()
}

/// What two nets that agree reached.
#[derive(Clone, Copy, Debug, PartialEq, Eq)]
pub struct Agreed {
    pub markings: usize,
    pub whole: bool,
}

/// Compares the unfolded net, played with contact, with a plain net of the export's order, played without capacities: they must reach
/// corresponding markings by the same firings. Says what differs.
pub fn compare(unfolding: &Unfolding, plain: &Plain, most: usize) -> Result<Agreed, String> {
    let one = reached_unfolded(unfolding, most);
    let other = plain.reached(most);
    let markings: Vec<Vec<u64>> = one.markings.iter().map(|m| doubled_marking(m)).collect();
    if markings != other.markings {
        return Err("the reachable markings differ".to_string());
    }
    if one.steps != other.steps || one.whole != other.whole {
        return Err("the firings between the markings differ".to_string());
    }
    Ok(Agreed {
        markings: markings.len(),
        whole: one.whole,
    })
}
