//! What in a table looks like a slip. Each warning is true of every run of the table.

use text::{Event, Table};

use crate::names::{condition_called, event_called, some_of};

/// What the lists of a table say of its conditions and events, one after another.
struct Looked<'a> {
    table: &'a Table,
    /// The condition is a precondition of an event.
    needed: Vec<bool>,
    /// The condition is a postcondition of an event.
    put: Vec<bool>,
    /// The condition holds at the start.
    start: Vec<bool>,
    /// The condition may come to hold: it does at the start, or an event puts it that may fire.
    may_hold: Vec<bool>,
}

/// The members of a list, as an answer for each condition of a table.
fn members<'a>(table: &Table, lists: impl IntoIterator<Item = &'a u16>) -> Vec<bool> {
    let mut members = vec![false; table.conditions.len()];
    for condition in lists {
        if let Some(member) = members.get_mut(usize::from(*condition)) {
            *member = true;
        }
    }
    members
}

/// The lowest ordinary condition that an event takes and puts again where the old rule, which never lets that pass, is followed.
fn put_again(table: &Table, event: &Event) -> Option<u16> {
    if !table.is_old() {
        return None;
    }
    let again = |b: &&u16| !table.is_persistent(**b) && event.postconditions.contains(b);
    event.preconditions.iter().find(again).copied()
}

/// The lowest precondition of an event that never holds.
fn lacking(event: &Event, may_hold: &[bool]) -> Option<u16> {
    let holds = |b: &u16| may_hold.get(usize::from(*b)) == Some(&true);
    event.preconditions.iter().find(|b| !holds(b)).copied()
}

/// The conditions that may come to hold, found by letting fire what may until nothing new comes of it.
fn closure(table: &Table, start: &[bool]) -> Vec<bool> {
    let let_pass = |event: &&Event| put_again(table, event).is_none();
    let events: Vec<&Event> = table.events.iter().filter(let_pass).collect();
    let mut may_hold = start.to_vec();
    loop {
        let may_fire = |event: &&&Event| lacking(event, &may_hold).is_none();
        let fired = events.iter().filter(may_fire);
        let put = members(table, fired.flat_map(|event| &event.postconditions));
        let next: Vec<bool> = may_hold.iter().zip(put).map(|(a, b)| *a || b).collect();
        if next == may_hold {
            return may_hold;
        }
        may_hold = next;
    }
}

impl Looked<'_> {
    /// Looks at the lists of a table.
    fn at(table: &Table) -> Looked<'_> {
        let start = members(table, &table.start);
        Looked {
            table,
            needed: members(table, table.events.iter().flat_map(|e| &e.preconditions)),
            put: members(table, table.events.iter().flat_map(|e| &e.postconditions)),
            may_hold: closure(table, &start),
            start,
        }
    }

    /// A warning of the conditions that are of a kind, if there are any; what is said differs for one and for many.
    fn warning(
        &self,
        is_of_kind: impl Fn(usize) -> bool,
        said: impl Fn(&str, bool) -> String,
    ) -> Option<String> {
        let numbers = (0..=u16::MAX).take(self.table.conditions.len());
        let of_kind = numbers.filter(|number| is_of_kind(usize::from(*number)));
        let called = of_kind.map(|number| condition_called(self.table, number));
        let called: Vec<String> = called.collect();
        let many = called.len() > 1;
        (!called.is_empty()).then(|| said(&some_of(&called), many))
    }

    /// The conditions that are in no list of an event.
    fn unused(&self) -> Option<String> {
        let is_unused = |b: usize| !self.needed[b] && !self.put[b];
        self.warning(is_unused, |names, _| {
            format!("no event needs or puts {names}")
        })
    }

    /// The conditions, all persistent or all ordinary, that events put and none needs.
    fn only_put(&self, persistent: bool) -> Option<String> {
        let is_only_put = |b: usize| {
            let is_of_kind = self.table.conditions[b].persistent == persistent;
            is_of_kind && self.put[b] && !self.needed[b]
        };
        self.warning(is_only_put, |names, many| match (persistent, many) {
            (false, false) => format!("no event needs {names}, which is only put"),
            (false, true) => format!("no event needs {names}, which are only put"),
            (true, false) => format!("no event reads {names}, which is persistent"),
            (true, true) => format!("no event reads {names}, which are persistent"),
        })
    }

    /// The conditions that events need, and that neither hold at the start nor are put.
    fn never_set(&self) -> Option<String> {
        let is_never_set = |b: usize| self.needed[b] && !self.put[b] && !self.start[b];
        self.warning(is_never_set, |names, many| match many {
            false => format!(
                "nothing sets {names}, which an event needs: it does not hold at the start, and no event puts it"
            ),
            true => format!(
                "nothing sets {names}, which events need: they do not hold at the start, and no event puts them"
            ),
        })
    }

    /// Why no run fires an event, with its name, if none does.
    fn never_fires(&self, number: u16, event: &Event) -> Option<String> {
        let called = event_called(self.table, number);
        let condition = |b: u16| condition_called(self.table, b);
        if let Some(b) = lacking(event, &self.may_hold) {
            return Some(format!("{called} ({} never holds)", condition(b)));
        }
        let b = put_again(self.table, event)?;
        let taken = format!("takes {} and puts it again", condition(b));
        Some(format!(
            "{called} ({taken}, which the old rule never lets pass)"
        ))
    }

    /// The events that no run fires.
    fn dead(&self) -> Option<String> {
        let events = (0..=u16::MAX).zip(&self.table.events);
        let dead = events.filter_map(|(number, event)| self.never_fires(number, event));
        let dead: Vec<String> = dead.collect();
        (!dead.is_empty()).then(|| format!("no run can fire {}", some_of(&dead)))
    }
}

/// The warnings on an accepted table, each in one line.
pub fn warnings(table: &Table) -> Vec<String> {
    let looked = Looked::at(table);
    let of_lists = [
        looked.never_set(),
        looked.dead(),
        looked.unused(),
        looked.only_put(true),
        looked.only_put(false),
    ];
    let alike = text::look_alikes(table);
    let alike = alike.iter().map(|pair| pair.to_string());
    of_lists.into_iter().flatten().chain(alike).collect()
}
