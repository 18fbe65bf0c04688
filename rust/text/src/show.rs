//! From a table to text that packs to the same bytes.

use std::fmt::Write;

use crate::table::{Condition, Run, Table, OLD, PAPER};

/// The columns that a line of text fills at most, if its words allow.
const WIDTH: usize = 100;

/// Words with commas, broken into lines that are indented after the first.
fn joined(words: &[String], column: usize) -> String {
    let mut text = String::new();
    let mut at = column;
    for (index, word) in words.iter().enumerate() {
        let length = word.chars().count() + 2;
        if index > 0 && at + length > WIDTH {
            text.push_str(",\n    ");
            at = 4;
        } else if index > 0 {
            text.push_str(", ");
        }
        text.push_str(word);
        at += length;
    }
    text
}

/// Stretches of elements that may be written as one range: unnamed, and each one more than the one before.
fn stretches(numbers: &[u16], goes_on: impl Fn(u16, u16) -> bool) -> Vec<(u16, u16)> {
    let mut stretches: Vec<(u16, u16)> = Vec::new();
    for number in numbers {
        match stretches.last_mut() {
            Some((_, last)) if last.checked_add(1) == Some(*number) && goes_on(*last, *number) => {
                *last = *number;
            }
            _ => stretches.push((*number, *number)),
        }
    }
    stretches
}

/// A stretch of numbers as words: one range from three numbers on.
fn stretch_words((first, last): (u16, u16)) -> Vec<String> {
    if last - first >= 2 {
        return vec![format!("{first}..{last}")];
    }
    (first..=last).map(|n| n.to_string()).collect()
}

/// A list of numbers as text, stretches of three and more as ranges.
pub fn list_text(numbers: &[u16]) -> String {
    let words = stretches(numbers, |_, _| true)
        .into_iter()
        .flat_map(stretch_words);
    words.collect::<Vec<_>>().join(", ")
}

/// A list of numbers in braces.
pub fn set_text(numbers: &[u16]) -> String {
    format!("{{{}}}", list_text(numbers))
}

impl Table {
    /// The condition has a name.
    fn is_named(&self, number: u16) -> bool {
        self.conditions
            .get(usize::from(number))
            .is_some_and(|c| c.name.is_some())
    }

    /// The words of a list of conditions: names where there are any, and ranges of the others.
    fn words(&self, numbers: &[u16]) -> Vec<String> {
        let unnamed = |a: u16, b: u16| !self.is_named(a) && !self.is_named(b);
        let word = |stretch: (u16, u16)| {
            if self.is_named(stretch.0) {
                vec![self.condition_name(stretch.0)]
            } else {
                stretch_words(stretch)
            }
        };
        stretches(numbers, unnamed)
            .into_iter()
            .flat_map(word)
            .collect()
    }

    /// A list of conditions in braces, by name where there are names.
    pub fn set(&self, numbers: &[u16]) -> String {
        format!("{{{}}}", self.words(numbers).join(", "))
    }

    /// The `conditions:` statement: one to a line where any is named.
    fn conditions_text(&self) -> String {
        let numbers: Vec<u16> = (0..=u16::MAX).take(self.conditions.len()).collect();
        let of = |n: u16| &self.conditions[usize::from(n)];
        let alike = |a: &Condition, b: &Condition| {
            a.persistent == b.persistent && a.name.is_none() && b.name.is_none()
        };
        let marked = |(first, last): (u16, u16)| -> Vec<String> {
            let mark = if of(first).persistent { " [p]" } else { "" };
            let words = match &of(first).name {
                Some(name) => vec![name.clone()],
                None => stretch_words((first, last)),
            };
            words.into_iter().map(|word| word + mark).collect()
        };
        let stretches = stretches(&numbers, |a, b| alike(of(a), of(b)));
        let words: Vec<String> = stretches.into_iter().flat_map(marked).collect();
        if self.conditions.iter().any(|c| c.name.is_some()) {
            return format!("conditions:\n    {}\n", words.join("\n    "));
        }
        format!("conditions: {}\n", joined(&words, 12))
    }

    /// The `rule:` statement, where a rule is stated.
    fn rule_text(&self) -> String {
        match self.rule {
            None => String::new(),
            Some(PAPER) => "rule: paper\n\n".to_string(),
            Some(OLD) => "rule: old\n\n".to_string(),
            Some(byte) => format!("rule: {byte}\n\n"),
        }
    }

    /// The `table:` statement, where the digest of the table is stated.
    fn digest_text(&self) -> String {
        match &self.digest {
            None => String::new(),
            Some((digest, _)) => format!("table: {digest}\n\n"),
        }
    }

    /// The table and its runs as text.
    pub fn text(&self) -> String {
        let mut text = self.digest_text() + &self.rule_text() + &self.conditions_text() + "\n";
        for (event, number) in self.events.iter().zip(0..) {
            let name = self.event_name(number);
            let pre = joined(&self.words(&event.preconditions), name.chars().count() + 3);
            let post = joined(&self.words(&event.postconditions), WIDTH / 2);
            let _ = writeln!(text, "{name}: {{{pre}}} -> {{{post}}}");
        }
        let start = joined(&self.words(&self.start), 8);
        let _ = writeln!(text, "\nstart: {{{start}}}");
        for run in &self.runs {
            let _ = writeln!(text, "\n{}", self.run_text(run));
        }
        text
    }

    /// A run of the table as text, by the names of its events where there are names.
    pub fn run_text(&self, run: &Run) -> String {
        let name = run
            .name
            .as_ref()
            .map(|name| format!(" {name}"))
            .unwrap_or_default();
        let steps: Vec<String> = run.steps.iter().map(|e| self.event_name(*e)).collect();
        let steps = joined(&steps, name.chars().count() + 5);
        format!("run{name}: {steps}").trim_end().to_string()
    }
}
