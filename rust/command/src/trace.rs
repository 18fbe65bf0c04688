//! Traces of the exported net as a checker writes them: transitions in order, as `t12` or `12`.

use text::{quoted, Place, Trouble};

use crate::files::{self, bytes_of, looks_like};
use crate::next;
use crate::stop::{Stop, Stopped};

/// A trace as it is given.
pub struct Trace {
    /// What it is called in messages.
    pub called: String,
    /// The numbers of its unfolded events.
    pub steps: Vec<u16>,
    /// Where each of them stands.
    pub places: Vec<Place>,
}

/// The words of a line up to its comment, each with its place.
fn words(line: usize, said: &str) -> impl Iterator<Item = (Place, &str)> {
    let said = said.split('#').next().unwrap_or_default();
    let parts = said.split(|c: char| c.is_whitespace() || c == ',');
    let placed = parts.scan(1, move |next, word| {
        let column = *next;
        *next += word.chars().count() + 1;
        Some((Place { line, column }, word))
    });
    placed.filter(|(_, word)| !word.is_empty())
}

/// The digits after a letter, if a word consists of the two.
fn digits_after(letter: &str, word: &str) -> Option<String> {
    let digits = word.strip_prefix(letter).filter(|rest| !rest.is_empty())?;
    let all = digits.bytes().all(|byte| byte.is_ascii_digit());
    all.then(|| digits.to_string())
}

/// What a word that names no transition is told as.
fn found(word: &str) -> String {
    let known = [("p", "a place"), ("q", "a place"), ("a", "an arc")];
    let known = known
        .into_iter()
        .find(|(letter, _)| digits_after(letter, word).is_some());
    match known {
        Some((_, what)) => format!("{}, which is {what}", quoted(word)),
        None => quoted(word),
    }
}

/// The unfolded event that a word names: a number, as it is or after a `t`.
fn transition(place: Place, word: &str) -> Result<u16, Trouble> {
    let digits = digits_after("t", word).or_else(|| digits_after("", word));
    let expected = match digits {
        Some(_) => format!("the number of an unfolded event, at most {}", u16::MAX),
        None => "a transition, as t12 or 12".to_string(),
    };
    let number = digits.and_then(|digits| digits.parse().ok());
    number.ok_or_else(|| Trouble {
        place,
        expected,
        found: found(word),
    })
}

/// The first carriage return without a line feed after it, which ends no line: a comment before it would swallow the steps after it. Only in
/// the next version is it an error.
fn lone_return(text: &str) -> Option<Trouble> {
    let mut returns = text.match_indices('\r').map(|(at, _)| text.split_at(at));
    let (before, _) = returns.find(|(_, rest)| !rest.starts_with("\r\n"))?;
    let said = before.rsplit('\n').next().unwrap_or_default();
    let place = Place {
        line: before.matches('\n').count() + 1,
        column: said.chars().count() + 1,
    };
    Some(Trouble {
        place,
        expected: "a line feed at the end of the line".to_string(),
        found: "a carriage return alone".to_string(),
    })
}

/// The steps of a text, each with its place.
fn steps_of(text: &str) -> Result<Vec<(u16, Place)>, Trouble> {
    if let Some(trouble) = lone_return(text).filter(|_| next::is_asked()) {
        return Err(trouble);
    }
    let lines = (1..).zip(text.lines());
    let words = lines.flat_map(|(line, said)| words(line, said));
    words
        .map(|(place, word)| Ok((transition(place, word)?, place)))
        .collect()
}

/// What is said of a text without a transition.
const NO_STEP: &str = "no transition stands in it, so there is no run to tell";

/// What the next version says of a text with neither a transition nor a comment: a trace of no steps says by a comment that it is one.
const NOTHING: &str = "nothing stands in it; a trace has transitions, as t12 or 12, and one without a step has a comment, as \
                       '# broken at the start'";

/// What keeps bytes from being a trace before their words are looked at.
fn no_trace(bytes: &[u8]) -> Option<String> {
    let at = files::control_at(bytes)?;
    Some(match looks_like(bytes) {
        Some(what) => format!("this is no trace; it looks like {what}"),
        None => format!("byte {at} is a control character, so this is no trace"),
    })
}

/// The trace of a file, or of the standard input.
pub fn read(given: &str) -> Stopped<Trace> {
    let called = files::called(given);
    let wrong = |what: String| Stop::Text(format!("{called}: {what}"));
    let bytes = bytes_of(given)?;
    if let Some(what) = no_trace(&bytes) {
        return Err(wrong(what));
    }
    let steps = steps_of(&String::from_utf8_lossy(&bytes));
    let steps = steps.map_err(|trouble| wrong(trouble.to_string()))?;
    match (steps.is_empty(), next::is_asked()) {
        (true, false) => return Err(wrong(NO_STEP.to_string())),
        (true, true) if !bytes.contains(&b'#') => return Err(wrong(NOTHING.to_string())),
        _ => {}
    }
    let (steps, places) = steps.into_iter().unzip();
    Ok(Trace {
        called: called.to_string(),
        steps,
        places,
    })
}
