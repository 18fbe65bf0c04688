//! What is wrong with a text, and where.

use std::fmt;

/// A place in a text: line and column, both counted from 1, a column for each character.
#[derive(Clone, Copy, Debug, Default, PartialEq, Eq, PartialOrd, Ord)]
pub struct Place {
    pub line: usize,
    pub column: usize,
}

impl fmt::Display for Place {
    fn fmt(&self, f: &mut fmt::Formatter) -> fmt::Result {
        write!(f, "line {}, column {}", self.line, self.column)
    }
}

/// What keeps a text from being turned into records: where, what was expected there, and what stands there.
#[derive(Clone, Debug, PartialEq, Eq)]
pub struct Trouble {
    pub place: Place,
    pub expected: String,
    pub found: String,
}

impl fmt::Display for Trouble {
    fn fmt(&self, f: &mut fmt::Formatter) -> fmt::Result {
        let Trouble {
            place,
            expected,
            found,
        } = self;
        write!(f, "{place}: expected {expected}, found {found}")
    }
}

impl std::error::Error for Trouble {}

/// The most characters of a name that a message repeats.
const MOST_TOLD: usize = 60;

/// A name as it is told in a message, a long one by its beginning.
pub fn quoted(name: &str) -> String {
    match name.char_indices().nth(MOST_TOLD) {
        Some((end, _)) => format!("`{}...`", &name[..end]),
        None => format!("`{name}`"),
    }
}

/// The trouble at a place, as an answer of any type.
pub fn trouble<T>(
    place: Place,
    expected: impl Into<String>,
    found: impl Into<String>,
) -> Result<T, Trouble> {
    Err(Trouble {
        place,
        expected: expected.into(),
        found: found.into(),
    })
}

/// The most troubles that are told of one text; a likely name is looked for in these alone.
const MOST_LINES: usize = 20;

/// So many troubles are enough: of a text that has more the rest is not looked at.
pub const ENOUGH: usize = 1_000;

/// The troubles of a text as they are found.
#[derive(Debug, Default)]
pub struct Troubles {
    found: Vec<Trouble>,
    /// How often a likely name was looked for.
    guessed: usize,
}

impl Troubles {
    /// What was made, or else nothing, and its trouble is noted, unless there are enough.
    pub fn noted<T>(&mut self, made: Result<T, Trouble>) -> Option<T> {
        match made {
            Ok(made) => Some(made),
            Err(trouble) => {
                if !self.are_enough() {
                    self.found.push(trouble);
                }
                None
            }
        }
    }

    /// A likely name may be looked for once more, since the trouble at hand may be among those that are told.
    pub fn may_guess(&mut self) -> bool {
        self.guessed += 1;
        self.guessed <= MOST_LINES
    }

    /// The line of the one that was noted last.
    pub fn last_line(&self) -> Option<usize> {
        self.found.last().map(|trouble| trouble.place.line)
    }

    /// There are none.
    pub fn are_none(&self) -> bool {
        self.found.is_empty()
    }

    /// There are so many that the rest of the text need not be looked at.
    pub fn are_enough(&self) -> bool {
        self.found.len() >= ENOUGH
    }

    /// What was made of the text, or the first that was found to keep it from being made: what is wrong with a statement itself is found
    /// before what is wrong with its names.
    pub fn first_or<T>(self, made: T) -> Result<T, Trouble> {
        self.found.into_iter().next().map_or(Ok(made), Err)
    }

    /// What was made of the text, or all that keeps it from being made, in the order of the text.
    pub fn or<T>(mut self, made: T) -> Result<T, Vec<Trouble>> {
        if self.found.is_empty() {
            return Ok(made);
        }
        self.found.sort_by_key(|trouble| trouble.place);
        Err(self.found)
    }
}

/// The lines that tell the troubles of a text, up to a number of them, and how many more there are.
pub fn lines(troubles: &[Trouble]) -> Vec<String> {
    let told = troubles.iter().take(MOST_LINES);
    let mut lines: Vec<String> = told.map(Trouble::to_string).collect();
    match troubles.len().saturating_sub(MOST_LINES) {
        0 => {}
        more if troubles.len() < ENOUGH => lines.push(format!("and {more} more")),
        more => lines.push(format!("and {more} more at least")),
    }
    lines
}
