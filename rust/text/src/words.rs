//! Single words that stand for a marking or for an event of a table, written as they are in a text.

use std::collections::BTreeSet;

use crate::near::nearest;
use crate::table::Table;
use crate::tokens::{tokens, Piece, Token};
use crate::trouble::{quoted, trouble, Place, Trouble};

/// What is expected where a condition or an event is due.
const CONDITION: &str = "the name or number of a condition";
const EVENT: &str = "the name or number of an event";

/// The pieces of a word, the last being its end, and how far they are read.
struct Pieces {
    tokens: Vec<Token>,
    at: usize,
}

impl Pieces {
    /// The pieces of a word, in which the end of a line is a blank, or the first that is none.
    fn of(word: &str) -> Result<Pieces, Trouble> {
        // where not all is looked at, so much is wrong that the first is told
        let (mut tokens, _) = tokens(word);
        tokens.retain(|token| token.piece != Piece::LineEnd);
        let wrong = tokens.iter().find_map(|token| match &token.piece {
            Piece::Wrong(trouble) => Some(Trouble::clone(trouble)),
            _ => None,
        });
        match wrong {
            Some(trouble) => Err(trouble),
            None => Ok(Pieces { tokens, at: 0 }),
        }
    }

    /// The piece that comes next.
    fn piece(&self) -> &Piece {
        &self.tokens[self.at].piece
    }

    /// Where the next piece stands.
    fn place(&self) -> Place {
        self.tokens[self.at].place
    }

    /// Takes the next piece, unless it is the end.
    fn take(&mut self) {
        self.at += usize::from(*self.piece() != Piece::End);
    }

    /// Takes the next piece if it is this one.
    fn took(&mut self, piece: &Piece) -> bool {
        let there = self.piece() == piece;
        if there {
            self.take();
        }
        there
    }

    /// The trouble that the next piece is not what was expected.
    fn unexpected<T>(&self, expected: &str) -> Result<T, Trouble> {
        let found = match self.piece() {
            Piece::End => "the end of the word".to_string(),
            other => other.told(),
        };
        trouble(self.place(), expected, found)
    }

    /// Nothing comes any more.
    fn ended(&self) -> Result<(), Trouble> {
        match self.piece() {
            Piece::End => Ok(()),
            _ => self.unexpected("the end of the word"),
        }
    }

    /// Takes a condition of the table, or a range of them: the first and the last.
    fn conditions(&mut self, table: &Table) -> Result<(u16, u16), Trouble> {
        let place = self.place();
        match self.piece().clone() {
            Piece::Name(name) => {
                self.take();
                let names = table.conditions.iter().map(|c| c.name.as_deref());
                let number = number_of(&name, names, CONDITION, place)?;
                Ok((number, number))
            }
            Piece::Number(first) => {
                self.take();
                known(first, table, place)?;
                match self.took(&Piece::Through) {
                    true => Ok((first, self.last_of_range(first, table)?)),
                    false => Ok((first, first)),
                }
            }
            _ => self.unexpected(CONDITION),
        }
    }

    /// Takes the number at which a range ends.
    fn last_of_range(&mut self, first: u16, table: &Table) -> Result<u16, Trouble> {
        let place = self.place();
        match *self.piece() {
            Piece::Number(last) if first <= last => {
                self.take();
                known(last, table, place)?;
                Ok(last)
            }
            _ => self.unexpected(&format!("a number from {first} on, where the range ends")),
        }
    }
}

/// The number that a name stands for among such names, in their order; where it stands for none the nearest is told.
fn number_of<'a>(
    name: &str,
    names: impl Iterator<Item = Option<&'a str>> + Clone,
    expected: &str,
    place: Place,
) -> Result<u16, Trouble> {
    let mut numbered = (0..=u16::MAX).zip(names.clone());
    if let Some((number, _)) = numbered.find(|(_, known)| *known == Some(name)) {
        return Ok(number);
    }
    let are_named = names.clone().flatten().next().is_some();
    let why = match nearest(name, names.flatten()) {
        Some(near) => format!(" (is `{near}` meant?)"),
        None if are_named => String::new(),
        None => ", as the table has numbers and no names".to_string(),
    };
    let found = format!("{}, which is none{why}", quoted(name));
    trouble(place, expected, found)
}

/// The table has a condition of this number.
fn known(number: u16, table: &Table, place: Place) -> Result<(), Trouble> {
    match table.conditions.len().checked_sub(1) {
        Some(last) if usize::from(number) <= last => Ok(()),
        Some(last) => {
            let found = format!("`{number}`, and the last condition is {last}");
            trouble(place, CONDITION, found)
        }
        None => trouble(place, CONDITION, format!("`{number}`, and there are none")),
    }
}

/// The conditions of a marking such as `{a, 3, 5..7}`, ascending; the braces may be left out where anything holds.
pub fn read_set(word: &str, table: &Table) -> Result<Vec<u16>, Trouble> {
    let mut pieces = Pieces::of(word)?;
    if *pieces.piece() == Piece::End {
        return pieces.unexpected("a marking, which is `{}` where nothing holds");
    }
    let (closes, separates) = match pieces.took(&Piece::Open) {
        true => (Piece::Close, "`,` or `}`"),
        false => (Piece::End, "`,` or the end of the word"),
    };
    let mut set = BTreeSet::new();
    while *pieces.piece() != closes {
        let place = pieces.place();
        let (first, last) = pieces.conditions(table)?;
        for number in first..=last {
            if !set.insert(number) {
                let name = quoted(&table.condition_name(number));
                let found = format!("{name} a second time");
                return trouble(place, "each condition once in a list", found);
            }
        }
        if !pieces.took(&Piece::Comma) && *pieces.piece() != closes {
            return pieces.unexpected(separates);
        }
    }
    pieces.take();
    pieces.ended()?;
    Ok(set.into_iter().collect())
}

/// The number of the event that a word is the name or the number of; a number need not be one that the table has.
pub fn read_event(word: &str, table: &Table) -> Result<u16, Trouble> {
    let mut pieces = Pieces::of(word)?;
    let number = match pieces.piece().clone() {
        Piece::Name(name) => {
            let names = table.events.iter().map(|e| e.name.as_deref());
            number_of(&name, names, EVENT, pieces.place())?
        }
        Piece::Number(number) => number,
        _ => return pieces.unexpected(EVENT),
    };
    pieces.take();
    pieces.ended()?;
    Ok(number)
}
