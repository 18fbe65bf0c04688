//! What a text states as far as it can be told: after a statement in error the next one is gone on with.

use std::collections::BTreeSet;

use crate::grammar::{Parser, Statement, RESERVED, RULE, TABLE};
use crate::near::nearest;
use crate::tokens::{tokens, Piece, Token};
use crate::trouble::{trouble, Place, Trouble, Troubles};

/// The place of the first line that begins with `conditions`, as only that of a table does.
fn first_conditions(tokens: &[Token]) -> Option<Place> {
    let mut before = &Piece::LineEnd;
    for token in tokens {
        let begins = *before == Piece::LineEnd;
        if begins && token.piece == Piece::Name("conditions".to_string()) {
            return Some(token.place);
        }
        before = &token.piece;
    }
    None
}

/// Statements in error, as far as they may keep names and numbers from being known.
#[derive(Debug, Default)]
pub struct Broken {
    /// Every name that stands in one of them.
    pub names: BTreeSet<String>,
    /// One of them may state conditions.
    pub has_conditions: bool,
    /// One of them may state an event.
    pub has_events: bool,
    /// One of them may state an event by a name that cannot be told.
    pub has_labels: bool,
}

/// The name that a token is, if it is one.
fn named(token: &Token) -> Option<&str> {
    match &token.piece {
        Piece::Name(name) => Some(name),
        _ => None,
    }
}

/// A word is nearly `conditions`.
fn is_conditions(word: &str) -> bool {
    nearest(&word.to_lowercase(), ["conditions"].into_iter()).is_some()
}

impl Broken {
    /// Takes a statement in error by its pieces, and whether the first of them surely names it.
    fn take(&mut self, tokens: &[Token], is_named: bool) {
        let first = &tokens[..tokens.len().min(2)];
        let mut words = first.iter().filter_map(named);
        self.has_conditions |= words.any(is_conditions);
        let word = first.first().and_then(named).unwrap_or_default();
        if ![RULE, TABLE].contains(&word) && !RESERVED.contains(&word) {
            self.has_events = true;
            self.has_labels |= !is_named;
        }
        let names = tokens.iter().filter_map(named);
        self.names.extend(names.map(String::from));
    }
}

/// What a text states, as far as it can be told, and what is wrong with the rest.
#[derive(Debug)]
pub struct Stated {
    pub statements: Vec<Statement>,
    pub troubles: Troubles,
    pub broken: Broken,
    /// The place where the text ends.
    pub end: Place,
}

impl Stated {
    /// Notes the trouble of a statement and the pieces of it; of troubles on one line the first is noted. After a list of conditions it
    /// may be one more of them, unless an event's list is among the first pieces.
    fn note(&mut self, found: Trouble, tokens: &[Token], is_named: bool) {
        let last = self.statements.last();
        let has_list = tokens.iter().take(3).any(|t| t.piece == Piece::Open);
        let is_condition = matches!(last, Some(Statement::Conditions(_))) && !has_list;
        self.broken.take(tokens, is_named);
        self.broken.has_conditions |= is_condition;
        if self.troubles.last_line() != Some(found.place.line) {
            self.troubles.noted::<()>(Err(found));
        }
    }
}

/// How a statement of a text is taken.
type Take = fn(&mut Parser) -> Result<Statement, Trouble>;

/// What tokens state, each statement taken so; after one in error the next line that begins one is gone on with.
fn all_of(tokens: Vec<Token>, take: Take) -> Stated {
    let mut parser = Parser { tokens, at: 0 };
    let mut stated = Stated {
        statements: Vec::new(),
        troubles: Troubles::default(),
        broken: Broken::default(),
        end: parser.tokens[parser.tokens.len() - 1].place,
    };
    parser.skip_lines();
    while *parser.piece() != Piece::End && !stated.troubles.are_enough() {
        let (begun, is_named) = (parser.at, parser.at_statement_like());
        match take(&mut parser) {
            Ok(statement) => stated.statements.push(statement),
            Err(found) => {
                parser.at = parser.at.max(begun + 1);
                parser.skip_statement();
                stated.note(found, &parser.tokens[begun..parser.at], is_named);
            }
        }
        parser.skip_lines();
    }
    stated
}

/// What a table's text states; where the rest of it was not looked at, anything may stand there.
pub fn statements(text: &str) -> Stated {
    let (tokens, are_all) = tokens(text);
    let mut stated = all_of(tokens, Parser::statement);
    stated.broken.has_conditions |= !are_all;
    stated.broken.has_events |= !are_all;
    stated.broken.has_labels |= !are_all;
    stated
}

/// What a log states; a table's text is told as one.
pub fn log_statements(text: &str) -> Result<Stated, Trouble> {
    let (tokens, _) = tokens(text);
    if let Some(place) = first_conditions(&tokens) {
        let found = "`conditions`, so this is a table, whose own runs 'dovetrellis judge' takes";
        return trouble(place, "steps or `run`", found);
    }
    Ok(all_of(tokens, Parser::log_statement))
}
