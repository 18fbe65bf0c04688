//! The statements of a text, before names are looked up.

use super::tokens::{tokens, Piece, Token};
use crate::near::nearest;
use crate::table::{OLD, PAPER};
use crate::trouble::{trouble, Place, Trouble};

/// Words that begin a statement and so name nothing.
const RESERVED: [&str; 3] = ["conditions", "start", "run"];

/// The word that begins the table's rule where no list of an event follows; it may be a name all the same.
const RULE: &str = "rule";

/// The rules by their words.
const RULES: [(&str, u8); 2] = [("old", OLD), ("paper", PAPER)];

/// Why a reserved word is no name, and what would be one.
fn no_name(word: &str) -> String {
    format!("is a word of the notation and cannot be a name (`{word}-1` can)")
}

/// What is expected after a reserved word, told so that who meant the word as a name sees why.
fn since(expected: &str, word: &str) -> String {
    format!("{expected}, since `{word}` {}", no_name(word))
}

/// The byte of the rule that a piece is: by its word, or the byte itself.
fn rule_byte(piece: &Piece) -> Option<u8> {
    match piece {
        Piece::Name(name) => {
            let rule = RULES.into_iter().find(|(word, _)| word == name);
            rule.map(|(_, byte)| byte)
        }
        Piece::Number(number) => u8::try_from(*number).ok(),
        _ => None,
    }
}

/// The word that is likely meant, in brackets; nothing where none is near.
fn meant(near: Option<&str>) -> String {
    near.map_or_else(String::new, |word| format!(" (is `{word}` meant?)"))
}

/// What an element of a list is written as.
#[derive(Clone, Debug, PartialEq, Eq)]
pub enum Written {
    Name(String),
    Number(u16),
    Range(u16, u16),
}

/// An element of a list, where it stands, and whether `[p]` follows it.
#[derive(Clone, Debug, PartialEq, Eq)]
pub struct Element {
    pub written: Written,
    pub persistent: bool,
    pub place: Place,
}

/// A list of elements and where it begins.
#[derive(Clone, Debug, PartialEq, Eq)]
pub struct List {
    pub elements: Vec<Element>,
    pub place: Place,
}

/// A statement of a text.
#[derive(Clone, Debug, PartialEq, Eq)]
pub enum Statement {
    Rule(Place, u8),
    Conditions(List),
    Event(Element, List, List),
    Start(Place, List),
    Run(Place, Option<(String, Place)>, List),
}

/// What an element may look like where it stands.
#[derive(Clone, Copy, PartialEq, Eq)]
enum Form {
    Condition,
    Reference,
    Step,
}

impl Form {
    /// What is expected of such an element.
    fn told(self) -> &'static str {
        match self {
            Form::Condition | Form::Reference => "the name or number of a condition",
            Form::Step => "the name or number of an event",
        }
    }
}

/// The tokens of a text and how far they are read.
struct Parser {
    tokens: Vec<Token>,
    at: usize,
}

impl Parser {
    /// The token that is so many further on; past the last one it is the end.
    fn ahead(&self, by: usize) -> &Token {
        let last = self.tokens.len() - 1;
        &self.tokens[last.min(self.at + by)]
    }

    /// The next piece.
    fn piece(&self) -> &Piece {
        &self.ahead(0).piece
    }

    /// The place of the next piece.
    fn place(&self) -> Place {
        self.ahead(0).place
    }

    /// Takes the next piece if it is this one.
    fn took(&mut self, piece: &Piece) -> bool {
        let there = self.piece() == piece;
        self.at += usize::from(there);
        there
    }

    /// Takes ends of lines.
    fn skip_lines(&mut self) {
        while self.took(&Piece::LineEnd) {}
    }

    /// The trouble that the next piece is not what was expected.
    fn unexpected<T>(&self, expected: &str) -> Result<T, Trouble> {
        trouble(self.place(), expected, self.piece().told())
    }

    /// Takes this piece, or says that it was expected.
    fn need(&mut self, piece: &Piece) -> Result<(), Trouble> {
        if self.took(piece) {
            Ok(())
        } else {
            self.unexpected(&piece.told())
        }
    }

    /// The reserved word that comes next, if one does.
    fn reserved(&self) -> Option<&'static str> {
        match self.piece() {
            Piece::Name(name) => RESERVED.into_iter().find(|word| word == name),
            _ => None,
        }
    }

    /// A statement begins here: a reserved word, or a name or number with a colon.
    fn at_statement(&self) -> bool {
        match self.piece() {
            Piece::Name(_) if self.reserved().is_some() => true,
            Piece::Name(_) | Piece::Number(_) => self.ahead(1).piece == Piece::Colon,
            _ => false,
        }
    }

    /// A rule comes next: its word and a colon, and after that, on the same line or a later one, no list of an event.
    fn at_rule(&self) -> bool {
        let mut rest = self.tokens[self.at..].iter().map(|token| &token.piece);
        let named = rest.next() == Some(&Piece::Name(RULE.to_string()));
        named
            && rest.next() == Some(&Piece::Colon)
            && rest.find(|piece| **piece != Piece::LineEnd) != Some(&Piece::Open)
    }

    /// What comes so many further on shows that the word before it is meant as an element of a list.
    fn after_element(&self, by: usize) -> bool {
        use Piece::{Close, Comma, End, LineEnd, Persistent};
        let after = &self.ahead(by).piece;
        matches!(after, Comma | Close | LineEnd | End | Persistent)
    }

    /// The trouble that something was expected after a reserved word, and why if the word is meant as a name.
    fn unexpected_after<T>(&self, word: &str, expected: &str) -> Result<T, Trouble> {
        if self.after_element(0) {
            return self.unexpected(&since(expected, word));
        }
        self.unexpected(expected)
    }

    /// Takes a name that is not a reserved word.
    fn name(&mut self, name: &str, expected: &str) -> Result<String, Trouble> {
        if let Some(word) = self.reserved() {
            let found = format!("`{word}`, which {}", no_name(word));
            return trouble(self.place(), expected, found);
        }
        self.at += 1;
        Ok(name.to_string())
    }

    /// Takes a name, a number or a range of numbers.
    fn written(&mut self, expected: &str, range: bool) -> Result<Written, Trouble> {
        match self.piece().clone() {
            Piece::Name(name) => Ok(Written::Name(self.name(&name, expected)?)),
            Piece::Number(first) => {
                self.at += 1;
                if !(range && self.took(&Piece::Through)) {
                    return Ok(Written::Number(first));
                }
                match self.piece().clone() {
                    Piece::Number(last) if first <= last => {
                        self.at += 1;
                        Ok(Written::Range(first, last))
                    }
                    _ => {
                        self.unexpected(&format!("a number from {first} on, where the range ends"))
                    }
                }
            }
            _ => self.unexpected(expected),
        }
    }

    /// Takes an element of a list.
    fn element(&mut self, form: Form) -> Result<Element, Trouble> {
        let place = self.place();
        let written = self.written(form.told(), form != Form::Step)?;
        let persistent = form == Form::Condition && self.took(&Piece::Persistent);
        Ok(Element {
            written,
            persistent,
            place,
        })
    }

    /// Takes what separates two elements, a comma or ends of lines or both; false where there is nothing of it.
    fn separated(&mut self) -> bool {
        let before = self.at;
        self.skip_lines();
        self.took(&Piece::Comma);
        self.skip_lines();
        self.at > before
    }

    /// The last piece that was taken is the end of a line.
    fn on_new_line(&self) -> bool {
        self.at > 0 && self.tokens[self.at - 1].piece == Piece::LineEnd
    }

    /// Takes a list without braces, up to the end or to a line that begins a statement.
    fn open_list(&mut self, form: Form) -> Result<List, Trouble> {
        let place = self.place();
        let mut elements: Vec<Element> = Vec::new();
        self.skip_lines();
        while *self.piece() != Piece::End && !(self.on_new_line() && self.at_statement()) {
            let element = self.element(form)?;
            let markable = form == Form::Condition && !element.persistent;
            elements.push(element);
            if !self.separated() && *self.piece() != Piece::End {
                let mark = if markable { "`[p]`, " } else { "" };
                return self.unexpected(&format!("{mark}`,` or the end of the line"));
            }
        }
        Ok(List { elements, place })
    }

    /// Takes a list in braces.
    fn set(&mut self) -> Result<List, Trouble> {
        self.skip_lines();
        let place = self.place();
        self.need(&Piece::Open)?;
        self.skip_lines();
        let mut elements = Vec::new();
        while !self.took(&Piece::Close) {
            let ended =
                *self.piece() == Piece::End || self.at_statement() && !self.after_element(1);
            if self.on_new_line() && ended {
                return self.unexpected(&format!("`}}` for the `{{` at {place}"));
            }
            elements.push(self.element(Form::Reference)?);
            if !self.separated() && *self.piece() != Piece::Close {
                return self.unexpected("`,` or `}`");
            }
        }
        Ok(List { elements, place })
    }

    /// Takes the colon that a reserved word needs.
    fn colon_after(&mut self, word: &str) -> Result<(), Trouble> {
        if self.took(&Piece::Colon) {
            return Ok(());
        }
        self.unexpected_after(word, "`:`")
    }

    /// Takes the colon that a reserved word needs, and its list without braces.
    fn list_after(&mut self, word: &str, form: Form) -> Result<List, Trouble> {
        self.colon_after(word)?;
        if self.at_event_lists() {
            return self.unexpected(&since(form.told(), word));
        }
        if *self.piece() == Piece::Open {
            return self.unexpected(&format!("{}, as this list has no braces", form.told()));
        }
        self.open_list(form)
    }

    /// The two lists of an event come next, as far as the arrow shows it.
    fn at_event_lists(&self) -> bool {
        let mut rest = self.tokens[self.at..].iter().map(|token| &token.piece);
        rest.next() == Some(&Piece::Open)
            && rest.any(|piece| *piece == Piece::Close)
            && rest.find(|piece| **piece != Piece::LineEnd) == Some(&Piece::Arrow)
    }

    /// Takes the end of a statement's line.
    fn line_end(&mut self) -> Result<(), Trouble> {
        match self.piece() {
            Piece::End | Piece::LineEnd => Ok(()),
            _ => self.unexpected("the end of the line"),
        }
    }

    /// Takes the rest of a `conditions` statement.
    fn conditions(&mut self) -> Result<Statement, Trouble> {
        let list = self.list_after("conditions", Form::Condition)?;
        Ok(Statement::Conditions(list))
    }

    /// Takes the rest of a `start` statement.
    fn start(&mut self, place: Place) -> Result<Statement, Trouble> {
        self.colon_after("start")?;
        let list = self.set()?;
        if *self.piece() == Piece::Arrow {
            return self.unexpected(&since("the end of the line", "start"));
        }
        self.line_end()?;
        Ok(Statement::Start(place, list))
    }

    /// Takes the rest of a `run` statement.
    fn run(&mut self, place: Place) -> Result<Statement, Trouble> {
        let named = self.place();
        let name = match self.piece().clone() {
            Piece::Name(name) => Some((self.name(&name, "a name for the run, or `:`")?, named)),
            _ => None,
        };
        if name.is_none() && *self.piece() != Piece::Colon {
            return self.unexpected_after("run", "a name for the run, or `:`");
        }
        let list = self.list_after("run", Form::Step)?;
        Ok(Statement::Run(place, name, list))
    }

    /// The trouble that no rule comes after its word; one that is nearly written so may be meant.
    fn no_rule<T>(&self) -> Result<T, Trouble> {
        let words = RULES.into_iter().map(|(word, _)| word);
        let near = match self.piece() {
            Piece::Name(name) => nearest(&name.to_lowercase(), words),
            _ => None,
        };
        let expected = "`old`, `paper` or a number of at most 255, since `rule:` is the table's rule where no `{` follows";
        trouble(self.place(), expected, self.piece().told() + &meant(near))
    }

    /// Takes a `rule` statement: its word and colon, then the rule's own word or its byte on the same line.
    fn rule(&mut self, place: Place) -> Result<Statement, Trouble> {
        self.at += 2;
        let Some(byte) = rule_byte(self.piece()) else {
            return self.no_rule();
        };
        self.at += 1;
        self.line_end()?;
        Ok(Statement::Rule(place, byte))
    }

    /// The trouble that an event lacks a piece; if its name is near another word that begins a statement, that may be meant.
    fn event_lacks<T>(&self, piece: &Piece, begun: &Piece) -> Result<T, Trouble> {
        let words = [RULE].into_iter().chain(RESERVED);
        let near = match begun {
            Piece::Name(name) if name != RULE => nearest(&name.to_lowercase(), words),
            _ => None,
        };
        let begins = match (piece, begun) {
            (Piece::Colon, Piece::Name(name)) if name == RULE => "the table's rule or an event",
            _ => "an event",
        };
        let (piece, begun, meant) = (piece.told(), begun.told(), meant(near));
        self.unexpected(&format!("{piece}, since {begun} begins {begins}{meant}"))
    }

    /// Takes an event: its name or number, and its two lists.
    fn event(&mut self) -> Result<Statement, Trouble> {
        let place = self.place();
        let expected = "`conditions:`, `start:`, `run`, `rule:` or an event's name";
        let written = self.written(expected, false)?;
        let label = Element {
            written,
            persistent: false,
            place,
        };
        let begun = self.tokens[self.at - 1].piece.clone();
        if !self.took(&Piece::Colon) {
            return self.event_lacks(&Piece::Colon, &begun);
        }
        self.skip_lines();
        if *self.piece() != Piece::Open {
            return self.event_lacks(&Piece::Open, &begun);
        }
        let before = self.set()?;
        self.skip_lines();
        if !self.took(&Piece::Arrow) {
            return self.event_lacks(&Piece::Arrow, &begun);
        }
        let after = self.set()?;
        self.line_end()?;
        Ok(Statement::Event(label, before, after))
    }

    /// Takes a statement.
    fn statement(&mut self) -> Result<Statement, Trouble> {
        let place = self.place();
        if self.at_rule() {
            return self.rule(place);
        }
        let word = self.reserved();
        self.at += usize::from(word.is_some());
        match word {
            Some("conditions") => self.conditions(),
            Some("start") => self.start(place),
            Some(_) => self.run(place),
            None => self.event(),
        }
    }
}

/// The statements of a text, and the place where it ends.
pub fn statements(text: &str) -> Result<(Vec<Statement>, Place), Trouble> {
    let mut parser = Parser {
        tokens: tokens(text)?,
        at: 0,
    };
    let mut statements = Vec::new();
    parser.skip_lines();
    while *parser.piece() != Piece::End {
        statements.push(parser.statement()?);
        parser.skip_lines();
    }
    Ok((statements, parser.place()))
}
