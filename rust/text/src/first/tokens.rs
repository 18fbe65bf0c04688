//! The pieces of a text: names, numbers, marks and the ends of lines.

use std::iter::Peekable;
use std::str::Chars;

use crate::trouble::{quoted, trouble, Place, Trouble};

/// A piece of a text.
#[derive(Clone, Debug, PartialEq, Eq)]
pub enum Piece {
    Name(String),
    Number(u16),
    Open,
    Close,
    Comma,
    Colon,
    Arrow,
    Through,
    Persistent,
    LineEnd,
    End,
}

impl Piece {
    /// The piece as it is told in a message.
    pub fn told(&self) -> String {
        match self {
            Piece::Name(name) => quoted(name),
            Piece::Number(number) => format!("`{number}`"),
            Piece::Open => "`{`".into(),
            Piece::Close => "`}`".into(),
            Piece::Comma => "`,`".into(),
            Piece::Colon => "`:`".into(),
            Piece::Arrow => "`->`".into(),
            Piece::Through => "`..`".into(),
            Piece::Persistent => "`[p]`".into(),
            Piece::LineEnd => "the end of the line".into(),
            Piece::End => "the end of the text".into(),
        }
    }
}

/// A piece and where it begins.
#[derive(Clone, Debug, PartialEq, Eq)]
pub struct Token {
    pub piece: Piece,
    pub place: Place,
}

/// A walk over the characters of a text that knows its place.
struct Walk<'a> {
    rest: Peekable<Chars<'a>>,
    place: Place,
}

impl Walk<'_> {
    /// The next character, which stays.
    fn peek(&mut self) -> Option<char> {
        self.rest.peek().copied()
    }

    /// The character after the next, which stays.
    fn peek_second(&self) -> Option<char> {
        self.rest.clone().nth(1)
    }

    /// Takes the next character.
    fn take(&mut self) -> Option<char> {
        let taken = self.rest.next();
        match taken {
            Some('\n') => {
                self.place.line += 1;
                self.place.column = 1;
            }
            Some(_) => self.place.column += 1,
            None => {}
        }
        taken
    }

    /// Takes characters as long as the test holds.
    fn take_while(&mut self, test: impl Fn(char) -> bool) -> String {
        let mut taken = String::new();
        while let Some(c) = self.peek().filter(|c| test(*c)) {
            taken.push(c);
            self.take();
        }
        taken
    }

    /// Takes a name; a dash belongs to it where a letter, a digit or `_` follows.
    fn name(&mut self) -> String {
        let mut name = self.take_while(in_name);
        while self.peek() == Some('-') && self.peek_second().is_some_and(in_name) {
            self.take();
            name.push('-');
            name.push_str(&self.take_while(in_name));
        }
        name
    }

    /// Takes a number of at most 65,535.
    fn number(&mut self) -> Result<Piece, Trouble> {
        let place = self.place;
        let digits = self.take_while(|c| c.is_ascii_digit());
        if self.peek().is_some_and(in_name) {
            let found = quoted(&(digits + &self.name()));
            let expected = "a number, or a name that begins with a letter";
            return trouble(place, expected, found);
        }
        match digits.parse() {
            Ok(number) => Ok(Piece::Number(number)),
            Err(_) => trouble(place, "a number of at most 65535", quoted(&digits)),
        }
    }

    /// Takes a mark of more than one character, whose first was seen.
    fn mark(&mut self, mark: &str, piece: Piece) -> Result<Piece, Trouble> {
        let place = self.place;
        for (at, wanted) in mark.char_indices() {
            if self.peek() != Some(wanted) {
                return broken(place, mark, &mark[..at], self.peek());
            }
            self.take();
        }
        Ok(piece)
    }

    /// Takes a piece of one character.
    fn single(&mut self, piece: Piece) -> Result<Piece, Trouble> {
        self.take();
        Ok(piece)
    }

    /// Takes the piece that begins with a character.
    fn piece(&mut self, first: char) -> Result<Piece, Trouble> {
        match first {
            '{' => self.single(Piece::Open),
            '}' => self.single(Piece::Close),
            ',' => self.single(Piece::Comma),
            ':' => self.single(Piece::Colon),
            '→' => self.single(Piece::Arrow),
            '\n' => self.single(Piece::LineEnd),
            '-' => self.mark("->", Piece::Arrow),
            '.' => self.mark("..", Piece::Through),
            '[' => self.mark("[p]", Piece::Persistent),
            _ if first.is_ascii_digit() => self.number(),
            _ if first.is_alphabetic() || first == '_' => Ok(Piece::Name(self.name())),
            _ => trouble(
                self.place,
                "a name, a number or one of `{ } , : -> .. [p] #`",
                unknown(first),
            ),
        }
    }
}

/// The trouble that a mark is only begun, with what comes after its beginning.
fn broken<T>(place: Place, mark: &str, begun: &str, next: Option<char>) -> Result<T, Trouble> {
    let found = match next {
        Some(c) if c.is_ascii_graphic() => format!("`{begun}{c}`"),
        _ => format!("`{begun}` alone"),
    };
    let expected = match found.as_str() {
        "`--`" => format!("`{mark}`, or a single dash within a name"),
        _ => format!("`{mark}`"),
    };
    trouble(place, expected, found)
}

/// A character that is no part of the notation, as it is told; one that may look like another by its number too.
fn unknown(c: char) -> String {
    let number = u32::from(c);
    match c {
        '\u{300}'..='\u{36f}' => {
            format!("the accent U+{number:04X}, which must be one character with its letter")
        }
        _ if c.is_whitespace() => format!("U+{number:04X}, which is a blank but no space"),
        _ if c.is_ascii_graphic() => format!("`{c}`"),
        _ => format!("`{}`, which is U+{number:04X}", c.escape_debug()),
    }
}

/// A character that some editors show as the end of a line and that is none here.
fn odd_line_end(c: char) -> bool {
    matches!(c, '\u{85}' | '\u{2028}' | '\u{2029}')
}

/// A character may stand within a name.
fn in_name(c: char) -> bool {
    c.is_alphanumeric() || c == '_'
}

/// The pieces of a text, the last being its end; blanks and comments are left out.
pub fn tokens(text: &str) -> Result<Vec<Token>, Trouble> {
    let mut walk = Walk {
        rest: text
            .strip_prefix('\u{feff}')
            .unwrap_or(text)
            .chars()
            .peekable(),
        place: Place { line: 1, column: 1 },
    };
    let mut tokens = Vec::new();
    while let Some(first) = walk.peek() {
        let place = walk.place;
        match first {
            '\r' if walk.peek_second() != Some('\n') => {
                let found = "a carriage return alone";
                return trouble(place, "a line feed at the end of the line", found);
            }
            _ if odd_line_end(first) => {
                let found = format!("U+{:04X} alone", u32::from(first));
                return trouble(place, "a line feed at the end of the line", found);
            }
            ' ' | '\t' | '\r' => {
                walk.take();
            }
            '#' => {
                walk.take_while(|c| !matches!(c, '\n' | '\r') && !odd_line_end(c));
            }
            _ => {
                let piece = walk.piece(first)?;
                tokens.push(Token { piece, place });
            }
        }
    }
    tokens.push(Token {
        piece: Piece::End,
        place: walk.place,
    });
    Ok(tokens)
}
