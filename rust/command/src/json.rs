//! JSON as the command writes it: one value on one line.

use std::fmt::{self, Formatter, Write as _};
use std::io::Write;

use wire::Counts;

use crate::source::Source;
use crate::stop::{Stop, Stopped, Told};

/// A value of JSON.
#[derive(Clone, Debug, PartialEq, Eq)]
pub enum Json {
    Null,
    Bool(bool),
    Number(u64),
    Text(String),
    List(Vec<Json>),
    Object(Vec<(&'static str, Json)>),
}

/// Writes a text between quotes, with everything escaped that may not stand there as it is.
fn write_text(f: &mut Formatter, text: &str) -> fmt::Result {
    f.write_char('"')?;
    for c in text.chars() {
        match c {
            '"' => f.write_str("\\\"")?,
            '\\' => f.write_str("\\\\")?,
            '\n' => f.write_str("\\n")?,
            '\r' => f.write_str("\\r")?,
            '\t' => f.write_str("\\t")?,
            c if c.is_control() => write!(f, "\\u{:04x}", u32::from(c))?,
            c => f.write_char(c)?,
        }
    }
    f.write_char('"')
}

/// Writes what stands between two brackets, with commas between.
fn write_all<T>(
    f: &mut Formatter,
    brackets: [char; 2],
    inner: &[T],
    mut one: impl FnMut(&mut Formatter, &T) -> fmt::Result,
) -> fmt::Result {
    f.write_char(brackets[0])?;
    for (index, item) in inner.iter().enumerate() {
        if index > 0 {
            f.write_str(", ")?;
        }
        one(f, item)?;
    }
    f.write_char(brackets[1])
}

impl fmt::Display for Json {
    fn fmt(&self, f: &mut Formatter) -> fmt::Result {
        match self {
            Json::Null => f.write_str("null"),
            Json::Bool(said) => write!(f, "{said}"),
            Json::Number(number) => write!(f, "{number}"),
            Json::Text(text) => write_text(f, text),
            Json::List(items) => write_all(f, ['[', ']'], items, |f, item| item.fmt(f)),
            Json::Object(fields) => write_all(f, ['{', '}'], fields, |f, (name, value)| {
                write_text(f, name)?;
                write!(f, ": {value}")
            }),
        }
    }
}

impl From<u64> for Json {
    fn from(number: u64) -> Json {
        Json::Number(number)
    }
}

impl From<u16> for Json {
    fn from(number: u16) -> Json {
        Json::Number(u64::from(number))
    }
}

impl From<bool> for Json {
    fn from(said: bool) -> Json {
        Json::Bool(said)
    }
}

impl From<&str> for Json {
    fn from(text: &str) -> Json {
        Json::Text(text.to_string())
    }
}

impl From<String> for Json {
    fn from(text: String) -> Json {
        Json::Text(text)
    }
}

impl<T: Into<Json>> From<Option<T>> for Json {
    fn from(value: Option<T>) -> Json {
        value.map_or(Json::Null, T::into)
    }
}

impl<T: Clone + Into<Json>> From<&[T]> for Json {
    fn from(items: &[T]) -> Json {
        Json::List(items.iter().cloned().map(T::into).collect())
    }
}

impl From<&Told> for Json {
    fn from(told: &Told) -> Json {
        Json::Object(vec![
            ("number", told.refusal.number.into()),
            ("place", told.refusal.place.into()),
            ("by", told.refusal.by.into()),
            ("line", told.line().into()),
            ("what", told.what.as_str().into()),
            ("where", told.place.as_str().into()),
        ])
    }
}

impl From<Counts> for Json {
    fn from(counts: Counts) -> Json {
        Json::Object(vec![
            ("conditions", counts.conditions.into()),
            ("events", counts.events.into()),
        ])
    }
}

/// Writes a value on a line of its own.
pub fn write_line(json: &Json, out: &mut impl Write) -> Stopped<()> {
    Ok(writeln!(out, "{json}")?)
}

/// Why a command ends without its answer, where that is JSON: a refusal of the table is written in its place.
pub fn refused_as_json(stop: Stop, table: &Source, out: &mut impl Write) -> Stop {
    let Stop::Refused(told) = stop else {
        return stop;
    };
    let refused = Json::Object(vec![
        ("accepted", false.into()),
        ("digest", table.digest().into()),
        ("refused", (&told).into()),
    ]);
    match write_line(&refused, out) {
        Ok(()) => Stop::Answered,
        Err(stop) => stop,
    }
}
