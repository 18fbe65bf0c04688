//! JSON read as strictly as its definition is, apart from how the command writes it.

use std::iter::Peekable;
use std::str::Chars;

/// A value that was read.
#[derive(Clone, Debug, PartialEq, Eq)]
pub enum Value {
    Word(String),
    Text(String),
    List(Vec<Value>),
    Object(Vec<(String, Value)>),
}

/// What is left to read.
type Rest<'a> = Peekable<Chars<'a>>;

/// Passes over blanks.
fn blanks(rest: &mut Rest) {
    while rest
        .next_if(|c| matches!(c, ' ' | '\n' | '\r' | '\t'))
        .is_some()
    {}
}

/// Takes a character that must come after blanks.
fn due(rest: &mut Rest, expected: char) {
    blanks(rest);
    assert_eq!(rest.next(), Some(expected));
}

/// The unit of UTF-16 that four digits spell.
fn unit(rest: &mut Rest) -> u16 {
    let digits: String = rest.take(4).collect();
    assert!(digits.bytes().all(|digit| digit.is_ascii_hexdigit()));
    u16::from_str_radix(&digits, 16).unwrap()
}

/// A text after its first quote; what is escaped is one unit, so no pair of them.
fn text(rest: &mut Rest) -> String {
    let mut text = String::new();
    loop {
        match rest.next().expect("a quote ends a text") {
            '"' => return text,
            '\\' => text.push(match rest.next().unwrap() {
                'n' => '\n',
                'r' => '\r',
                't' => '\t',
                'b' => '\u{8}',
                'f' => '\u{c}',
                'u' => char::from_u32(u32::from(unit(rest))).unwrap(),
                same => {
                    assert!(matches!(same, '"' | '\\' | '/'), "{same}");
                    same
                }
            }),
            c => {
                assert!(c >= ' ', "{c:?} must be escaped");
                text.push(c);
            }
        }
    }
}

/// What stands between commas up to a bracket.
fn all<T>(rest: &mut Rest, last: char, mut one: impl FnMut(&mut Rest) -> T) -> Vec<T> {
    let mut items = Vec::new();
    blanks(rest);
    if rest.next_if_eq(&last).is_some() {
        return items;
    }
    loop {
        items.push(one(rest));
        blanks(rest);
        match rest.next() {
            Some(',') => {}
            other => {
                assert_eq!(other, Some(last));
                return items;
            }
        }
    }
}

/// A field of an object.
fn field(rest: &mut Rest) -> (String, Value) {
    due(rest, '"');
    let name = text(rest);
    due(rest, ':');
    (name, value(rest))
}

/// The next value.
fn value(rest: &mut Rest) -> Value {
    blanks(rest);
    if rest.next_if_eq(&'"').is_some() {
        return Value::Text(text(rest));
    }
    if rest.next_if_eq(&'[').is_some() {
        return Value::List(all(rest, ']', value));
    }
    if rest.next_if_eq(&'{').is_some() {
        return Value::Object(all(rest, '}', field));
    }
    let mut word = String::new();
    while let Some(c) = rest.next_if(char::is_ascii_alphanumeric) {
        word.push(c);
    }
    let is_number = word == "0" || word.parse::<u64>().is_ok() && !word.starts_with('0');
    assert!(
        is_number || ["null", "true", "false"].contains(&word.as_str()),
        "{word}"
    );
    Value::Word(word)
}

/// The one value that a text is.
pub fn read(json: &str) -> Value {
    let mut rest = json.chars().peekable();
    let value = value(&mut rest);
    blanks(&mut rest);
    assert_eq!(rest.next(), None, "nothing comes after the value");
    value
}

impl Value {
    /// What stands under names and places in lists, with slashes between; a star is each element of a list.
    pub fn at(&self, path: &str) -> Value {
        let (first, rest) = path.split_once('/').unwrap_or((path, ""));
        match self {
            _ if path.is_empty() => self.clone(),
            Value::List(items) if first == "*" => {
                Value::List(items.iter().map(|item| item.at(rest)).collect())
            }
            Value::List(items) => items[first.parse::<usize>().unwrap()].at(rest),
            Value::Object(fields) => {
                let mut found = fields.iter().filter(|(name, _)| name == first);
                let (_, value) = found.next().unwrap_or_else(|| panic!("no field {first}"));
                assert!(found.next().is_none(), "the field {first} is there twice");
                value.at(rest)
            }
            other => panic!("{other:?} has no {first}"),
        }
    }

    /// The value in short: texts without quotes, and elements and fields with commas between.
    pub fn told(&self) -> String {
        let joined = |parts: Vec<String>| parts.join(", ");
        match self {
            Value::Word(word) => word.clone(),
            Value::Text(text) => text.clone(),
            Value::List(items) => {
                format!("[{}]", joined(items.iter().map(Value::told).collect()))
            }
            Value::Object(fields) => {
                let told = |(name, value): &(String, Value)| format!("{name} {}", value.told());
                format!("{{{}}}", joined(fields.iter().map(told).collect()))
            }
        }
    }
}
