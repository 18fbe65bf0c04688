//! Names that look the same and are not: a letter of one is of another alphabet, or of another width.

use std::collections::BTreeMap;
use std::fmt;

use crate::table::Table;
use crate::trouble::{quoted, Place};

/// Letters that look like plain ones, and the plain ones: Cyrillic, Greek, Armenian, and other letters and numerals.
const ALIKE: [(&str, &str); 6] = [
    ("аеорсхуіјѕһԁԛԝӏѵк", "aeopcxyijshdqwlvk"),
    ("АВЕКМНОРСТУХІЈЅԚԜԌѴӀ", "ABEKMHOPCTYXIJSQWGVI"),
    ("ανορικυχϲϳ", "avopikuxcj"),
    ("ΑΒΕΖΗΙΚΜΝΟΡΤΥΧϹ\u{37f}", "ABEZHIKMNOPTYXCJ"),
    ("օոսհՕՏՍ", "onuhOSU"),
    ("ıɑɡſⅰⅴⅹⅼⅽⅾⅿⅠⅤⅩⅬⅭⅮⅯ", "iagfivxlcdmIVXLCDM"),
];

/// A plain letter by its number in the alphabet, capitals first.
fn letter(number: u32) -> char {
    let capitals = 'A'..='Z';
    let mut all = capitals.chain('a'..='z');
    all.nth(number as usize).unwrap_or('A')
}

/// The plain character that a character looks like: itself, unless it is known to look like another.
fn plain(c: char) -> char {
    let number = u32::from(c);
    match number {
        0..=0x7f => return c,
        0xff01..=0xff5e => return char::from_u32(number - 0xfee0).unwrap_or(c),
        0x1d400..=0x1d6a3 => return letter((number - 0x1d400) % 52),
        0x1d7ce..=0x1d7ff => return char::from_digit((number - 0x1d7ce) % 10, 10).unwrap_or(c),
        _ => {}
    }
    let mut pairs = ALIKE.iter().flat_map(|(k, p)| k.chars().zip(p.chars()));
    let pair = pairs.find(|(known, _)| *known == c);
    pair.map_or(c, |(_, plain)| plain)
}

/// A name as it looks, in plain letters as far as they are known.
fn looks(name: &str) -> String {
    name.chars().map(plain).collect()
}

/// A letter as it is told: as it stands where it is plain, else by its number.
fn letter_told(c: char) -> String {
    match c.is_ascii() {
        true => format!("`{c}`"),
        false => format!("U+{:04X}", u32::from(c)),
    }
}

/// Which letter it is, counted from 0, in words.
fn ordinal(index: usize) -> String {
    let words = ["first", "second", "third", "fourth", "fifth", "sixth"];
    match words.get(index) {
        Some(word) => format!("{word} letter"),
        None => format!("letter {}", index + 1),
    }
}

/// By which letter a name is another than one that looks the same; nothing where they look different, or are the same.
pub fn difference(name: &str, other: &str) -> Option<String> {
    if !name.chars().map(plain).eq(other.chars().map(plain)) {
        return None;
    }
    let pairs = name.chars().zip(other.chars());
    let (index, (one, two)) = pairs.enumerate().find(|(_, (one, two))| one != two)?;
    let (one, two, other) = (letter_told(one), letter_told(two), quoted(other));
    Some(format!(
        "{} is {one} and not the {two} of {other}",
        ordinal(index)
    ))
}

/// The first of known names that looks like a name and is another, by the letter that tells them apart.
pub fn alike<'a>(name: &str, mut known: impl Iterator<Item = &'a str>) -> Option<String> {
    known.find_map(|other| difference(name, other))
}

/// Two names of one kind that look the same and are not.
#[derive(Clone, Debug, PartialEq, Eq)]
pub struct LookAlike {
    /// What they name: conditions, events or runs.
    pub of: &'static str,
    pub name: String,
    pub place: Place,
    pub other: String,
    pub other_place: Place,
}

impl fmt::Display for LookAlike {
    fn fmt(&self, f: &mut fmt::Formatter) -> fmt::Result {
        let (name, other) = (quoted(&self.name), quoted(&self.other));
        let why = difference(&self.name, &self.other).unwrap_or_default();
        write!(
            f,
            "{}: {} {name} looks like {other} at {}, but its {why}",
            self.place, self.of, self.other_place
        )
    }
}

/// The names of one kind, each with its place, that look like one before them.
fn look_alikes_of<'a>(
    of: &'static str,
    names: impl Iterator<Item = (&'a Option<String>, Place)>,
) -> Vec<LookAlike> {
    let mut seen: BTreeMap<String, (&str, Place)> = BTreeMap::new();
    let mut found = Vec::new();
    for (name, place) in names {
        let Some(name) = name else {
            continue;
        };
        let (other, other_place) = *seen.entry(looks(name)).or_insert((name, place));
        if other != name {
            found.push(LookAlike {
                of,
                name: name.clone(),
                place,
                other: other.to_string(),
                other_place,
            });
        }
    }
    found
}

/// The names of a table, of its conditions, events and runs, that look like one stated before them and are another.
pub fn look_alikes(table: &Table) -> Vec<LookAlike> {
    let conditions = table.conditions.iter().map(|c| (&c.name, c.place));
    let events = table.events.iter().map(|e| (&e.name, e.place));
    let runs = table.runs.iter().map(|r| (&r.name, r.place));
    let mut found = look_alikes_of("condition", conditions);
    found.extend(look_alikes_of("event", events));
    found.extend(look_alikes_of("run", runs));
    found
}
