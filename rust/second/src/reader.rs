//! A reader that walks a table record by record and judges each as the kind that is due at its place (01, Table records; 02, No. 4).

use crate::records::{record_at, EVENT, MARKING, RULE};
use crate::refusal::{require, Answer};
use crate::table::{read_conditions, read_event, read_rule, read_start, MOST_EVENTS};

/// A table with a place in it, and what was read before that place.
pub struct Reader<'a> {
    bytes: &'a [u8],
    place: usize,
    persistent: Option<Vec<bool>>,
    events: usize,
}

impl Reader<'_> {
    /// A reader at the first record.
    pub fn over(bytes: &[u8]) -> Reader<'_> {
        Reader {
            bytes,
            place: 0,
            persistent: None,
            events: 0,
        }
    }

    /// Where it stands.
    pub fn place(&self) -> usize {
        self.place
    }

    /// Judges the record at its place and moves past it; the answer is the new place. A refused record is not moved past.
    pub fn read(&mut self) -> Answer<usize> {
        let next = match self.persistent.take() {
            None => self.read_front()?,
            Some(persistent) => {
                let next = self.read_after(&persistent);
                self.persistent = Some(persistent);
                next?
            }
        };
        self.place = next;
        Ok(next)
    }

    /// A Rule record where it stands first, or the Conditions record.
    fn read_front(&mut self) -> Answer<usize> {
        let record = record_at(self.bytes, self.place)?;
        if self.place == 0 && record.kind == RULE {
            read_rule(&record)?;
        } else {
            self.persistent = Some(read_conditions(&record)?);
        }
        Ok(record.end())
    }

    /// An Event record or the Marking record, with which the table ends.
    fn read_after(&mut self, persistent: &[bool]) -> Answer<usize> {
        let record = record_at(self.bytes, self.place)?;
        if record.kind == EVENT {
            require(self.events < MOST_EVENTS, 6, self.place)?;
            read_event(&record, persistent)?;
            self.events += 1;
        } else {
            require(record.kind == MARKING, 2, self.place)?;
            read_start(&record, persistent.len())?;
            require(record.end() == self.bytes.len(), 9, record.end())?;
        }
        Ok(record.end())
    }
}
