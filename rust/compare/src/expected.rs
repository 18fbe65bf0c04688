//! What a request must come to, by the second implementation.

use second::calls;
use second::lent::write_answer;
use second::records::{read_lifted, read_run, word_bytes, words, write_lifted, write_run};
use second::refusal::Answer;
use second::unfolding::{CopyFor, Marker, UnfoldedCondition};
use wire::{Call, Reply, Request, START};

/// A marker as the header has it: an event's number, or the word for the start.
pub fn marker_word(marker: Marker) -> u32 {
    match marker {
        Marker::Start => START,
        Marker::ByEvent(event) => u32::from(event),
    }
}

/// The marker of a word; a word past two bytes is no event's number, and neither is the largest number of two bytes.
fn marker_of(word: u32) -> Marker {
    match (word, u16::try_from(word)) {
        (START, _) => Marker::Start,
        (_, Ok(event)) => Marker::ByEvent(event),
        _ => Marker::ByEvent(u16::MAX),
    }
}

/// The four-byte numbers that the bytes spell.
fn double_words(bytes: &[u8]) -> Vec<u32> {
    let number = |c: &[u8]| u32::from_le_bytes([c[0], c[1], c[2], c[3]]);
    bytes.chunks_exact(4).map(number).collect()
}

/// The bytes that spell four-byte numbers.
pub fn double_word_bytes(numbers: &[u32]) -> Vec<u8> {
    numbers.iter().flat_map(|n| n.to_le_bytes()).collect()
}

/// A reply in the making: what the call was given, as it will leave it.
struct Making<'a> {
    table: &'a [u8],
    reply: Reply,
}

impl Making<'_> {
    /// Lends the output as two-byte numbers to a call, and keeps what it leaves.
    fn lend_words<T>(&mut self, call: impl FnOnce(&mut [u16]) -> Answer<T>) -> Answer<T> {
        let mut output = words(&self.reply.lent);
        let answer = call(&mut output);
        self.reply.lent = word_bytes(&output);
        answer
    }

    /// Writes the first of the single values.
    fn values(&mut self, values: &[u64]) -> Answer<()> {
        self.reply.values[..values.len()].copy_from_slice(values);
        Ok(())
    }

    /// Writes a run by a call.
    fn run(&mut self, call: impl FnOnce(&mut [u16]) -> Answer<usize>) -> Answer<()> {
        self.lend_words(call).map(|_| ())
    }

    /// Writes a part of the table as a list, and its count as the first value.
    fn list_part(&mut self, part: Answer<&[u8]>) -> Answer<()> {
        let list = words(part?);
        self.list(|out| write_answer(&list, out))
    }

    /// Writes a list by a call, and its count as the first value.
    fn list(&mut self, call: impl FnOnce(&mut [u16]) -> Answer<usize>) -> Answer<()> {
        self.reply.values[0] = self.lend_words(call)? as u64;
        Ok(())
    }

    /// Writes bytes by a call, and their count as the first value.
    fn bytes(&mut self, call: impl FnOnce(&mut [u8]) -> Answer<usize>) -> Answer<()> {
        self.reply.values[0] = call(&mut self.reply.lent)? as u64;
        Ok(())
    }

    /// Exchanges two steps of the run that was given.
    fn exchange(&mut self, k: u64) -> Answer<()> {
        let mut run = words(&self.reply.given);
        let answer = calls::exchange(self.table, &mut run, k as usize);
        self.reply.given = word_bytes(&run);
        answer
    }

    /// Writes the markers behind an unfolded event; the values are the event and the count.
    fn event_origin(&mut self, number: u16) -> Answer<()> {
        let behind = calls::event_behind(self.table, number)?;
        let markers: Vec<u32> = behind.markers.iter().map(|m| marker_word(*m)).collect();
        let mut output = double_words(&self.reply.lent);
        let count = write_answer(&markers, &mut output)?;
        self.reply.lent = double_word_bytes(&output);
        self.values(&[u64::from(behind.event), count as u64])
    }

    /// The values are what stands behind an unfolded condition; those of a copy stay where it is ordinary.
    fn condition_origin(&mut self, number: u16) -> Answer<()> {
        let behind = calls::condition_behind(self.table, number)?;
        self.reply.values[0] = u64::from(behind.condition);
        self.reply.values[1] = u64::from(behind.copy.is_some());
        if let Some(copy) = behind.copy {
            self.reply.values[2] = u64::from(marker_word(copy.marker));
            self.reply.values[3] = u64::from(copy.user);
        }
        Ok(())
    }
}

/// The unfolded condition that the numbers of a request ask for.
fn asked_condition(numbers: &[u64; 4]) -> UnfoldedCondition {
    let copy = CopyFor {
        marker: marker_of(numbers[2] as u32),
        user: numbers[3] as u16,
    };
    UnfoldedCondition {
        condition: numbers[0] as u16,
        copy: (numbers[1] != 0).then_some(copy),
    }
}

/// Makes a call on a table and its game.
fn make_table(request: &Request, making: &mut Making) -> Answer<()> {
    let table = making.table;
    let event = request.numbers[0] as u16;
    match request.call {
        Call::Judge => calls::judge(table),
        Call::Counts => {
            let counts = calls::table_counts(table)?;
            making.values(&[counts.conditions as u64, counts.events as u64])
        }
        Call::Pre => making.list_part(calls::preconditions(table, event)),
        Call::Post => making.list_part(calls::postconditions(table, event)),
        Call::Start => calls::start(table, &mut making.reply.lent).map(|_| ()),
        Call::CanFire => calls::has_concession(table, &request.given, event),
        Call::Fire => calls::fire_event(table, &mut making.reply.given, event),
        Call::Replay => {
            calls::replay(table, &words(&request.given), &mut making.reply.lent).map(|_| ())
        }
        _ => making.exchange(request.numbers[0]),
    }
}

/// Makes a call on the unfolding.
fn make_unfolding(request: &Request, making: &mut Making) -> Answer<()> {
    let table = making.table;
    let number = request.numbers[0] as u16;
    match request.call {
        Call::UnfoldedCounts => {
            let counts = calls::unfolded_counts(table)?;
            making.values(&[counts.conditions as u64, counts.events as u64])
        }
        Call::EventOrigin => making.event_origin(number),
        Call::EventNumber => {
            let markers = double_words(&request.given);
            let markers: Vec<Marker> = markers.into_iter().map(marker_of).collect();
            making.values(&[u64::from(calls::event_number(table, number, &markers)?)])
        }
        Call::ConditionOrigin => making.condition_origin(number),
        Call::ConditionNumber => {
            let asked = asked_condition(&request.numbers);
            making.values(&[u64::from(calls::condition_number(table, &asked)?)])
        }
        Call::UnfoldedPre => making.list(|out| calls::unfolded_preconditions(table, number, out)),
        Call::UnfoldedPost => making.list(|out| calls::unfolded_postconditions(table, number, out)),
        Call::UnfoldedStart => calls::unfolded_start(table, &mut making.reply.lent).map(|_| ()),
        _ => calls::fire_unfolded(table, &mut making.reply.given, number),
    }
}

/// Makes a call on a run across, or on a record.
fn make_run(request: &Request, making: &mut Making) -> Answer<()> {
    let table = making.table;
    let run = words(&request.given);
    let lent = &mut making.reply.lent;
    match request.call {
        Call::Lift => making.run(|out| calls::lift(table, &run, out)),
        Call::Project => making.run(|out| calls::project(table, &run, out)),
        Call::LiftEnd => calls::lifted_end(table, &run, lent).map(|_| ()),
        Call::UnfoldedReplay => calls::replay_unfolded(table, &run, lent).map(|_| ()),
        Call::ReadRun => making.list(|out| read_run(&request.given, out)),
        Call::ReadLifted => making.list(|out| read_lifted(&request.given, out)),
        Call::WriteRun => making.bytes(|out| write_run(&run, out)),
        _ => making.bytes(|out| write_lifted(&run, out)),
    }
}

/// Makes a call on the export.
fn make_export(request: &Request, making: &mut Making) -> Answer<()> {
    let table = making.table;
    match request.call {
        Call::ElementCount => making.values(&[calls::element_count(table)?]),
        _ => making.bytes(|out| calls::element(table, request.numbers[0], out)),
    }
}

/// The reply that a request must come to.
pub fn expected(request: &Request) -> Reply {
    let mut making = Making {
        table: &request.table,
        reply: Reply {
            number: 0,
            place: 0,
            by: 0,
            values: request.values,
            kept: true,
            given: request.given.clone(),
            lent: request.lent.clone(),
        },
    };
    let made = match request.call {
        Call::Lossy => calls::lossy(&request.table, &mut making.reply.lent).map(|_| ()),
        call if call <= Call::Exchange => make_table(request, &mut making),
        call if call <= Call::UnfoldedFire => make_unfolding(request, &mut making),
        call if call >= Call::ElementCount => make_export(request, &mut making),
        _ => make_run(request, &mut making),
    };
    if let Err(refusal) = made {
        making.reply.number = u64::from(refusal.number);
        making.reply.place = refusal.place as u64;
        making.reply.by = refusal.by.map_or(0, u64::from);
    }
    making.reply
}
