//! One method for each call of the header, with that call's arguments.

use crate::request::{Call, Reply, Request};
use crate::{Answer, Driver, Failure, Refusal};

/// The numbers of conditions and events, of a table or of its unfolding.
#[derive(Clone, Copy, Debug, PartialEq, Eq)]
pub struct Counts {
    pub conditions: u64,
    pub events: u64,
}

/// The event behind an unfolded event, and how many markers were written.
#[derive(Clone, Copy, Debug, PartialEq, Eq)]
pub struct EventOrigin {
    pub event: u16,
    pub count: usize,
}

/// The marker and the user that a copy of a persistent condition is for.
#[derive(Clone, Copy, Debug, PartialEq, Eq)]
pub struct Copy {
    pub marker: u32,
    pub user: u16,
}

/// The condition behind an unfolded condition; an ordinary one has no copy.
#[derive(Clone, Copy, Debug, PartialEq, Eq)]
pub struct ConditionOrigin {
    pub condition: u16,
    pub copy: Option<Copy>,
}

/// A number that calls are lent, and its little-endian bytes.
trait Element: Sized + std::marker::Copy {
    fn to_bytes(elements: &[Self]) -> Vec<u8>;
    fn from_bytes(bytes: &[u8], elements: &mut [Self]);
}

macro_rules! element {
    ($type:ty) => {
        impl Element for $type {
            fn to_bytes(elements: &[$type]) -> Vec<u8> {
                elements.iter().flat_map(|n| n.to_le_bytes()).collect()
            }

            fn from_bytes(bytes: &[u8], elements: &mut [$type]) {
                const SIZE: usize = std::mem::size_of::<$type>();
                for (element, chunk) in elements.iter_mut().zip(bytes.chunks_exact(SIZE)) {
                    let mut number = [0; SIZE];
                    number.copy_from_slice(chunk);
                    *element = <$type>::from_le_bytes(number);
                }
            }
        }
    };
}

element!(u8);
element!(u16);
element!(u32);

/// Asks for a list of unknown length: lends an output of `first` elements, and a longer one where 16 tells how long.
pub fn whole<T: Default + Clone>(
    first: usize,
    mut call: impl FnMut(&mut [T]) -> Answer<usize>,
) -> Answer<Vec<T>> {
    let mut output = vec![T::default(); first];
    let mut answer = call(&mut output);
    if let Err(Failure::Refused(Refusal {
        number: 16, place, ..
    })) = answer
    {
        output.resize(place as usize, T::default());
        answer = call(&mut output);
    }
    output.truncate(answer?);
    Ok(output)
}

impl Driver {
    /// Makes a call; a refusal becomes a failure.
    fn made(&mut self, request: &Request) -> Answer<Reply> {
        let reply = self.ask(request)?;
        match reply.number {
            _ if !reply.kept => Err(Failure::Lost(
                "memory that must stay was written".to_string(),
            )),
            0 => Ok(reply),
            number => Err(Failure::Refused(Refusal {
                number,
                place: reply.place,
                by: matches!(number, 11 | 12).then_some(reply.by),
            })),
        }
    }

    /// Makes a call that is lent an output, which is written where it worked.
    fn filled<T: Element>(&mut self, mut request: Request, output: &mut [T]) -> Answer<Reply> {
        request.lent = T::to_bytes(output);
        let reply = self.made(&request)?;
        T::from_bytes(&reply.lent, output);
        Ok(reply)
    }

    /// Makes a call that writes over what it was given.
    fn changed<T: Element>(&mut self, mut request: Request, given: &mut [T]) -> Answer<()> {
        request.given = T::to_bytes(given);
        let reply = self.made(&request)?;
        T::from_bytes(&reply.given, given);
        Ok(())
    }

    /// Makes a call that gives two counts.
    fn counted(&mut self, call: Call, table: &[u8]) -> Answer<Counts> {
        let [conditions, events, ..] = self.made(&Request::new(call, table))?.values;
        Ok(Counts { conditions, events })
    }

    /// Makes a call that lists something of an event.
    fn listed(
        &mut self,
        call: Call,
        table: &[u8],
        number: u16,
        output: &mut [u16],
    ) -> Answer<usize> {
        let mut request = Request::new(call, table);
        request.numbers[0] = u64::from(number);
        Ok(self.filled(request, output)?.values[0] as usize)
    }

    /// Makes a call on a run.
    fn ran<T: Element>(
        &mut self,
        call: Call,
        table: &[u8],
        run: &[u16],
        output: &mut [T],
    ) -> Answer<()> {
        let mut request = Request::new(call, table);
        request.given = u16::to_bytes(run);
        self.filled(request, output).map(|_| ())
    }

    /// Makes a call on a record.
    fn recorded<T: Element, U: Element>(
        &mut self,
        call: Call,
        given: &[T],
        output: &mut [U],
    ) -> Answer<usize> {
        let mut request = Request::new(call, &[]);
        request.given = T::to_bytes(given);
        Ok(self.filled(request, output)?.values[0] as usize)
    }

    /// Judges a table.
    pub fn judge(&mut self, table: &[u8]) -> Answer<()> {
        self.made(&Request::new(Call::Judge, table)).map(|_| ())
    }

    /// The numbers of conditions and events of a table.
    pub fn counts(&mut self, table: &[u8]) -> Answer<Counts> {
        self.counted(Call::Counts, table)
    }

    /// Writes the preconditions of an event and gives their count.
    pub fn pre(&mut self, table: &[u8], event: u16, output: &mut [u16]) -> Answer<usize> {
        self.listed(Call::Pre, table, event, output)
    }

    /// Writes the postconditions of an event and gives their count.
    pub fn post(&mut self, table: &[u8], event: u16, output: &mut [u16]) -> Answer<usize> {
        self.listed(Call::Post, table, event, output)
    }

    /// Writes the marking at the start.
    pub fn start(&mut self, table: &[u8], output: &mut [u8]) -> Answer<()> {
        self.filled(Request::new(Call::Start, table), output)
            .map(|_| ())
    }

    /// Tests whether an event can fire.
    pub fn can_fire(&mut self, table: &[u8], marking: &[u8], event: u16) -> Answer<()> {
        let mut request = Request::new(Call::CanFire, table);
        request.given = marking.to_vec();
        request.numbers[0] = u64::from(event);
        self.made(&request).map(|_| ())
    }

    /// Fires an event: the new marking is written over the lent one.
    pub fn fire(&mut self, table: &[u8], marking: &mut [u8], event: u16) -> Answer<()> {
        let mut request = Request::new(Call::Fire, table);
        request.numbers[0] = u64::from(event);
        self.changed(request, marking)
    }

    /// Plays a run and writes its end.
    pub fn replay(&mut self, table: &[u8], run: &[u16], end: &mut [u8]) -> Answer<()> {
        self.ran(Call::Replay, table, run, end)
    }

    /// Exchanges steps k and k + 1 of the lent run.
    pub fn exchange(&mut self, table: &[u8], run: &mut [u16], k: u64) -> Answer<()> {
        let mut request = Request::new(Call::Exchange, table);
        request.numbers[0] = k;
        self.changed(request, run)
    }

    /// The numbers of unfolded conditions and unfolded events.
    pub fn unfolded_counts(&mut self, table: &[u8]) -> Answer<Counts> {
        self.counted(Call::UnfoldedCounts, table)
    }

    /// Writes the markers behind an unfolded event; gives the event and how many markers there are.
    pub fn event_origin(
        &mut self,
        table: &[u8],
        unfolded: u16,
        markers: &mut [u32],
    ) -> Answer<EventOrigin> {
        let mut request = Request::new(Call::EventOrigin, table);
        request.numbers[0] = u64::from(unfolded);
        let [event, count, ..] = self.filled(request, markers)?.values;
        Ok(EventOrigin {
            event: event as u16,
            count: count as usize,
        })
    }

    /// The unfolded event for an event and markers.
    pub fn event_number(&mut self, table: &[u8], event: u16, markers: &[u32]) -> Answer<u16> {
        let mut request = Request::new(Call::EventNumber, table);
        request.numbers[0] = u64::from(event);
        request.given = u32::to_bytes(markers);
        Ok(self.made(&request)?.values[0] as u16)
    }

    /// The condition behind an unfolded condition.
    pub fn condition_origin(&mut self, table: &[u8], unfolded: u16) -> Answer<ConditionOrigin> {
        let mut request = Request::new(Call::ConditionOrigin, table);
        request.numbers[0] = u64::from(unfolded);
        let [condition, copy, marker, user] = self.made(&request)?.values;
        let (marker, user) = (marker as u32, user as u16);
        Ok(ConditionOrigin {
            condition: condition as u16,
            copy: (copy == 1).then_some(Copy { marker, user }),
        })
    }

    /// The unfolded condition for an ordinary condition, or for one copy of a persistent one.
    pub fn condition_number(&mut self, table: &[u8], asked: ConditionOrigin) -> Answer<u16> {
        let mut request = Request::new(Call::ConditionNumber, table);
        request.numbers[0] = u64::from(asked.condition);
        if let Some(Copy { marker, user }) = asked.copy {
            request.numbers[1..].copy_from_slice(&[1, u64::from(marker), u64::from(user)]);
        }
        Ok(self.made(&request)?.values[0] as u16)
    }

    /// Writes the preconditions of an unfolded event and gives their count.
    pub fn unfolded_pre(
        &mut self,
        table: &[u8],
        unfolded: u16,
        output: &mut [u16],
    ) -> Answer<usize> {
        self.listed(Call::UnfoldedPre, table, unfolded, output)
    }

    /// Writes the postconditions of an unfolded event and gives their count.
    pub fn unfolded_post(
        &mut self,
        table: &[u8],
        unfolded: u16,
        output: &mut [u16],
    ) -> Answer<usize> {
        self.listed(Call::UnfoldedPost, table, unfolded, output)
    }

    /// Writes the unfolded marking at the start.
    pub fn unfolded_start(&mut self, table: &[u8], output: &mut [u8]) -> Answer<()> {
        self.filled(Request::new(Call::UnfoldedStart, table), output)
            .map(|_| ())
    }

    /// Fires an unfolded event: the new unfolded marking is written over the lent one.
    pub fn unfolded_fire(&mut self, table: &[u8], marking: &mut [u8], unfolded: u16) -> Answer<()> {
        let mut request = Request::new(Call::UnfoldedFire, table);
        request.numbers[0] = u64::from(unfolded);
        self.changed(request, marking)
    }

    /// Lifts a run of the table.
    pub fn lift(&mut self, table: &[u8], run: &[u16], output: &mut [u16]) -> Answer<()> {
        self.ran(Call::Lift, table, run, output)
    }

    /// Projects an unfolded run.
    pub fn project(&mut self, table: &[u8], lifted: &[u16], output: &mut [u16]) -> Answer<()> {
        self.ran(Call::Project, table, lifted, output)
    }

    /// Lifts a run of the table and writes where the lifted run ends.
    pub fn lift_end(&mut self, table: &[u8], run: &[u16], output: &mut [u8]) -> Answer<()> {
        self.ran(Call::LiftEnd, table, run, output)
    }

    /// Plays an unfolded run and writes its end.
    pub fn unfolded_replay(&mut self, table: &[u8], lifted: &[u16], end: &mut [u8]) -> Answer<()> {
        self.ran(Call::UnfoldedReplay, table, lifted, end)
    }

    /// Reads a Run record and gives the number of its steps.
    pub fn read_run(&mut self, record: &[u8], output: &mut [u16]) -> Answer<usize> {
        self.recorded(Call::ReadRun, record, output)
    }

    /// Reads a Lifted record and gives the number of its steps.
    pub fn read_lifted(&mut self, record: &[u8], output: &mut [u16]) -> Answer<usize> {
        self.recorded(Call::ReadLifted, record, output)
    }

    /// Writes a Run record and gives the number of its bytes.
    pub fn write_run(&mut self, run: &[u16], output: &mut [u8]) -> Answer<usize> {
        self.recorded(Call::WriteRun, run, output)
    }

    /// Writes a Lifted record and gives the number of its bytes.
    pub fn write_lifted(&mut self, lifted: &[u16], output: &mut [u8]) -> Answer<usize> {
        self.recorded(Call::WriteLifted, lifted, output)
    }

    /// The number of elements of the export.
    pub fn element_count(&mut self, table: &[u8]) -> Answer<u64> {
        Ok(self.made(&Request::new(Call::ElementCount, table))?.values[0])
    }

    /// Writes the text of an element of the export and gives the number of its bytes.
    pub fn element(&mut self, table: &[u8], element: u64, output: &mut [u8]) -> Answer<usize> {
        let mut request = Request::new(Call::Element, table);
        request.numbers[0] = element;
        Ok(self.filled(request, output)?.values[0] as usize)
    }

    /// Writes which events are lossy, one byte for each event.
    pub fn lossy(&mut self, table: &[u8], output: &mut [u8]) -> Answer<()> {
        self.filled(Request::new(Call::Lossy, table), output)
            .map(|_| ())
    }
}
