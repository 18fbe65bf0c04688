//! Requests and replies as the driver's bytes: `driver/driver.c` says how they are laid out.

use std::io::{self, Read, Write};

/// The calls of the header, in its order, which numbers them.
#[derive(Clone, Copy, Debug, PartialEq, Eq, PartialOrd, Ord, Hash)]
pub enum Call {
    Judge,
    Counts,
    Pre,
    Post,
    Start,
    CanFire,
    Fire,
    Replay,
    Exchange,
    UnfoldedCounts,
    EventOrigin,
    EventNumber,
    ConditionOrigin,
    ConditionNumber,
    UnfoldedPre,
    UnfoldedPost,
    UnfoldedStart,
    UnfoldedFire,
    Lift,
    Project,
    LiftEnd,
    UnfoldedReplay,
    ReadRun,
    ReadLifted,
    WriteRun,
    WriteLifted,
    ElementCount,
    Element,
    Lossy,
}

impl Call {
    /// Every call with its name in the header, without the prefix.
    pub const ALL: [(Call, &'static str); 29] = [
        (Call::Judge, "judge"),
        (Call::Counts, "counts"),
        (Call::Pre, "pre"),
        (Call::Post, "post"),
        (Call::Start, "start"),
        (Call::CanFire, "can_fire"),
        (Call::Fire, "fire"),
        (Call::Replay, "replay"),
        (Call::Exchange, "exchange"),
        (Call::UnfoldedCounts, "unfolded_counts"),
        (Call::EventOrigin, "event_origin"),
        (Call::EventNumber, "event_number"),
        (Call::ConditionOrigin, "condition_origin"),
        (Call::ConditionNumber, "condition_number"),
        (Call::UnfoldedPre, "unfolded_pre"),
        (Call::UnfoldedPost, "unfolded_post"),
        (Call::UnfoldedStart, "unfolded_start"),
        (Call::UnfoldedFire, "unfolded_fire"),
        (Call::Lift, "lift"),
        (Call::Project, "project"),
        (Call::LiftEnd, "lift_end"),
        (Call::UnfoldedReplay, "unfolded_replay"),
        (Call::ReadRun, "read_run"),
        (Call::ReadLifted, "read_lifted"),
        (Call::WriteRun, "write_run"),
        (Call::WriteLifted, "write_lifted"),
        (Call::ElementCount, "element_count"),
        (Call::Element, "element"),
        (Call::Lossy, "lossy"),
    ];

    /// The call of a name.
    pub fn by_name(name: &str) -> Option<Call> {
        let found = Call::ALL.into_iter().find(|call| call.1 == name);
        found.map(|call| call.0)
    }

    /// The call's name in the header, without the prefix.
    pub fn name(self) -> &'static str {
        Call::ALL[self as usize].1
    }

    /// The call takes a record or the steps of one, and no table.
    pub fn is_on_record(self) -> bool {
        (Call::ReadRun..=Call::WriteLifted).contains(&self)
    }
}

/// One call with everything that it is given, as bytes and words.
#[derive(Clone, Debug, PartialEq, Eq)]
pub struct Request {
    pub call: Call,
    /// The table; empty where the call takes none.
    pub table: Vec<u8>,
    /// The marking, run, lifted run, markers or record of the call, little-endian.
    pub given: Vec<u8>,
    /// The lent output as it is before the call, little-endian.
    pub lent: Vec<u8>,
    /// The numbers that are asked, in the order of the call's arguments.
    pub numbers: [u64; 4],
    /// What the single values hold before the call, in the order of the call's arguments.
    pub values: [u64; 4],
}

/// What came of a call.
#[derive(Clone, Debug, PartialEq, Eq)]
pub struct Reply {
    pub number: u64,
    pub place: u64,
    /// The condition that stopped a step where the number is 11 or 12, else 0.
    pub by: u64,
    /// What the single values hold after the call.
    pub values: [u64; 4],
    /// The table is as it was, and so is the memory around what was given and lent.
    pub kept: bool,
    /// What was given, as the call left it.
    pub given: Vec<u8>,
    /// What was lent, as the call left it.
    pub lent: Vec<u8>,
}

/// The most bytes of a table and of either other piece that the driver takes.
const MOST_BYTES: usize = 1 << 22;

/// Stands for the length of the table where it is that of the request before.
const SAME: u64 = u64::MAX;

impl Request {
    /// A call on a table with nothing else given.
    pub fn new(call: Call, table: &[u8]) -> Request {
        Request {
            call,
            table: table.to_vec(),
            given: Vec::new(),
            lent: Vec::new(),
            numbers: [0; 4],
            values: [0; 4],
        }
    }

    /// The driver has room for the request.
    pub(crate) fn fits(&self) -> bool {
        let pieces = [&self.table, &self.given, &self.lent];
        pieces.iter().all(|piece| piece.len() <= MOST_BYTES)
    }

    /// Writes the request; the table is left out where it is the one that the driver holds.
    pub(crate) fn send(&self, to: &mut impl Write, held: bool) -> io::Result<()> {
        let table = if held { SAME } else { self.table.len() as u64 };
        let mut words = vec![self.call as u64, table];
        words.extend([self.given.len() as u64, self.lent.len() as u64]);
        words.extend(self.numbers);
        words.extend(self.values);
        for word in words {
            to.write_all(&word.to_le_bytes())?;
        }
        if !held {
            to.write_all(&self.table)?;
        }
        to.write_all(&self.given)?;
        to.write_all(&self.lent)
    }

    /// Reads the reply to this request.
    pub(crate) fn receive(&self, from: &mut impl Read) -> io::Result<Reply> {
        let mut words = [0; 8];
        for word in &mut words {
            let mut bytes = [0; 8];
            from.read_exact(&mut bytes)?;
            *word = u64::from_le_bytes(bytes);
        }
        let mut reply = Reply {
            number: words[0],
            place: words[1],
            by: words[2],
            values: [words[3], words[4], words[5], words[6]],
            kept: words[7] == 1,
            given: vec![0; self.given.len()],
            lent: vec![0; self.lent.len()],
        };
        from.read_exact(&mut reply.given)?;
        from.read_exact(&mut reply.lent)?;
        Ok(reply)
    }
}
