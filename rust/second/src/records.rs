//! Records: a header of four bytes and a payload, and the two kinds that hold a run (01, Table records).

use crate::lent::write_answer;
use crate::refusal::{require, Answer};

pub const CONDITIONS: u16 = 1;
pub const EVENT: u16 = 2;
pub const MARKING: u16 = 3;
pub const RUN: u16 = 4;
pub const LIFTED: u16 = 5;
pub const RULE: u16 = 6;

/// The most steps that a run may have.
pub const MOST_STEPS: usize = 4096;

/// The length of a header in bytes.
pub const HEADER: usize = 4;

/// A record that lies inside the input.
pub struct Record<'a> {
    pub offset: usize,
    pub kind: u16,
    pub payload: &'a [u8],
}

impl Record<'_> {
    /// The offset of the first byte of the payload.
    pub fn payload_offset(&self) -> usize {
        self.offset + HEADER
    }

    /// The offset of what follows the record.
    pub fn end(&self) -> usize {
        self.payload_offset() + self.payload.len()
    }
}

/// A length is that of whole two-byte numbers.
pub fn is_even(length: usize) -> bool {
    length & 1 == 0
}

/// The two-byte numbers that the bytes spell, a last odd byte left out.
pub fn words(bytes: &[u8]) -> Vec<u16> {
    bytes
        .chunks_exact(2)
        .map(|pair| u16::from_le_bytes([pair[0], pair[1]]))
        .collect()
}

/// The record at an offset, or 1 if its header or its payload runs past the input.
pub fn record_at(input: &[u8], offset: usize) -> Answer<Record<'_>> {
    let rest = input.get(offset..).unwrap_or(&[]);
    require(rest.len() >= HEADER, 1, offset)?;
    let (header, after) = rest.split_at(HEADER);
    let header = words(header);
    let (length, kind) = (usize::from(header[0]), header[1]);
    require(after.len() >= length, 1, offset)?;
    Ok(Record {
        offset,
        kind,
        payload: &after[..length],
    })
}

/// The bytes of a record; the payload must be at most 65,535 bytes long.
pub fn record_bytes(kind: u16, payload: &[u8]) -> Vec<u8> {
    let length = u16::try_from(payload.len()).unwrap_or(u16::MAX);
    let mut bytes = Vec::with_capacity(HEADER + payload.len());
    bytes.extend_from_slice(&length.to_le_bytes());
    bytes.extend_from_slice(&kind.to_le_bytes());
    bytes.extend_from_slice(payload);
    bytes
}

/// The bytes that spell two-byte numbers.
pub fn word_bytes(numbers: &[u16]) -> Vec<u8> {
    numbers.iter().flat_map(|n| n.to_le_bytes()).collect()
}

/// The steps of the one record of a run that the input must be.
pub fn steps_of_record(input: &[u8], kind: u16) -> Answer<Vec<u16>> {
    let record = record_at(input, 0)?;
    require(record.kind == kind, 2, 0)?;
    let length = record.payload.len();
    require(is_even(length) && length / 2 <= MOST_STEPS, 3, 0)?;
    require(record.end() == input.len(), 9, record.end())?;
    Ok(words(record.payload))
}

/// Writes the record of a run to the lent output; the answer is its length in bytes.
fn write_steps(kind: u16, steps: &[u16], output: &mut [u8]) -> Answer<usize> {
    require(steps.len() <= MOST_STEPS, 3, 0)?;
    write_answer(&record_bytes(kind, &word_bytes(steps)), output)
}

/// Reads a Run record to the lent output; the answer is the number of steps.
pub fn read_run(input: &[u8], output: &mut [u16]) -> Answer<usize> {
    write_answer(&steps_of_record(input, RUN)?, output)
}

/// Reads a Lifted record to the lent output; the answer is the number of steps.
pub fn read_lifted(input: &[u8], output: &mut [u16]) -> Answer<usize> {
    write_answer(&steps_of_record(input, LIFTED)?, output)
}

/// Writes a Run record to the lent output; the answer is its length in bytes.
pub fn write_run(run: &[u16], output: &mut [u8]) -> Answer<usize> {
    write_steps(RUN, run, output)
}

/// Writes a Lifted record to the lent output; the answer is its length in bytes.
pub fn write_lifted(lifted: &[u16], output: &mut [u8]) -> Answer<usize> {
    write_steps(LIFTED, lifted, output)
}
