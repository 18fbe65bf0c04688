//! What callers lend: markings that are read, and outputs that are written (01, Refusal numbers).

use crate::refusal::{refuse, require, Answer};

/// A lent marking of so many conditions, or 18.
pub fn read_marking(lent: &[u8], conditions: usize) -> Answer<Vec<bool>> {
    require(lent.len() == conditions, 18, conditions)?;
    match lent.iter().position(|byte| *byte > 1) {
        Some(place) => refuse(18, place),
        None => Ok(lent.iter().map(|byte| *byte == 1).collect()),
    }
}

/// A marking as it is lent, one byte for each condition.
pub fn marking_bytes(marking: &[bool]) -> Vec<u8> {
    marking.iter().map(|holds| u8::from(*holds)).collect()
}

/// The marking of so many conditions in which the listed ones hold.
pub fn marking_of(list: &[u16], conditions: usize) -> Vec<bool> {
    let mut marking = vec![false; conditions];
    for condition in list {
        marking[usize::from(*condition)] = true;
    }
    marking
}

/// The conditions that hold, ascending.
pub fn list_of(marking: &[bool]) -> Vec<usize> {
    (0..marking.len()).filter(|b| marking[*b]).collect()
}

/// Writes an answer from the first element of the lent output on, or gives 16; the answer is the number of elements.
pub fn write_answer<T: Copy>(answer: &[T], output: &mut [T]) -> Answer<usize> {
    require(answer.len() <= output.len(), 16, answer.len())?;
    output[..answer.len()].copy_from_slice(answer);
    Ok(answer.len())
}
