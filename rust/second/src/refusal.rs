//! Refusals: the number and the place that a call gives when it does not do its work (01, Refusal numbers), and the condition that
//! stopped a step (02, No. 2).

/// A refusal, with its number in the requirements' table, its place, and for 11 and 12 alone the condition that stopped the step.
#[derive(Clone, Copy, Debug, PartialEq, Eq)]
pub struct Refusal {
    pub number: u8,
    pub place: usize,
    pub by: Option<u16>,
}

impl Refusal {
    /// The refusal with this number and place that no condition is told with.
    pub fn at(number: u8, place: usize) -> Refusal {
        Refusal {
            number,
            place,
            by: None,
        }
    }
}

/// What a call answers: its value or its refusal.
pub type Answer<T> = Result<T, Refusal>;

/// The refusal with this number and place, as an answer of any type.
pub fn refuse<T>(number: u8, place: usize) -> Answer<T> {
    Err(Refusal::at(number, place))
}

/// Refuses with this number and place if the test fails.
pub fn require(test: bool, number: u8, place: usize) -> Answer<()> {
    if test {
        Ok(())
    } else {
        refuse(number, place)
    }
}
