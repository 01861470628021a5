//! A refusal: one of the numbers of document 01, "Turned away, by place", or of those that document 02 adds, and for text
//! the byte it speaks of.

/// A refusal number, with a place for the numbers 63 to 67 and 71 to 73.
#[derive(Clone, Copy, Debug, PartialEq, Eq)]
pub struct Refusal {
    pub number: u8,
    pub place: Option<usize>,
}

impl Refusal {
    /// A refusal whose number has no place.
    pub fn plain(number: u8) -> Refusal {
        Refusal { number, place: None }
    }

    /// A refusal of text, at a byte of it (0 is the first).
    pub fn at(number: u8, place: usize) -> Refusal {
        Refusal { number, place: Some(place) }
    }
}

/// Refuses with a number where its condition holds, so that a check reads as the paper's table does.
pub fn refuse_if(condition: bool, number: u8) -> Result<(), Refusal> {
    if condition {
        Err(Refusal::plain(number))
    } else {
        Ok(())
    }
}
