//! Answers of the C interface: one word that is a value, or a refusal with its number and place.

use std::fmt;

use cidhomba::word::{parts, LARGEST_PLACE};
use reference::Refusal;

/// What a call of the library answers.
#[derive(Clone, Copy, Debug, PartialEq, Eq)]
pub enum Answer {
    Value(u64),
    /// A refusal; its place is 0 where the number has none.
    Refused {
        number: u8,
        place: u64,
    },
}

impl Answer {
    /// What the library's word says.
    pub fn of_library(word: u64) -> Answer {
        match parts(word) {
            Ok(value) => Answer::Value(value),
            Err((number, place)) => Answer::Refused { number, place },
        }
    }

    /// The number of a refusal.
    pub fn number(self) -> Option<u8> {
        match self {
            Answer::Value(_) => None,
            Answer::Refused { number, .. } => Some(number),
        }
    }

    /// The word's meaning that the reference's answer asks for.
    pub fn of_reference(answer: Result<usize, Refusal>) -> Answer {
        match answer {
            Ok(value) => Answer::Value(value as u64),
            Err(refusal) => Answer::Refused {
                number: refusal.number,
                place: (refusal.place.unwrap_or(0) as u64).min(LARGEST_PLACE),
            },
        }
    }
}

impl fmt::Display for Answer {
    fn fmt(&self, out: &mut fmt::Formatter) -> fmt::Result {
        match self {
            Answer::Value(value) => write!(out, "value {value}"),
            Answer::Refused { number, place } => write!(out, "refused {number} at {place}"),
        }
    }
}

#[cfg(test)]
mod tests {
    use super::*;

    #[test]
    fn a_place_of_the_reference_is_that_of_a_word() {
        let word = (1 << 63) + 768 * 256 + 64;
        assert_eq!(Answer::of_reference(Err(Refusal::at(64, 768))), Answer::of_library(word));
        let far = Refusal::at(63, usize::MAX);
        assert_eq!(Answer::of_reference(Err(far)), Answer::of_library(u64::MAX - 255 + 63));
    }
}
