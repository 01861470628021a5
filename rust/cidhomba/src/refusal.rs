//! A refusal: its reason, with the number that the C interface has for it, and for text the byte that it speaks of.

use std::error::Error;
use std::fmt;

use crate::word;

/// Makes `Reason` of a table, so that name, number and words of a reason stand in one place.
macro_rules! reasons {
    ($($name:ident = $number:literal => $words:literal;)*) => {
        /// Why a call is refused: the numbers of `enum cidhomba_refusal` in C. Each stands for one condition, the
        /// same in every function.
        ///
        /// ```
        /// use cidhomba::Reason;
        ///
        /// let reason = Reason::from_number(7).expect("7 is a reason");
        /// assert_eq!(reason, Reason::SetOrder);
        /// assert_eq!(reason.number(), 7);
        /// assert_eq!(reason.condition(), "the rules of the set do not ascend strictly by symbol, child places and target");
        /// assert_eq!(Reason::from_number(99), None);
        /// ```
        #[non_exhaustive]
        #[repr(u8)]
        #[derive(Clone, Copy, Debug, PartialEq, Eq, Hash)]
        pub enum Reason {
            $(#[doc = $words] $name = $number,)*
        }

        impl Reason {
            /// Every reason, in the order of the numbers.
            pub const ALL: &'static [Reason] = &[$(Reason::$name,)*];

            /// The number of the reason.
            pub const fn number(self) -> u8 {
                self as u8
            }

            /// The reason with a number, if there is one.
            pub const fn from_number(number: u8) -> Option<Reason> {
                match number {
                    $($number => Some(Reason::$name),)*
                    _ => None,
                }
            }

            /// The condition that the reason stands for, in words.
            pub const fn condition(self) -> &'static str {
                match self {
                    $(Reason::$name => $words,)*
                }
            }
        }
    };
}

reasons! {
    SetTooShort = 1 => "the set has fewer than 16 bytes";
    SetCounts = 2 => "the set's symbols, states, tags or rules are too few or too many";
    SetLengths = 3 => "an offset, the total or the length of the set differs from the formulas of every form, or its \
        states have one byte for over 8 tags";
    SetChildren = 4 => "a symbol of the set has more than 4 children";
    SetState = 5 => "a state of the set has a final byte above 1 or a tag that the set does not have";
    SetRule = 6 => "a rule of the set names an unknown symbol or state, or an unused place is not 65535";
    SetOrder = 7 => "the rules of the set do not ascend strictly by symbol, child places and target";
    SetTags = 8 => "the set has over 8 tags, and its states cannot be narrowed";
    SetForgets = 9 => "a rule of the set forgets a tag that the set does not have";
    RuleForgets = 10 => "a rule of the set forgets a tag, and its rules cannot be narrowed";
    TableLength = 11 => "the table has no rows, over 1,024, or a row cut short";
    RowSymbol = 12 => "a row has an unknown symbol";
    RowChildren = 13 => "a child of a row is not lower, or an unused place is not 65535";
    RowScalar = 14 => "kind and payload of a row are not those of a scalar that it may have";
    RowsEqual = 15 => "two rows are equal";
    RowUnused = 16 => "a row, not the last, is used by no later row";
    TableHeight = 17 => "the tree is higher than 256";
    SetForm = 18 => "the set is not in the form that the move starts from, by its states or by its rules";
    RunLength = 21 => "the run has no steps, over 4,096, or a step cut short";
    StepUnknown = 22 => "a step names an unknown rule or row";
    StepMisfit = 23 => "the symbols of a step's rule and row differ, or a step place is not as it should be";
    RunTag = 24 => "in some step a tag goes to two rows";
    RunEnd = 25 => "the last step is not on the last row, or its state is not final";
    StepUnused = 26 => "a step, not the last, is used by no later step";
    NoRoom = 31 => "there are more distinct annotations than the room";
    RunSpace = 32 => "the run space holds fewer steps than the room";
    TagShared = 41 => "two states share a tag";
    RowSpace = 42 => "there is space for fewer rows than the set has states";
    SetsDiffer = 51 => "the symbols of the two sets or their numbers of children differ";
    ResultLimits = 52 => "the result would have over 256 states, 16 tags or 1,024 rules";
    ResultSpace = 53 => "the space is shorter than the result";
    ListLine = 61 => "a name list has over 64 lines, or a line that, but for spaces and bytes 13 at its end, is neither \
        empty nor a name";
    NamesAlike = 62 => "two symbols are shown alike";
    TextFault = 63 => "the text has no legal continuation";
    TextLevel = 64 => "a term, or in JSON a value or the text of a key, stands at level 257";
    NameUnknown = 65 => "the text has an unknown name";
    TermChildren = 66 => "a term has a wrong number of children";
    TextRows = 67 => "there is a row past the 1,024th or past the row space";
    TextSpace = 68 => "the text is longer than the space";
    InputLength = 69 => "the input has over 32,768 bytes";
    JsonFault = 71 => "the text is not JSON or not UTF-8, or has half a surrogate pair";
    KeyRepeated = 72 => "a key is repeated in one object";
    NumberForm = 73 => "a number is no count, and has an exponent or over 15 digits";
    KeyList = 74 => "the key list has over 56 lines, a line that is empty or has over 64 bytes, or two equal lines";
}

impl Reason {
    /// Whether the reason is told with a place in the text.
    const fn has_place(self) -> bool {
        use Reason::*;
        matches!(
            self,
            TextFault
                | TextLevel
                | NameUnknown
                | TermChildren
                | TextRows
                | JsonFault
                | KeyRepeated
                | NumberForm
        )
    }
}

/// Why a call was refused, and where. It wrote to no result space.
///
/// ```
/// use cidhomba::{read_term, Names, Reason, Refusal};
///
/// let set = include_bytes!("../../../examples/e.set");
/// let refusal = read_term(set, Names::default(), b"s0(s1,s9)", &mut [0; 30]).unwrap_err();
/// assert_eq!(refusal, Refusal { reason: Reason::NameUnknown, place: Some(6) });
/// assert_eq!(refusal.to_string(), "refused 65 at 6: the text has an unknown name");
/// ```
#[derive(Clone, Copy, Debug, PartialEq, Eq, Hash)]
pub struct Refusal {
    /// The condition that refused.
    pub reason: Reason,
    /// For the reasons 63 to 67 and 71 to 73, which are those of text: a place in it, 0 being its first byte.
    pub place: Option<u64>,
}

impl Refusal {
    /// The value in a word of the library, or its refusal.
    pub(crate) fn or_value(word: u64) -> Result<usize, Refusal> {
        let (number, place) = match word::parts(word) {
            Ok(value) => return Ok(value as usize),
            Err(refused) => refused,
        };
        let Some(reason) = Reason::from_number(number) else {
            panic!("the wrapper has no refusal {number}: library and wrapper are of different versions");
        };
        Err(Refusal { reason, place: reason.has_place().then_some(place) })
    }

    /// The number of the reason.
    pub const fn number(&self) -> u8 {
        self.reason.number()
    }

    /// The condition that the reason stands for, in words.
    pub const fn condition(&self) -> &'static str {
        self.reason.condition()
    }
}

impl fmt::Display for Refusal {
    fn fmt(&self, out: &mut fmt::Formatter) -> fmt::Result {
        write!(out, "refused {}", self.number())?;
        if let Some(place) = self.place {
            write!(out, " at {place}")?;
        }
        write!(out, ": {}", self.condition())
    }
}

impl Error for Refusal {}

#[cfg(test)]
mod tests {
    use super::*;

    /// The word of a refusal.
    fn word(number: u8, place: u64) -> u64 {
        (1 << 63) + 256 * place + u64::from(number)
    }

    #[test]
    fn each_reason_has_a_number_and_a_condition_of_its_own() {
        let found: Vec<Reason> = (0..=255).filter_map(Reason::from_number).collect();
        assert_eq!(found, Reason::ALL);
        for reason in Reason::ALL {
            assert_eq!(Reason::from_number(reason.number()), Some(*reason));
            let alike = Reason::ALL.iter().filter(|other| other.condition() == reason.condition());
            assert_eq!(alike.count(), 1, "{reason:?}");
        }
    }

    #[test]
    fn places_stand_with_the_reasons_of_text_only() {
        assert_eq!(Refusal::or_value(12), Ok(12));
        for &reason in Reason::ALL {
            let number = reason.number();
            let place = ((63..=67).contains(&number) || (71..=73).contains(&number)).then_some(768);
            assert_eq!(Refusal::or_value(word(number, 768)), Err(Refusal { reason, place }));
        }
    }

    #[test]
    fn refusals_are_shown_with_their_number_place_and_condition() {
        let shown = |number, place| Refusal::or_value(word(number, place)).unwrap_err().to_string();
        assert_eq!(
            shown(7, 0),
            "refused 7: the rules of the set do not ascend strictly by symbol, child places and target"
        );
        assert_eq!(shown(72, 10), "refused 72 at 10: a key is repeated in one object");
        assert_eq!(shown(63, 0), "refused 63 at 0: the text has no legal continuation");
    }

    #[test]
    #[should_panic(expected = "library and wrapper are of different versions")]
    fn a_number_that_no_reason_has() {
        let _ = Refusal::or_value(word(99, 0));
    }
}
