//! The three forms of a stored set, which differ in how wide its states and its rules are (document 02, Wishes 2 and 9),
//! and the four moves between neighbouring ones (Wishes 2 and 10), refusals 18, 8, 10 and 53.

use crate::automaton::Automaton;
use crate::limits::{
    FORGETS_BYTES, HEADER_BYTES, MAX_NARROW_TAGS, MAX_TAGS, NARROW_TAG_BYTES, RULE_BYTES, WIDE_TAG_BYTES,
};
use crate::refusal::{refuse_if, Refusal};
use crate::stored::check_with_form;

/// How a set stores the tags of a state and those that a rule forgets. Each form holds what the forms before it hold.
#[derive(Clone, Copy, Debug, PartialEq, Eq, PartialOrd, Ord)]
pub enum Form {
    /// A state's tags in one byte, as document 01 has it.
    Narrow,
    /// A state's tags in two bytes, the lower one first.
    Wide,
    /// The wide form with rules of 14 bytes, the last two the tags to forget. A set without rules is not told from a wide
    /// one, and counts as that.
    Isolating,
}

impl Form {
    pub const ALL: [Form; 3] = [Form::Narrow, Form::Wide, Form::Isolating];

    /// The shortest form that has a bit for each of so many tags, where nothing is forgotten.
    pub fn for_tags(tags: usize) -> Form {
        if tags <= Form::Narrow.most_tags() {
            Form::Narrow
        } else {
            Form::Wide
        }
    }

    /// The forms that hold a set of so many tags that forgets nothing.
    pub fn that_hold(tags: usize) -> impl Iterator<Item = Form> {
        Form::ALL.into_iter().filter(move |form| tags <= form.most_tags())
    }

    /// Bytes of a state's tags.
    pub fn tag_bytes(self) -> usize {
        match self {
            Form::Narrow => NARROW_TAG_BYTES,
            Form::Wide | Form::Isolating => WIDE_TAG_BYTES,
        }
    }

    /// Bytes of a state: final, then its tags.
    pub fn state_bytes(self) -> usize {
        1 + self.tag_bytes()
    }

    /// Bytes of a rule's tags to forget.
    pub fn forgets_bytes(self) -> usize {
        match self {
            Form::Narrow | Form::Wide => 0,
            Form::Isolating => FORGETS_BYTES,
        }
    }

    /// Bytes of a rule: symbol, target and child places, then the tags to forget.
    pub fn rule_bytes(self) -> usize {
        RULE_BYTES + self.forgets_bytes()
    }

    /// Most tags of a set in this form.
    pub fn most_tags(self) -> usize {
        match self {
            Form::Narrow => MAX_NARROW_TAGS,
            Form::Wide | Form::Isolating => MAX_TAGS,
        }
    }

    /// The offset of the symbols.
    pub fn symbols_offset(self) -> usize {
        HEADER_BYTES
    }

    /// The offset of the states: 16 + S.
    pub fn states_offset(self, symbols: usize) -> usize {
        self.symbols_offset() + symbols
    }

    /// The offset of the rules: 16 + S + 2Q, or 16 + S + 3Q.
    pub fn rules_offset(self, symbols: usize, states: usize) -> usize {
        self.states_offset(symbols) + self.state_bytes() * states
    }

    /// The total length: 12R or 14R past the rules' offset.
    pub fn total(self, symbols: usize, states: usize, rules: usize) -> usize {
        self.rules_offset(symbols, states) + self.rule_bytes() * rules
    }

    /// Whether a set of so many rules that forgets nothing has the same bytes in this form and in another. Without rules
    /// the two wide forms do not differ, and a set is in both.
    fn has_the_bytes_of(self, other: Form, rules: usize) -> bool {
        self.state_bytes() == other.state_bytes() && self.rule_bytes() * rules == other.rule_bytes() * rules
    }
}

/// The bytes of a narrow set in the wide form, for a result space of so many bytes.
pub fn widen_states(set: &[u8], space: usize) -> Result<Vec<u8>, Refusal> {
    let automaton = take_from(Form::Narrow, set)?;
    write(&automaton, Form::Wide, space)
}

/// The bytes of a wide set in the narrow form, for a result space of so many bytes. What counts is how many tags the set
/// has, not which of them a state carries; and that its rules have 12 bytes, not whether they would forget anything.
pub fn narrow_states(set: &[u8], space: usize) -> Result<Vec<u8>, Refusal> {
    let automaton = take_from(Form::Wide, set)?;
    refuse_if(automaton.tag_count > Form::Narrow.most_tags(), 8)?;
    write(&automaton, Form::Narrow, space)
}

/// The bytes of a wide set in the isolating form, with nothing forgotten, for a result space of so many bytes.
pub fn widen_rules(set: &[u8], space: usize) -> Result<Vec<u8>, Refusal> {
    let automaton = take_from(Form::Wide, set)?;
    write(&automaton, Form::Isolating, space)
}

/// The bytes of an isolating set in the wide form, for a result space of so many bytes. What counts is that a rule names a
/// tag to forget, not whether that has an effect.
pub fn narrow_rules(set: &[u8], space: usize) -> Result<Vec<u8>, Refusal> {
    let automaton = take_from(Form::Isolating, set)?;
    refuse_if(automaton.forgets(), 10)?;
    write(&automaton, Form::Wide, space)
}

/// A sound set, or 18 where it is not in the form that a move starts from.
fn take_from(start: Form, set: &[u8]) -> Result<Automaton, Refusal> {
    let (told, automaton) = check_with_form(set)?;
    refuse_if(!start.has_the_bytes_of(told, automaton.rules.len()), 18)?;
    Ok(automaton)
}

/// The bytes of a set in a form, or 53 where the space is shorter.
pub(crate) fn write(automaton: &Automaton, form: Form, space: usize) -> Result<Vec<u8>, Refusal> {
    let bytes = automaton.encode_in(form);
    refuse_if(space < bytes.len(), 53)?;
    Ok(bytes)
}
