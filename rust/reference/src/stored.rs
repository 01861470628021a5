//! The check of a stored set in any form, refusals 1 to 7 and 9, and its decoding (document 01, "Sets", and document 02,
//! Wishes 2 and 9).

use crate::automaton::{Automaton, Rule, State};
use crate::forms::Form;
use crate::limits::{
    HEADER_BYTES, MAX_CHILDREN, MAX_RULES, MAX_STATES, MAX_SYMBOLS, MAX_TAGS, RULE_BYTES, UNUSED,
};
use crate::refusal::{refuse_if, Refusal};

/// Checks a stored set. Each number is tried over the whole set before the next one is.
pub fn check_automaton(set: &[u8]) -> Result<Automaton, Refusal> {
    check_with_form(set).map(|(_, automaton)| automaton)
}

/// Checks a stored set, and tells its form too.
pub fn check_with_form(set: &[u8]) -> Result<(Form, Automaton), Refusal> {
    refuse_if(set.len() < HEADER_BYTES, 1)?;
    let header = Header::read(set);
    refuse_if(header.a_count_is_out_of_range(), 2)?;
    let form = header.form(set.len()).ok_or(Refusal::plain(3))?;
    let parts = Parts::cut(set, &header, form);
    refuse_if(parts.a_symbol_has_too_many_children(), 4)?;
    refuse_if(parts.a_state_is_wrong(header.tags), 5)?;
    refuse_if(parts.a_rule_is_wrong(), 6)?;
    refuse_if(!parts.rules_ascend_strictly(), 7)?;
    refuse_if(parts.a_forgotten_tag_is_unknown(header.tags), 9)?;
    Ok((form, parts.decode(header.tags)))
}

/// The header's eight numbers.
struct Header {
    symbols: usize,
    states: usize,
    tags: usize,
    rules: usize,
    symbols_offset: usize,
    states_offset: usize,
    rules_offset: usize,
    total: usize,
}

impl Header {
    fn read(set: &[u8]) -> Header {
        let number = |index: usize| usize::from(number_at(set, 2 * index));
        Header {
            symbols: number(0),
            states: number(1),
            tags: number(2),
            rules: number(3),
            symbols_offset: number(4),
            states_offset: number(5),
            rules_offset: number(6),
            total: number(7),
        }
    }

    fn a_count_is_out_of_range(&self) -> bool {
        !(1..=MAX_SYMBOLS).contains(&self.symbols)
            || !(1..=MAX_STATES).contains(&self.states)
            || self.tags > MAX_TAGS
            || self.rules > MAX_RULES
    }

    /// The form whose formulas offsets and lengths follow, if there is one: 2Q or 3Q tells how wide states are, and the
    /// total how wide rules are. Without rules the latter do not differ, and the first such form counts.
    fn form(&self, lent_length: usize) -> Option<Form> {
        Form::ALL.into_iter().find(|&form| self.follows(form, lent_length))
    }

    /// Whether every offset and length is the form's, and the form has bits for so many tags.
    fn follows(&self, form: Form, lent_length: usize) -> bool {
        let total = form.total(self.symbols, self.states, self.rules);
        self.symbols_offset == form.symbols_offset()
            && self.states_offset == form.states_offset(self.symbols)
            && self.rules_offset == form.rules_offset(self.symbols, self.states)
            && self.total == total
            && lent_length == total
            && self.tags <= form.most_tags()
    }
}

/// The stored symbols, states and rules, before it is known that they are sound.
struct Parts {
    arities: Vec<u8>,
    states: Vec<StoredState>,
    rules: Vec<StoredRule>,
}

struct StoredState {
    is_final: u8,
    tags: u16,
}

struct StoredRule {
    symbol: u16,
    target: u16,
    children: [u16; MAX_CHILDREN],
    forgets: u16,
}

impl Parts {
    /// Cuts a set whose lengths agree with the form's formulas (3 has been tried).
    fn cut(set: &[u8], header: &Header, form: Form) -> Parts {
        let symbols = &set[HEADER_BYTES..header.states_offset];
        let states = &set[header.states_offset..header.rules_offset];
        let rules = &set[header.rules_offset..];
        Parts {
            arities: symbols.to_vec(),
            states: states.chunks_exact(form.state_bytes()).map(StoredState::read).collect(),
            rules: rules.chunks_exact(form.rule_bytes()).map(StoredRule::read).collect(),
        }
    }

    fn a_symbol_has_too_many_children(&self) -> bool {
        self.arities.iter().any(|&arity| usize::from(arity) > MAX_CHILDREN)
    }

    fn a_state_is_wrong(&self, tags: usize) -> bool {
        self.states.iter().any(|state| state.is_final > 1 || has_tag_past(state.tags, tags))
    }

    fn a_rule_is_wrong(&self) -> bool {
        self.rules.iter().any(|rule| !self.rule_fits(rule))
    }

    /// Whether a rule names known symbols and states only and leaves unused places at 65535.
    fn rule_fits(&self, rule: &StoredRule) -> bool {
        let Some(&arity) = self.arities.get(usize::from(rule.symbol)) else {
            return false;
        };
        let (used, unused) = rule.children.split_at(usize::from(arity));
        self.knows_state(rule.target)
            && used.iter().all(|&child| self.knows_state(child))
            && unused.iter().all(|&place| place == UNUSED)
    }

    fn knows_state(&self, state: u16) -> bool {
        usize::from(state) < self.states.len()
    }

    fn rules_ascend_strictly(&self) -> bool {
        self.rules.windows(2).all(|pair| pair[0].sort_key() < pair[1].sort_key())
    }

    fn a_forgotten_tag_is_unknown(&self, tags: usize) -> bool {
        self.rules.iter().any(|rule| has_tag_past(rule.forgets, tags))
    }

    fn decode(&self, tag_count: usize) -> Automaton {
        Automaton {
            arities: self.arities.clone(),
            states: self.states.iter().map(StoredState::decode).collect(),
            tag_count,
            rules: self.rules.iter().map(|rule| self.decode_rule(rule)).collect(),
        }
    }

    fn decode_rule(&self, rule: &StoredRule) -> Rule {
        let symbol = usize::from(rule.symbol);
        let arity = usize::from(self.arities[symbol]);
        Rule {
            symbol,
            children: rule.children[..arity].iter().map(|&child| usize::from(child)).collect(),
            target: usize::from(rule.target),
            forgets: rule.forgets,
        }
    }
}

/// Whether a mask has the bit of a tag at or above T.
fn has_tag_past(mask: u16, tags: usize) -> bool {
    u32::from(mask) >= 1 << tags
}

impl StoredState {
    /// A final byte, then one byte or two of tags, the lower one first.
    fn read(bytes: &[u8]) -> StoredState {
        let higher = bytes.get(2).copied().unwrap_or(0);
        StoredState { is_final: bytes[0], tags: u16::from_le_bytes([bytes[1], higher]) }
    }

    fn decode(&self) -> State {
        State { is_final: self.is_final == 1, tags: self.tags }
    }
}

impl StoredRule {
    /// Six numbers, and the tags to forget where the form has them.
    fn read(bytes: &[u8]) -> StoredRule {
        let number = |index: usize| number_at(bytes, 2 * index);
        StoredRule {
            symbol: number(0),
            target: number(1),
            children: [number(2), number(3), number(4), number(5)],
            forgets: if bytes.len() > RULE_BYTES { number_at(bytes, RULE_BYTES) } else { 0 },
        }
    }

    /// Rules ascend by symbol, then child places left to right, then target. The tags to forget do not count.
    fn sort_key(&self) -> (u16, [u16; MAX_CHILDREN], u16) {
        (self.symbol, self.children, self.target)
    }
}

/// The little-endian 16-bit number at an offset.
fn number_at(bytes: &[u8], offset: usize) -> u16 {
    u16::from_le_bytes([bytes[offset], bytes[offset + 1]])
}
