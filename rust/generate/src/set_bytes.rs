//! Stored sets in all three forms, and ones with something wrong in them, for refusals 1 to 7 and 9.

use reference::examples::rule;
use reference::limits::{
    HEADER_BYTES, MAX_NARROW_TAGS, MAX_RULES, MAX_STATES, MAX_SYMBOLS, MAX_TAGS, RULE_BYTES,
};
use reference::{Automaton, Form, State};

use crate::Random;

/// A form that holds a set, mostly the shortest one.
pub fn some_form(random: &mut Random, automaton: &Automaton) -> Form {
    let shortest = automaton.shortest_form();
    if random.percent(30) {
        random.pick(&[Form::Wide, Form::Isolating]).max(shortest)
    } else {
        shortest
    }
}

/// A stored set that is mostly sound, in some form; damaged in so many of a hundred cases.
pub fn stored(random: &mut Random, automaton: &Automaton, damaged_percent: usize) -> Vec<u8> {
    let form = some_form(random, automaton);
    stored_in(random, automaton, form, damaged_percent)
}

/// A set as above in the form given.
pub fn stored_in(random: &mut Random, automaton: &Automaton, form: Form, damaged_percent: usize) -> Vec<u8> {
    if random.percent(damaged_percent) {
        damaged(random, automaton, form)
    } else {
        automaton.encode_in(form)
    }
}

/// A stored set with one to three things changed; a change may turn out harmless.
pub fn damaged(random: &mut Random, automaton: &Automaton, form: Form) -> Vec<u8> {
    let mut automaton = automaton.clone();
    if random.percent(10) {
        pass_a_limit(random, &mut automaton);
    }
    let mut bytes = automaton.encode_in(form);
    for _ in 0..random.pick(&[1, 1, 1, 2, 3]) {
        damage_once(random, &automaton, form, &mut bytes);
    }
    bytes
}

/// Makes a count 0 or one too many, with lengths and offsets that still follow the formulas.
pub fn pass_a_limit(random: &mut Random, automaton: &mut Automaton) {
    match random.below(6) {
        0 => automaton.arities.clear(),
        1 => automaton.states.clear(),
        2 => automaton.arities.resize(MAX_SYMBOLS + 1, 0),
        3 => automaton.states.resize(MAX_STATES + 1, State { is_final: true, tags: 0 }),
        4 => automaton.tag_count = MAX_TAGS + 1,
        _ => automaton.rules.resize(MAX_RULES + 1, rule(0, &[], 0)),
    }
}

fn damage_once(random: &mut Random, automaton: &Automaton, form: Form, bytes: &mut Vec<u8>) {
    let states_at = form.states_offset(automaton.arities.len());
    let rules = StoredRules::of(automaton, form);
    let length = bytes.len();
    if form == Form::Isolating && random.percent(25) {
        return rules.forget_a_strange_tag(random, automaton.tag_count, bytes);
    }
    match random.below(20) {
        0 => bytes.truncate(random.below(HEADER_BYTES)),
        1 => change_number(random, bytes, 0, HEADER_BYTES / 2),
        2 => change_number(random, bytes, 0, 4),
        3 => change_number(random, bytes, 8, 4),
        4 => change_length(random, bytes),
        5..=7 => change_byte(random, bytes, HEADER_BYTES, automaton.arities.len()),
        8 | 9 => change_byte(random, bytes, states_at, rules.at - states_at),
        10 | 11 => change_number(random, bytes, rules.at, rules.width / 2 * rules.count),
        12 | 13 => rules.copy_one(random, bytes),
        14 => rules.swap_two(random, bytes),
        15 => add_a_tag(random, automaton, form, bytes),
        16 => change_the_tag_count(random, bytes),
        17 => mix_the_forms(random, automaton, bytes),
        18 => take_for_another_form(random, automaton, bytes),
        _ => change_byte(random, bytes, 0, length),
    }
}

/// Gives a state a tag that the set does not have, where the form has a bit for one (5).
fn add_a_tag(random: &mut Random, automaton: &Automaton, form: Form, bytes: &mut [u8]) {
    let (bits, states) = (8 * form.tag_bytes(), automaton.states.len());
    if automaton.tag_count >= bits || states == 0 {
        return;
    }
    let tag = random.between(automaton.tag_count, bits - 1);
    let state_at = form.states_offset(automaton.arities.len()) + form.state_bytes() * random.below(states);
    if let Some(byte) = bytes.get_mut(state_at + 1 + tag / 8) {
        *byte |= 1 << (tag % 8);
    }
}

/// Puts another number of tags into the header: past those of the narrow form (3 in a narrow set), or past all (2).
fn change_the_tag_count(random: &mut Random, bytes: &mut [u8]) {
    let within = random.between(MAX_NARROW_TAGS, MAX_TAGS);
    put_number(bytes, 4, random.pick(&[within, within, MAX_NARROW_TAGS + 1, MAX_TAGS, MAX_TAGS + 1]));
}

/// Puts the offset of the rules, the total, or both as some form has them into the header, or an offset of the rules as
/// no form has it (3 where it differs). The bytes behind the header stay.
fn mix_the_forms(random: &mut Random, automaton: &Automaton, bytes: &mut [u8]) {
    let (symbols, states) = (automaton.arities.len(), automaton.states.len());
    let form = random.pick(&Form::ALL);
    let which = random.below(4);
    if which != 1 {
        put_number(bytes, 12, form.rules_offset(symbols, states));
    }
    if which != 0 {
        put_number(bytes, 14, form.total(symbols, states, automaton.rules.len()));
    }
    if which == 3 {
        let width = random.pick(&[0, 1, 4, 5]);
        put_number(bytes, 12, form.states_offset(symbols) + width * states);
    }
}

/// Gives total, length or both as another form has them. With both, the header is sound, and the rules are those of bytes
/// that were meant otherwise.
fn take_for_another_form(random: &mut Random, automaton: &Automaton, bytes: &mut Vec<u8>) {
    let (symbols, states) = (automaton.arities.len(), automaton.states.len());
    let form = random.pick(&[Form::Narrow, Form::Wide, Form::Wide, Form::Isolating, Form::Isolating]);
    let total = form.total(symbols, states, automaton.rules.len());
    let which = random.below(3);
    if which != 0 {
        put_number(bytes, 14, total);
    }
    if which != 1 {
        bytes.resize(total, random.pick(&[0, 255]));
    }
}

/// Writes a 16-bit number, where the bytes reach that far.
fn put_number(bytes: &mut [u8], at: usize, number: usize) {
    if let Some(place) = bytes.get_mut(at..at + 2) {
        place.copy_from_slice(&(number as u16).to_le_bytes());
    }
}

/// Changes one of the 16-bit numbers from an offset on, where the bytes reach that far.
fn change_number(random: &mut Random, bytes: &mut [u8], from: usize, count: usize) {
    if count == 0 || bytes.len() < from + 2 * count {
        return;
    }
    let at = from + 2 * random.below(count);
    let old = u16::from_le_bytes([bytes[at], bytes[at + 1]]);
    bytes[at..at + 2].copy_from_slice(&random.telling_number(old).to_le_bytes());
}

/// Changes one of the bytes from an offset on, where the bytes reach that far.
fn change_byte(random: &mut Random, bytes: &mut [u8], from: usize, count: usize) {
    if count == 0 || bytes.len() < from + count {
        return;
    }
    let at = from + random.below(count);
    bytes[at] = random.telling_byte(bytes[at]);
}

/// Cuts bytes off or adds some, so that the lent length differs from the total.
fn change_length(random: &mut Random, bytes: &mut Vec<u8>) {
    if random.percent(50) {
        let cut = random.pick(&[1, 2, 12, 13, 14]);
        bytes.truncate(bytes.len().saturating_sub(cut));
    } else {
        let added = random.pick(&[1, 2, 12, 14, 256]);
        bytes.resize(bytes.len() + added, random.word() as u8);
    }
}

/// Where the rules of a stored set stand.
struct StoredRules {
    at: usize,
    width: usize,
    count: usize,
}

impl StoredRules {
    fn of(automaton: &Automaton, form: Form) -> StoredRules {
        StoredRules {
            at: form.rules_offset(automaton.arities.len(), automaton.states.len()),
            width: form.rule_bytes(),
            count: automaton.rules.len(),
        }
    }

    /// The offset of a rule.
    fn start(&self, rule: usize) -> usize {
        self.at + self.width * rule
    }

    /// Whether there are so many rules, and the bytes reach to their end.
    fn are_there(&self, least: usize, bytes: &[u8]) -> bool {
        self.count >= least && bytes.len() >= self.start(self.count)
    }

    /// Writes one rule over another: equal rules, or rules out of order. Where rules have tags to forget, one of these is
    /// changed in half of the cases, so that a rule stands twice with different ones.
    fn copy_one(&self, random: &mut Random, bytes: &mut [u8]) {
        if !self.are_there(2, bytes) {
            return;
        }
        let (from, to) = (random.below(self.count), random.below(self.count));
        let from = if random.percent(50) { to.max(1) - 1 } else { from };
        bytes.copy_within(self.start(from)..self.start(from + 1), self.start(to));
        if self.width > RULE_BYTES && random.percent(50) {
            bytes[self.start(to) + RULE_BYTES] ^= 1;
        }
    }

    /// Exchanges two neighbouring rules.
    fn swap_two(&self, random: &mut Random, bytes: &mut [u8]) {
        if !self.are_there(2, bytes) {
            return;
        }
        let at = self.start(random.below(self.count - 1));
        bytes[at..at + 2 * self.width].rotate_left(self.width);
    }

    /// Lets a rule forget a tag that the set does not have (9), in place of its own or beside them.
    fn forget_a_strange_tag(&self, random: &mut Random, tag_count: usize, bytes: &mut [u8]) {
        if tag_count >= MAX_TAGS || !self.are_there(1, bytes) {
            return;
        }
        let at = self.start(random.below(self.count)) + RULE_BYTES;
        let any = random.between(tag_count, MAX_TAGS - 1);
        let tag = random.pick(&[tag_count, any, MAX_TAGS - 1]);
        let own = if random.percent(50) { u16::from_le_bytes([bytes[at], bytes[at + 1]]) } else { 0 };
        put_number(bytes, at, usize::from(own | 1 << tag));
    }
}

#[cfg(test)]
mod tests {
    use std::collections::BTreeMap;

    use reference::check_automaton;

    use super::*;
    use crate::sets;

    /// The number of a refusal, with what the forms of a set have to do with it.
    fn reason(set: &[u8]) -> Option<&'static str> {
        let number = check_automaton(set).err()?.number;
        let numbers: Vec<usize> = set
            .chunks_exact(2)
            .take(8)
            .map(|pair| usize::from(u16::from_le_bytes([pair[0], pair[1]])))
            .collect();
        let [symbols, states, tags, rules, _, states_at, rules_at, total] = numbers[..] else { return None };
        let width = rules_at.checked_sub(states_at).filter(|distance| distance % states.max(1) == 0);
        let width = width.map(|distance| distance / states.max(1));
        let is_total_of = |form: Form| total == form.total(symbols, states, rules);
        let is_length_of = |form: Form| set.len() == form.total(symbols, states, rules);
        let [narrow, wide, isolating] = Form::ALL;
        match (number, width) {
            (2, _) if tags == MAX_TAGS + 1 => Some("2, one tag too many"),
            (3, Some(2)) if is_total_of(narrow) && is_length_of(narrow) && tags > MAX_NARROW_TAGS => {
                Some("3, too many tags for one byte")
            }
            (3, Some(2)) if is_total_of(wide) => Some("3, a wide total"),
            (3, Some(2)) if is_total_of(isolating) => Some("3, a total for long rules in a narrow set"),
            (3, Some(3)) if is_total_of(narrow) => Some("3, a narrow total"),
            (3, Some(3)) if is_total_of(wide) && is_length_of(isolating) => Some("3, longer than told"),
            (3, Some(3)) if is_total_of(isolating) && is_length_of(wide) => Some("3, shorter than told"),
            (3, Some(2 | 3)) => None,
            (3, _) => Some("3, a distance of no form"),
            (5, Some(3)) => {
                in_the_second_byte(&set[states_at..rules_at], tags).then_some("5, in the second byte")
            }
            (7, Some(3)) if is_total_of(isolating) => {
                stands_twice(&set[rules_at..]).then_some("7, a rule twice, with other tags to forget")
            }
            (9, _) => Some("9"),
            _ => None,
        }
    }

    /// Whether a wide state has a tag that the set does not have in the second byte of its mask, and is sound else.
    fn in_the_second_byte(states: &[u8], tags: usize) -> bool {
        let mut states = states.chunks_exact(Form::Wide.state_bytes());
        states.any(|state| usize::from(state[2]) << 8 >= 1 << tags && state[0] < 2)
    }

    /// Whether a rule of 14 bytes is the one before it, but for the tags to forget.
    fn stands_twice(rules: &[u8]) -> bool {
        let rules: Vec<_> = rules.chunks_exact(14).map(|rule| rule.split_at(RULE_BYTES)).collect();
        rules.windows(2).any(|pair| pair[0].0 == pair[1].0 && pair[0].1 != pair[1].1)
    }

    #[test]
    fn everything_that_can_be_wrong_with_a_form_comes() {
        let mut seen: BTreeMap<&str, usize> = BTreeMap::new();
        for seed in 0..30_000 {
            let random = &mut Random::new(seed);
            let sizes = sets::any_sizes(random);
            let automaton = sets::any_automaton(random, &sizes);
            let set = stored(random, &automaton, 85);
            reason(&set).into_iter().for_each(|reason| *seen.entry(reason).or_default() += 1);
        }
        assert!(seen.len() == 11 && seen.values().all(|&count| count >= 100), "{seen:?}");
    }
}
