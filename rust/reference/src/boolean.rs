//! Union and product of two stored sets, refusals 51 to 53 (document 01, "Joining, demanding both, and the sample"). Both
//! are written in the wide form (document 02, Wish 2), with rules of 14 bytes if either set has such rules (Wish 9).

use crate::automaton::{Automaton, Rule, State};
use crate::forms::{write, Form};
use crate::limits::{MAX_RULES, MAX_STATES, MAX_TAGS};
use crate::refusal::{refuse_if, Refusal};
use crate::stored::check_with_form;

/// The bytes of the union, for a result space of so many bytes.
pub fn union(first: &[u8], second: &[u8], space: usize) -> Result<Vec<u8>, Refusal> {
    let (form, first, second) = check_both(first, second)?;
    let states = first.states.len() + second.states.len();
    let rules = first.rules.len() + second.rules.len();
    refuse_if(result_is_too_large(&first, &second, states, rules), 52)?;
    write(&united(&first, &second), form, space)
}

/// The bytes of the product, for a result space of so many bytes.
pub fn product(first: &[u8], second: &[u8], space: usize) -> Result<Vec<u8>, Refusal> {
    let (form, first, second) = check_both(first, second)?;
    let states = first.states.len() * second.states.len();
    let rules = rule_pairs(&first, &second).count();
    refuse_if(result_is_too_large(&first, &second, states, rules), 52)?;
    write(&multiplied(&first, &second), form, space)
}

/// Both sets, the first checked before the second, with the same symbols, and the form of the result.
fn check_both(first: &[u8], second: &[u8]) -> Result<(Form, Automaton, Automaton), Refusal> {
    let (first_form, first) = check_with_form(first)?;
    let (second_form, second) = check_with_form(second)?;
    refuse_if(first.arities != second.arities, 51)?;
    Ok((first_form.max(second_form).max(Form::Wide), first, second))
}

fn result_is_too_large(first: &Automaton, second: &Automaton, states: usize, rules: usize) -> bool {
    states > MAX_STATES || first.tag_count + second.tag_count > MAX_TAGS || rules > MAX_RULES
}

/// The first set's states and tags, then the second's, shifted.
pub fn united(first: &Automaton, second: &Automaton) -> Automaton {
    let shift = first.states.len();
    let shifted_states = second
        .states
        .iter()
        .map(|state| State { is_final: state.is_final, tags: shifted(state.tags, first.tag_count) });
    let shifted_rules = second.rules.iter().map(|rule| Rule {
        symbol: rule.symbol,
        children: rule.children.iter().map(|child| child + shift).collect(),
        target: rule.target + shift,
        forgets: shifted(rule.forgets, first.tag_count),
    });
    let mut rules: Vec<Rule> = first.rules.iter().cloned().chain(shifted_rules).collect();
    rules.sort();
    Automaton {
        arities: first.arities.clone(),
        states: first.states.iter().copied().chain(shifted_states).collect(),
        tag_count: first.tag_count + second.tag_count,
        rules,
    }
}

/// All pairs of states and all pairs of rules with the same symbol; such a pair forgets what either of the two forgets.
pub fn multiplied(first: &Automaton, second: &Automaton) -> Automaton {
    let pair = |p: usize, q: usize| p * second.states.len() + q;
    let mut states = Vec::new();
    for p in &first.states {
        for q in &second.states {
            states.push(State {
                is_final: p.is_final && q.is_final,
                tags: p.tags | shifted(q.tags, first.tag_count),
            });
        }
    }
    let mut rules: Vec<Rule> = rule_pairs(first, second)
        .map(|(one, other)| Rule {
            symbol: one.symbol,
            children: one.children.iter().zip(&other.children).map(|(&p, &q)| pair(p, q)).collect(),
            target: pair(one.target, other.target),
            forgets: one.forgets | shifted(other.forgets, first.tag_count),
        })
        .collect();
    rules.sort();
    Automaton { arities: first.arities.clone(), states, tag_count: first.tag_count + second.tag_count, rules }
}

/// The second set's tags, moved past the first set's; with 16 tags in the first, none are left.
fn shifted(tags: u16, by: usize) -> u16 {
    (u32::from(tags) << by) as u16
}

/// Every pair of rules with the same symbol.
fn rule_pairs<'a>(first: &'a Automaton, second: &'a Automaton) -> impl Iterator<Item = (&'a Rule, &'a Rule)> {
    first.rules.iter().flat_map(|one| {
        second.rules.iter().filter(|other| other.symbol == one.symbol).map(move |other| (one, other))
    })
}
