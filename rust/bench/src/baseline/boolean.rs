//! Union and product (51 to 53): states and rules in vectors, the rules sorted.

use super::set::{self, Rule, Set, State};
use super::UNUSED;

/// The bytes of the union for a space of so many, or the number of a refusal.
pub fn union(first: &[u8], second: &[u8], space: usize) -> Result<Vec<u8>, u8> {
    let (first, second) = both(first, second)?;
    let (states, rules) = (first.states.len() + second.states.len(), first.rules.len() + second.rules.len());
    within_limits(&first, &second, states, rules)?;
    let by = first.states.len() as u16;
    let moved_state = |state: &State| State { tags: moved(state.tags, &first), ..*state };
    let moved_rule = |rule: &Rule| Rule {
        symbol: rule.symbol,
        children: rule.children.map(|child| if child == UNUSED { UNUSED } else { child + by }),
        target: rule.target + by,
        forgets: moved(rule.forgets, &first),
    };
    let states = first.states.iter().copied().chain(second.states.iter().map(moved_state)).collect();
    let rules = first.rules.iter().copied().chain(second.rules.iter().map(moved_rule)).collect();
    written(first, second, states, rules, space)
}

/// The bytes of the product for a space of so many, or the number of a refusal.
pub fn product(first: &[u8], second: &[u8], space: usize) -> Result<Vec<u8>, u8> {
    let (first, second) = both(first, second)?;
    let pairs = rule_pairs(&first, &second);
    within_limits(&first, &second, first.states.len() * second.states.len(), pairs)?;
    let width = second.states.len() as u16;
    let pair = |p: u16, q: u16| if p == UNUSED { UNUSED } else { p * width + q };
    let mut states = Vec::with_capacity(first.states.len() * second.states.len());
    for p in &first.states {
        states.extend(
            second
                .states
                .iter()
                .map(|q| State { is_final: p.is_final && q.is_final, tags: p.tags | moved(q.tags, &first) }),
        );
    }
    let mut rules = Vec::with_capacity(pairs);
    for one in &first.rules {
        rules.extend(with_symbol(&second, one.symbol).iter().map(|other| Rule {
            symbol: one.symbol,
            children: std::array::from_fn(|place| pair(one.children[place], other.children[place])),
            target: pair(one.target, other.target),
            forgets: one.forgets | moved(other.forgets, &first),
        }));
    }
    written(first, second, states, rules, space)
}

/// Both sets, the first checked before the second, over the same symbols.
fn both(first: &[u8], second: &[u8]) -> Result<(Set, Set), u8> {
    let (first, second) = (set::read(first)?, set::read(second)?);
    if first.arities == second.arities {
        Ok((first, second))
    } else {
        Err(51)
    }
}

fn within_limits(first: &Set, second: &Set, states: usize, rules: usize) -> Result<(), u8> {
    if states > 256 || first.tags + second.tags > 16 || rules > 1024 {
        return Err(52);
    }
    Ok(())
}

/// The second set's tags, moved past the first set's.
fn moved(tags: u16, first: &Set) -> u16 {
    (u32::from(tags) << first.tags) as u16
}

/// The rules of a symbol.
fn with_symbol(set: &Set, symbol: u16) -> &[Rule] {
    let start = set.rules.partition_point(|rule| rule.symbol < symbol);
    let end = set.rules.partition_point(|rule| rule.symbol <= symbol);
    &set.rules[start..end]
}

/// The number of pairs of rules with the same symbol.
fn rule_pairs(first: &Set, second: &Set) -> usize {
    let symbols = 0..first.arities.len() as u16;
    symbols.map(|symbol| with_symbol(first, symbol).len() * with_symbol(second, symbol).len()).sum()
}

fn written(
    first: Set,
    second: Set,
    states: Vec<State>,
    mut rules: Vec<Rule>,
    space: usize,
) -> Result<Vec<u8>, u8> {
    rules.sort_unstable();
    let rule_bytes = first.rule_bytes.max(second.rule_bytes);
    let tags = first.tags + second.tags;
    Set { arities: first.arities, states, tags, rules, state_bytes: 3, rule_bytes }.write(space)
}
