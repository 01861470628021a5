//! Dead, or live with a lowest document (42, 41): marking in linear time, by counts of children not yet marked.

use std::collections::HashMap;

use super::set::{self, Rule, Set};
use super::table::Row;
use super::UNUSED;

/// The cells of a lowest document with its levels, nothing for a dead set, or the number of a refusal.
pub fn witness(set: &[u8], space: usize) -> Result<Option<(Vec<u16>, usize)>, u8> {
    let set = set::read(set)?;
    if space / 10 < set.states.len() {
        return Err(42);
    }
    if set
        .states
        .iter()
        .try_fold(0, |seen, state| (seen & state.tags == 0).then_some(seen | state.tags))
        .is_none()
    {
        return Err(41);
    }
    let Some(Found { rule_of, state, round }) = first_final(&set) else {
        return Ok(None);
    };
    let mut builder = Builder { set: &set, rule_of: &rule_of, rows: Vec::new(), numbers: HashMap::new() };
    let mut row_of = vec![None; set.states.len()];
    builder.build(state, &mut row_of);
    Ok(Some((builder.rows.iter().flat_map(Row::cells).collect(), round)))
}

/// The final state that is marked first, its round, and the rule by which each state was marked so far.
struct Found {
    rule_of: Vec<Option<usize>>,
    state: usize,
    round: usize,
}

/// Marks round by round until a final state is marked. A rule fires in the round after its last child was marked.
fn first_final(set: &Set) -> Option<Found> {
    let mut users: Vec<Vec<usize>> = vec![Vec::new(); set.states.len()];
    let mut missing: Vec<usize> = Vec::with_capacity(set.rules.len());
    for (number, rule) in set.rules.iter().enumerate() {
        rule.used().iter().for_each(|&child| users[usize::from(child)].push(number));
        missing.push(rule.used().len());
    }
    let mut rule_of = vec![None; set.states.len()];
    let mut firing: Vec<usize> = (0..set.rules.len()).filter(|&rule| missing[rule] == 0).collect();
    for round in 1.. {
        let marked = mark(set, &mut rule_of, &mut firing);
        if let Some(&state) = marked.iter().filter(|&&state| set.states[state].is_final).min() {
            return Some(Found { rule_of, state, round });
        }
        if marked.is_empty() {
            break;
        }
        for &rule in marked.iter().flat_map(|&state| &users[state]) {
            missing[rule] -= 1;
            if missing[rule] == 0 {
                firing.push(rule);
            }
        }
    }
    None
}

/// Marks the targets of the rules that fire, each by the first rule in stored order, and answers the new ones.
fn mark(set: &Set, rule_of: &mut [Option<usize>], firing: &mut Vec<usize>) -> Vec<usize> {
    firing.sort_unstable();
    let mut marked = Vec::new();
    for rule in firing.drain(..) {
        let target = usize::from(set.rules[rule].target);
        if rule_of[target].is_none() {
            rule_of[target] = Some(rule);
            marked.push(target);
        }
    }
    marked
}

struct Builder<'a> {
    set: &'a Set,
    rule_of: &'a [Option<usize>],
    rows: Vec<Row>,
    numbers: HashMap<Row, u16>,
}

impl Builder<'_> {
    /// The row of a marked state's tree, its children's first, from left to right; each state once.
    fn build(&mut self, state: usize, row_of: &mut [Option<u16>]) -> u16 {
        if let Some(row) = row_of[state] {
            return row;
        }
        let number = self.rule_of[state].expect("only marked states are built");
        let rule: &Rule = &self.set.rules[number];
        let mut children = [UNUSED; 4];
        for (place, &child) in rule.used().iter().enumerate() {
            children[place] = self.build(usize::from(child), row_of);
        }
        let row = Row { symbol: rule.symbol, children, kind: 0, payload: 0 };
        let number = *self.numbers.entry(row).or_insert_with(|| {
            self.rows.push(row);
            (self.rows.len() - 1) as u16
        });
        row_of[state] = Some(number);
        number
    }
}
