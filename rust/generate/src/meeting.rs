//! Small sets and documents in which the memories of three or four children meet: several states for a row, several
//! tags, and rows that stand below one another more than once.

use std::collections::BTreeSet;

use reference::examples::rule;
use reference::limits::{MAX_NARROW_TAGS, MAX_TAGS};
use reference::{Automaton, Document, Row, Scalar, State};

use crate::documents::thinned;
use crate::sets::forgetting_perhaps;
use crate::Random;

/// Symbols: with four children and with three, and two leaves.
const ARITIES: [u8; 4] = [4, 3, 0, 0];
const INNER: [usize; 2] = [0, 1];
const LEAVES: [usize; 2] = [2, 3];

/// A sound set. A leaf can be in most states, and a row over others in several, by several rules each. In about two of
/// five cases rules forget tags.
pub fn set(random: &mut Random) -> Automaton {
    let states = random.between(2, 4);
    let tag_count =
        if random.percent(80) { random.between(2, 5) } else { random.between(MAX_NARROW_TAGS + 1, MAX_TAGS) };
    let mut rules = BTreeSet::new();
    for leaf in LEAVES {
        let reached = (0..states).filter(|_| random.percent(80)).collect::<Vec<_>>();
        rules.extend(reached.into_iter().map(|target| rule(leaf, &[], target)));
    }
    let few_or_many = random.pick(&[(6, 40), (6, 40), (60, 120)]);
    for _ in 0..random.between(few_or_many.0, few_or_many.1) {
        let symbol = random.pick(&INNER);
        let children: Vec<usize> = (0..ARITIES[symbol]).map(|_| random.below(states)).collect();
        rules.insert(rule(symbol, &children, random.below(states)));
    }
    let set = Automaton {
        arities: ARITIES.to_vec(),
        states: (0..states).map(|_| state(random, tag_count)).collect(),
        tag_count,
        rules: rules.into_iter().collect(),
    };
    forgetting_perhaps(random, set)
}

/// A state that is final in one of three cases and mostly carries a tag, sometimes two.
fn state(random: &mut Random, tag_count: usize) -> State {
    let mut tag = |chance: usize| u16::from(random.percent(chance)) << random.below(tag_count);
    let tags = tag(60) | tag(15);
    State { is_final: random.percent(35), tags }
}

/// A sound document for such a set: one to three leaves, and up to four rows over the last few of them and each other.
pub fn document(random: &mut Random) -> Document {
    let mut rows: Vec<Row> = Vec::new();
    for number in 0..random.between(1, 3) {
        rows.push(Row {
            symbol: random.pick(&LEAVES),
            children: vec![],
            scalar: Scalar::Count(number as u64),
        });
    }
    for _ in 0..random.between(1, 4) {
        let (symbol, reach) = (random.pick(&INNER), random.between(1, rows.len().min(3)));
        let children = (0..ARITIES[symbol]).map(|_| rows.len() - 1 - random.below(reach)).collect();
        rows.push(Row { symbol, children, scalar: Scalar::Bare });
    }
    thinned(&rows)
}

#[cfg(test)]
mod tests {
    use super::*;
    use reference::{check_automaton, check_document};

    #[test]
    fn sets_and_documents_are_sound() {
        let mut forgetting = 0;
        for seed in 0..2000 {
            let random = &mut Random::new(seed);
            let (set, document) = (set(random), document(random));
            assert_eq!(check_automaton(&set.encode()), Ok(set.clone()), "seed {seed}");
            assert!(check_document(&set.encode(), &document.cells()).is_ok(), "seed {seed}");
            forgetting += usize::from(set.forgets());
        }
        assert!(forgetting > 400, "only {forgetting} sets forget");
    }
}
