//! A tree in which leaves are picked two by two, and a root over it four times: each child picks two leaves, by two
//! tags of its own, so that every choice of four pairs can be tried. Sixteen leaves make 22 rows and 240 pairs for each
//! child, and so 3 billion choices for the root.

use reference::examples::{rule, state};
use reference::{Automaton, Document, Row, Rule, Scalar};

/// What the root asks of its four children, and what its state carries.
#[derive(Clone, Copy, Debug, PartialEq, Eq)]
pub enum Root {
    /// A pair of its own for each child, and the first of all tags, which a leaf has already: never let in.
    WithTheFirstTag,
    /// The same, and another rule that picks nothing, by which the root is let in.
    WithAnotherRule,
    /// The first pair, the second, the first again, and the fourth with a tag of the second: never let in.
    ClashingLate,
}

/// Pairs that can be picked, with two tags each.
const PAIRS: usize = 4;

/// Symbols: the root, the rows between, and the leaves.
const ROOT: usize = 0;
const INNER: usize = 1;
const LEAF: usize = 2;

/// The state in which nothing below is picked.
const NONE: usize = 0;
/// The root's state.
const TOP: usize = 1 + 5 * PAIRS;

/// The states of a pair: a leaf that is picked first or second, and a row over the first, the second, or both.
struct Pair {
    leaf: [usize; 2],
    one: [usize; 2],
    both: usize,
}

fn pair(number: usize) -> Pair {
    let first = 1 + 5 * number;
    Pair { leaf: [first, first + 1], one: [first + 2, first + 3], both: first + 4 }
}

/// Four children in these states at some places, and with nothing picked at the others.
fn with(picks: &[(usize, usize)]) -> [usize; 4] {
    let mut children = [NONE; 4];
    picks.iter().for_each(|&(place, state)| children[place] = state);
    children
}

/// The rules by which the leaves of a pair are picked.
fn picking(number: usize) -> Vec<Rule> {
    let Pair { leaf, one, both } = pair(number);
    let mut rules = leaf.map(|picked| rule(LEAF, &[], picked)).to_vec();
    for place in 0..4 {
        for half in [0, 1] {
            for below in [leaf[half], one[half]] {
                rules.push(rule(INNER, &with(&[(place, below)]), one[half]));
            }
        }
        rules.push(rule(INNER, &with(&[(place, both)]), both));
        for other in (0..4).filter(|&other| other != place) {
            for [first, second] in [leaf, one] {
                rules.push(rule(INNER, &with(&[(place, first), (other, second)]), both));
            }
        }
    }
    rules
}

/// The set: with `Root::WithTheFirstTag` 3 symbols, 22 states, 8 tags and 187 rules in 2,307 bytes.
pub fn picking_set(root: Root) -> Automaton {
    let asked = match root {
        Root::ClashingLate => [0, 1, 0, 3],
        Root::WithTheFirstTag | Root::WithAnotherRule => [0, 1, 2, 3],
    };
    let mut rules = vec![rule(LEAF, &[], NONE), rule(INNER, &[NONE; 4], NONE)];
    rules.extend((0..PAIRS).flat_map(picking));
    rules.push(rule(ROOT, &asked.map(|number| pair(number).both), TOP));
    if root == Root::WithAnotherRule {
        rules.push(rule(ROOT, &[NONE; 4], NONE));
    }
    rules.sort();
    let mut states = vec![state(false, 0); TOP + 1];
    for number in 0..PAIRS {
        for (half, picked) in pair(number).leaf.into_iter().enumerate() {
            states[picked].tags = 1 << (2 * number + half);
        }
    }
    states[NONE].is_final = root == Root::WithAnotherRule;
    states[TOP] = state(true, u16::from(root != Root::ClashingLate));
    if root == Root::ClashingLate {
        states[pair(3).both].tags = 1 << 2;
    }
    Automaton { arities: vec![4, 4, 0], states, tag_count: 2 * PAIRS, rules }
}

/// The document with a tree of so many levels over the leaves: two levels are over sixteen leaves.
pub fn picked_document(levels: u32) -> Document {
    let leaf = |number: u64| Row { symbol: LEAF, children: vec![], scalar: Scalar::Count(number) };
    let over =
        |symbol: usize, children: &[usize]| Row { symbol, children: children.to_vec(), scalar: Scalar::Bare };
    let mut rows: Vec<Row> = (0..4u64.pow(levels)).map(leaf).collect();
    let mut level: Vec<usize> = (0..rows.len()).collect();
    while level.len() > 1 {
        let first = rows.len();
        rows.extend(level.chunks(4).map(|children| over(INNER, children)));
        level = (first..rows.len()).collect();
    }
    let tree = rows.len() - 1;
    rows.push(over(ROOT, &[tree; 4]));
    Document { rows }
}

#[cfg(test)]
mod tests {
    use super::*;
    use reference::membership::judge;
    use reference::{check_automaton, check_document};

    const ROOTS: [Root; 3] = [Root::WithTheFirstTag, Root::WithAnotherRule, Root::ClashingLate];

    #[test]
    fn the_set_has_2307_bytes_and_the_document_22_rows() {
        let set = picking_set(Root::WithTheFirstTag);
        assert_eq!(set.encode().len(), 2307);
        assert_eq!((set.states.len(), set.rules.len()), (22, 187));
        assert_eq!(picked_document(2).rows.len(), 22);
        for root in ROOTS {
            let set = picking_set(root);
            assert_eq!(check_automaton(&set.encode()), Ok(set.clone()), "{root:?}");
            assert!(check_document(&set.encode(), &picked_document(2).cells()).is_ok());
        }
    }

    /// Over four leaves, of which two can be picked in twelve ways.
    #[test]
    fn only_another_rule_lets_the_document_in() {
        for root in ROOTS {
            let judgement = judge(&picking_set(root), &picked_document(1), 4096).expect("there is room");
            assert_eq!(judgement.is_yes(), root == Root::WithAnotherRule, "{root:?}");
        }
        let mut untagged = picking_set(Root::WithTheFirstTag);
        untagged.states[TOP].tags = 0;
        let judgement = judge(&untagged, &picked_document(1), usize::MAX).expect("no bound, no refusal");
        assert_eq!(judgement.annotations, 4 * 9 + 1 + 4 * (4 + 4 + 12) + 12usize.pow(4));
    }
}
