//! A list of paired servers, each pair with its own cluster, as long as a table can hold, and the set that demands it by
//! forgetting the cluster of each pair (source document 000, section 3, language P).

use reference::examples::{rule, state};
use reference::{Automaton, Document, Row, Scalar};

/// Symbols: a link has a pair and the rest of the list; a pair has a cluster and a server, twice.
const LINK: usize = 0;
const PAIR: usize = 1;
const END: usize = 2;
const CLUSTER: usize = 3;
const SERVER: usize = 4;

/// The set: state 0 is a list, 1 a pair, 2 a cluster, which carries the tag, and 3 a server.
pub fn paired_list_set() -> Automaton {
    Automaton {
        arities: vec![2, 4, 0, 0, 0],
        states: vec![state(true, 0), state(false, 0), state(false, 1), state(false, 0)],
        tag_count: 1,
        rules: vec![
            rule(LINK, &[1, 0], 0),
            rule(PAIR, &[2, 3, 2, 3], 1).forgetting(1),
            rule(END, &[], 0),
            rule(CLUSTER, &[], 2),
            rule(SERVER, &[], 3),
        ],
    }
}

/// A list of so many pairs, each of five rows. One of them may have two clusters.
pub fn paired_list(pairs: usize, mixed: Option<usize>) -> Document {
    let mut rows = vec![leaf(END, Scalar::Bare)];
    for pair in 0..pairs {
        let rest = rows.len() - 1;
        let name = |number: usize| Scalar::Name(number as u32);
        rows.push(leaf(CLUSTER, name(pair)));
        rows.extend([2 * pair, 2 * pair + 1].map(|server| leaf(SERVER, name(server))));
        let first = rest + 1;
        let mut second = first;
        if mixed == Some(pair) {
            rows.push(leaf(CLUSTER, name(pairs)));
            second = rows.len() - 1;
        }
        rows.push(over(PAIR, &[first, first + 1, second, first + 2]));
        let whole = rows.len() - 1;
        rows.push(over(LINK, &[whole, rest]));
    }
    Document { rows }
}

fn leaf(symbol: usize, scalar: Scalar) -> Row {
    Row { symbol, children: Vec::new(), scalar }
}

fn over(symbol: usize, children: &[usize]) -> Row {
    Row { symbol, children: children.to_vec(), scalar: Scalar::Bare }
}

#[cfg(test)]
mod tests {
    use super::*;
    use reference::limits::MAX_ROWS;
    use reference::membership::judge;
    use reference::{check_automaton, check_document};

    #[test]
    fn lists_of_pairs_are_sound_and_let_in_unless_one_pair_is_mixed() {
        let set = paired_list_set();
        assert_eq!(check_automaton(&set.encode()), Ok(set.clone()));
        for pairs in [0usize, 1, 2, 40, 200] {
            for mixed in [None, Some(0), pairs.checked_sub(1)] {
                let list = paired_list(pairs, mixed);
                assert!(check_document(&set.encode(), &list.cells()).is_ok(), "{pairs} pairs");
                let judgement = judge(&set, &list, MAX_ROWS).expect("an annotation a row at most");
                let is_mixed = mixed.is_some_and(|mixed| mixed < pairs);
                assert_eq!(judgement.is_yes(), !is_mixed, "{pairs} pairs, {mixed:?}");
            }
        }
    }
}
