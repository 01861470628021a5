//! The sets E, G, D and B of document 01, "Examples, with the edges", and those of source document 000 that forget.

use crate::automaton::{Automaton, Rule, State};

/// Symbols pair/2, a/0 and b/0, as E, D and B have them.
const PAIR: usize = 0;
const A: usize = 1;
const B: usize = 2;

/// Set E: a pair of two equal leaves.
pub fn set_e() -> Automaton {
    Automaton {
        arities: vec![2, 0, 0],
        states: vec![state(false, 1), state(true, 0)],
        tag_count: 1,
        rules: vec![rule(PAIR, &[0, 0], 1), rule(A, &[], 0), rule(B, &[], 0)],
    }
}

/// Set G (source document 004, example 6): symbols g/1 and a/0, states q (0) and r (1).
pub fn set_g() -> Automaton {
    Automaton {
        arities: vec![1, 0],
        states: vec![state(true, 0), state(false, 1)],
        tag_count: 1,
        rules: vec![rule(0, &[0], 1), rule(0, &[1], 0), rule(1, &[], 0)],
    }
}

/// Set D: a rule that never gets started.
pub fn set_d() -> Automaton {
    Automaton {
        arities: vec![2, 0, 0],
        states: vec![state(true, 0)],
        tag_count: 0,
        rules: vec![rule(PAIR, &[0, 0], 0)],
    }
}

/// Set B: a leaf that needs two states.
pub fn set_b() -> Automaton {
    Automaton {
        arities: vec![2, 0, 0],
        states: vec![state(false, 0), state(false, 0), state(true, 0)],
        tag_count: 0,
        rules: vec![rule(PAIR, &[0, 1], 2), rule(A, &[], 0), rule(A, &[], 1)],
    }
}

/// Symbols p/2, cons/2, nil/0 and x/0 of the lists below; the trees of L_x are leaves x with any scalar.
pub const P: usize = 0;
pub const CONS: usize = 1;
pub const NIL: usize = 2;
pub const X: usize = 3;

/// Source document 000, section 3, language P: lists of pairs p(x,x), each pair with an x of its own. States: q_F (0), a
/// pair (1), a list (2).
pub fn lists_of_equal_pairs() -> Automaton {
    Automaton {
        arities: vec![2, 2, 0, 0],
        states: vec![state(false, 1), state(false, 0), state(true, 0)],
        tag_count: 1,
        rules: vec![
            rule(P, &[0, 0], 1).forgetting(1),
            rule(CONS, &[1, 2], 2),
            rule(NIL, &[], 2),
            rule(X, &[], 0),
        ],
    }
}

/// Language D there: lists in which each element stands twice, side by side. States: q_F (0), lists of even length (1)
/// and of odd length (2).
pub fn doubled_lists() -> Automaton {
    Automaton {
        arities: vec![2, 2, 0, 0],
        states: vec![state(false, 1), state(true, 0), state(false, 0)],
        tag_count: 1,
        rules: vec![
            rule(CONS, &[0, 1], 2),
            rule(CONS, &[0, 2], 1).forgetting(1),
            rule(NIL, &[], 1),
            rule(X, &[], 0),
        ],
    }
}

/// Section 6 there, language B: balanced binary trees over f/2 and a/0. Each state has a tag of its own.
pub fn balanced_trees() -> Automaton {
    Automaton {
        arities: vec![2, 0],
        states: vec![state(true, 1), state(true, 2)],
        tag_count: 2,
        rules: vec![rule(0, &[0, 0], 1).forgetting(1), rule(0, &[1, 1], 0).forgetting(2), rule(1, &[], 0)],
    }
}

/// A state, final or not, with the tags of a mask.
pub fn state(is_final: bool, tags: u16) -> State {
    State { is_final, tags }
}

/// A rule from the children's states to a target that forgets nothing.
pub fn rule(symbol: usize, children: &[usize], target: usize) -> Rule {
    Rule { symbol, children: children.to_vec(), target, forgets: 0 }
}
