//! The library's widening of a set's rules against the reference's.

mod moves;

use compare::calls::widen_rules;
use moves::{strange, unsorted, Move, PLENTY};
use reference::examples::{lists_of_equal_pairs, set_e};
use reference::{Automaton, Form};

const WIDENING: Move = Move {
    name: "widen_rules",
    compare: widen_rules,
    reference: reference::widen_rules,
    from: Form::Wide,
    too_much: None,
};

moves::tests_of!(WIDENING);

#[test]
fn the_longest_set() {
    WIDENING.compare_the_longest_set(13_136, 15_184);
}

#[test]
fn the_order_of_numbers() {
    for space in [0, 66, 67, PLENTY] {
        let number = |set: &Automaton, form| widen_rules(&set.encode_in(form), space).number();
        assert_eq!(number(&unsorted(), Form::Narrow), Some(7), "7 before 18");
        assert_eq!(number(&unsorted(), Form::Wide), Some(7), "7 before 53");
        assert_eq!(number(&unsorted(), Form::Isolating), Some(7), "7 before 9 and 18");
        assert_eq!(number(&strange(), Form::Isolating), Some(9), "9 before 18");
        assert_eq!(number(&set_e(), Form::Narrow), Some(18), "18 before 53");
        assert_eq!(number(&set_e(), Form::Isolating), Some(18), "18 before 53");
        assert_eq!(number(&lists_of_equal_pairs(), Form::Isolating), Some(18), "whatever is forgotten");
        assert_eq!(number(&set_e(), Form::Wide), (space < 67).then_some(53));
    }
}
