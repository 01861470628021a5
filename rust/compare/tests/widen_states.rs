//! The library's widening of a set's states against the reference's.

mod moves;

use compare::calls::widen_states;
use moves::{strange, unsorted, Move, PLENTY};
use reference::examples::set_e;
use reference::{Automaton, Form};

const WIDENING: Move = Move {
    name: "widen_states",
    compare: widen_states,
    reference: reference::widen_states,
    from: Form::Narrow,
    too_much: None,
};

moves::tests_of!(WIDENING);

#[test]
fn the_longest_set() {
    WIDENING.compare_the_longest_set(12_880, 13_136);
}

#[test]
fn the_order_of_numbers() {
    for space in [0, 60, 61, PLENTY] {
        let number = |set: &Automaton, form| widen_states(&set.encode_in(form), space).number();
        assert_eq!(number(&unsorted(), Form::Narrow), Some(7), "7 before 53");
        assert_eq!(number(&unsorted(), Form::Wide), Some(7), "7 before 18");
        assert_eq!(number(&unsorted(), Form::Isolating), Some(7), "7 before 9 and 18");
        assert_eq!(number(&strange(), Form::Isolating), Some(9), "9 before 18");
        assert_eq!(number(&set_e(), Form::Isolating), Some(18), "18 before 53");
        assert_eq!(number(&set_e(), Form::Wide), Some(18), "18 before 53");
        assert_eq!(number(&set_e(), Form::Narrow), (space < 61).then_some(53));
    }
}
