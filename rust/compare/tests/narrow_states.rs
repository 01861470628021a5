//! The library's narrowing of a set's states against the reference's.

mod moves;

use compare::calls::narrow_states;
use moves::{of_counts, strange, unsorted, Move, TooMuch, PLENTY};
use reference::examples::set_e;
use reference::{Automaton, Form};

const NARROWING: Move = Move {
    name: "narrow_states",
    compare: narrow_states,
    reference: reference::narrow_states,
    from: Form::Wide,
    too_much: Some(TooMuch { number: 8, is_in: |set| set.tag_count > 8 }),
};

moves::tests_of!(NARROWING);

#[test]
fn the_longest_set() {
    NARROWING.compare_the_longest_set(13_136, 12_880);
}

/// A tag that the set does not have is 5 before 8, and no set loses a tag on the way.
#[test]
fn each_tag_of_a_state() {
    for tags in 0..=16 {
        for tag in 0..16 {
            let mut set = of_counts(5, tags, 3);
            set.states[2].tags = 1 << tag;
            let expected = if tag >= tags { Some(5) } else { (tags > 8).then_some(8) };
            assert_eq!(NARROWING.number(&set, Form::Wide), expected, "tag {tag} of {tags}");
        }
    }
}

#[test]
fn the_order_of_numbers() {
    let many = |set: Automaton| Automaton { tag_count: 9, ..set };
    for space in [0, 58, 59, PLENTY] {
        let number = |set: &Automaton, form| narrow_states(&set.encode_in(form), space).number();
        assert_eq!(number(&unsorted(), Form::Isolating), Some(7), "7 before 9 and 18");
        assert_eq!(number(&strange(), Form::Isolating), Some(9), "9 before 18");
        assert_eq!(number(&many(set_e()), Form::Isolating), Some(18), "18 before 8 and 53");
        assert_eq!(number(&set_e(), Form::Isolating), Some(18), "18, whatever is forgotten");
        assert_eq!(number(&many(unsorted()), Form::Wide), Some(7), "7 before 8");
        assert_eq!(number(&many(set_e()), Form::Wide), Some(8), "8 before 53");
        assert_eq!(number(&set_e(), Form::Narrow), Some(18), "18 before 53");
        assert_eq!(number(&set_e(), Form::Wide), (space < 59).then_some(53));
    }
}
