//! The library's narrowing of a set's rules against the reference's.

mod moves;

use compare::calls::narrow_rules;
use moves::{largest, of_counts, strange, unsorted, Move, TooMuch, PLENTY, PLENTY_FOR_AN_EXAMPLE};
use reference::examples::{set_b, set_e};
use reference::{Automaton, Form};

const NARROWING: Move = Move {
    name: "narrow_rules",
    compare: narrow_rules,
    reference: reference::narrow_rules,
    from: Form::Isolating,
    too_much: Some(TooMuch { number: 10, is_in: Automaton::forgets }),
};

moves::tests_of!(NARROWING);

#[test]
fn the_longest_set() {
    NARROWING.compare_the_longest_set(15_184, 13_136);
}

/// A set in which one rule forgets the tags of a mask.
fn forgetting(mut set: Automaton, place: usize, mask: u16) -> Automaton {
    set.rules[place].forgets = mask;
    set
}

/// Each bit in each rule: a tag that the set does not have is 9 before 10, and no mask is lost on the way.
#[test]
fn each_tag_to_forget_in_each_rule() {
    for (tags, place) in (0..=16).flat_map(|tags| (0..5).map(move |place| (tags, place))) {
        for tag in 0..16 {
            let set = forgetting(of_counts(5, tags, 5), place, 1 << tag);
            let expected = if tag >= tags { Some(9) } else { Some(10) };
            assert_eq!(
                NARROWING.number(&set, Form::Isolating),
                expected,
                "tag {tag} of {tags}, rule {place}"
            );
        }
    }
}

#[test]
fn one_mask_in_the_longest_set() {
    for place in [0, 1, 511, 512, 1022, 1023] {
        for tag in 0..16 {
            let set = forgetting(largest(16), place, 1 << tag);
            assert_eq!(NARROWING.number(&set, Form::Isolating), Some(10), "tag {tag}, rule {place}");
        }
    }
    assert_eq!(NARROWING.number(&largest(16), Form::Isolating), None);
}

/// Every mask of a set with all tags, in its first rule and in its last.
#[test]
fn every_mask() {
    for mask in 0..=u16::MAX {
        for place in [0, 2] {
            let set = forgetting(of_counts(2, 16, 3), place, mask).encode_in(Form::Isolating);
            let expected = (mask != 0).then_some(10);
            let number = narrow_rules(&set, PLENTY_FOR_AN_EXAMPLE).number();
            assert_eq!(number, expected, "mask {mask}, rule {place}");
        }
    }
}

/// No state carries the tag, or the rule has no children whose memory could hold it.
#[test]
fn masks_without_an_effect() {
    let none_carried = Automaton { tag_count: 1, ..set_b() };
    for set in [forgetting(none_carried, 0, 1), forgetting(set_e(), 1, 1)] {
        assert_eq!(NARROWING.number(&set, Form::Isolating), Some(10));
    }
}

#[test]
fn the_order_of_numbers() {
    let forgetful = forgetting(set_e(), 0, 1);
    // A known tag in a rule before the one with an unknown one, and behind it.
    let both = [forgetting(strange(), 0, 1), forgetting(strange(), 2, 1)];
    for space in [0, 60, 61, PLENTY] {
        let number = |set: &Automaton, form| narrow_rules(&set.encode_in(form), space).number();
        assert_eq!(number(&unsorted(), Form::Narrow), Some(7), "7 before 18");
        assert_eq!(number(&unsorted(), Form::Wide), Some(7), "7 before 18");
        assert_eq!(number(&unsorted(), Form::Isolating), Some(7), "7 before 9 and 10");
        assert_eq!(number(&strange(), Form::Isolating), Some(9), "9 before 53");
        both.iter().for_each(|set| assert_eq!(number(set, Form::Isolating), Some(9), "9 before 10"));
        assert_eq!(number(&forgetful, Form::Isolating), Some(10), "10 before 53");
        assert_eq!(number(&set_e(), Form::Narrow), Some(18), "18 before 53");
        assert_eq!(number(&set_e(), Form::Wide), Some(18), "18 before 53");
        assert_eq!(number(&set_e(), Form::Isolating), (space < 61).then_some(53));
    }
}
