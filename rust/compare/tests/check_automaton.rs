//! The library's check of a stored set against the reference's.

use cidhomba::interface::check_automaton;
use cidhomba::MAX_SET_BYTES;
use compare::answer::Answer;
use compare::case::{Case, Expected, Input};
use compare::tally::{Tally, SET};
use generate::{set_bytes, sets, Random};
use reference::examples::{
    balanced_trees, doubled_lists, lists_of_equal_pairs, rule, set_b, set_d, set_e, set_g, state,
};
use reference::limits::HEADER_BYTES;
use reference::{Automaton, Form, Rule};

/// Compares one call, and answers what both answered.
fn compare(set: &[u8]) -> Answer {
    let library = Answer::of_library(check_automaton(set));
    let reference = Answer::of_reference(reference::check_automaton(set).map(|_| 0));
    let inputs = [("set", Input::Set(set))];
    let expected = Expected::Exactly(reference);
    Case { function: "check_automaton", inputs: &inputs, library, expected }.same_answer();
    reference
}

/// The number that a set is refused with, if it is.
fn number(automaton: &Automaton) -> Option<u8> {
    compare(&automaton.encode()).number()
}

/// The number that a set in a form is refused with, if it is.
fn number_in(form: Form, automaton: &Automaton) -> Option<u8> {
    compare(&automaton.encode_in(form)).number()
}

/// The examples in all forms, and those that forget in theirs.
fn examples() -> impl Iterator<Item = Vec<u8>> {
    let sets = [set_e(), set_g(), set_d(), set_b()];
    let forgetting = [lists_of_equal_pairs(), doubled_lists(), balanced_trees()];
    sets.into_iter()
        .flat_map(|set| Form::ALL.map(|form| set.encode_in(form)))
        .chain(forgetting.map(|set| set.encode()))
}

#[test]
fn seeded_sets() {
    let mut tally = Tally::of("check_automaton");
    for seed in 0..25_000 {
        let random = &mut Random::new(seed);
        let sizes = sets::any_sizes(random);
        let automaton = sets::any_automaton(random, &sizes);
        let set = set_bytes::stored(random, &automaton, 85);
        tally.count(compare(&set), |_| "sound");
    }
    tally.must_reach(20_000, 200, &SET, &["sound"]);
}

#[test]
fn every_value_of_every_byte_of_the_examples() {
    let mut tally = Tally::of("check_automaton, byte by byte");
    for sound in examples() {
        for at in 0..sound.len() {
            for value in 0..=255 {
                let mut set = sound.clone();
                set[at] = value;
                tally.count(compare(&set), |_| "sound");
            }
        }
    }
    tally.must_reach(20_000, 5, &SET[1..], &["sound"]);
}

#[test]
fn every_length_of_the_examples() {
    for sound in examples() {
        let longer = [&sound[..], &sound[..]].concat();
        for length in 0..=longer.len() {
            let expected = match length {
                _ if length < HEADER_BYTES => Some(1),
                _ if length == sound.len() => None,
                _ => Some(3),
            };
            assert_eq!(compare(&longer[..length]).number(), expected);
        }
    }
}

#[test]
fn every_number_of_a_middling_set() {
    let automaton = sets::automaton(&mut Random::new(7), &sets::medium_sizes());
    for form in Form::ALL {
        let sound = automaton.encode_in(form);
        let rules_at = form.rules_offset(automaton.arities.len(), automaton.states.len());
        let header = (0..HEADER_BYTES).step_by(2);
        for at in header.chain((rules_at..sound.len()).step_by(2)) {
            let old = u16::from_le_bytes([sound[at], sound[at + 1]]);
            for value in [0, 1, 39, 40, 255, 256, 1024, 32_768, 65_534, 65_535, old ^ 1, old ^ 256, !old] {
                let mut set = sound.clone();
                set[at..at + 2].copy_from_slice(&value.to_le_bytes());
                compare(&set);
            }
        }
    }
}

/// A set in a form whose header has another offset of the rules and another total.
fn with_lengths(automaton: &Automaton, form: Form, rules_offset: usize, total: usize) -> Vec<u8> {
    let mut set = automaton.encode_in(form);
    for (at, number) in [(12, rules_offset), (14, total)] {
        set[at..at + 2].copy_from_slice(&(number as u16).to_le_bytes());
    }
    set
}

/// The distance from the states to the rules and the total tell the form, and the length must be that form's.
#[test]
fn every_distance_with_the_lengths_of_all_forms() {
    for states in [1, 2, 3, 12, 24] {
        let automaton = of_counts(2, states, 0, 5 % states);
        let rules = automaton.rules.len();
        for form in Form::ALL {
            for rules_offset in 0..16 + 2 + 5 * states {
                for total in Form::ALL.map(|form| form.total(2, states, rules)) {
                    let set = with_lengths(&automaton, form, rules_offset, total);
                    let is_sound = rules_offset == form.rules_offset(2, states) && total == set.len();
                    let expected = if is_sound { None } else { Some(3) };
                    assert_eq!(compare(&set).number(), expected, "{states} {form:?} {rules_offset} {total}");
                }
            }
        }
    }
}

/// A set with so many symbols, states, tags and rules.
fn of_counts(symbols: usize, states: usize, tags: usize, rules: usize) -> Automaton {
    let numbered = |number: usize| rule(0, &[number / 64 % 64, number % 64, 0, 0], 0);
    let mut arities = vec![0; symbols];
    if let Some(first) = arities.first_mut() {
        *first = 4;
    }
    Automaton {
        arities,
        states: vec![state(true, 0); states],
        tag_count: tags,
        rules: (0..rules).map(numbered).collect(),
    }
}

#[test]
fn counts_at_their_limits() {
    for (symbols, states, tags, rules, expected) in [
        (1, 64, 0, 0, None),
        (64, 256, 8, 1024, None),
        (0, 64, 0, 0, Some(2)),
        (65, 64, 0, 0, Some(2)),
        (1, 0, 0, 0, Some(2)),
        (1, 1, 0, 1, None),
        (1, 256, 0, 5, None),
        (1, 257, 0, 5, Some(2)),
        (1, 64, 8, 5, None),
        (1, 64, 17, 5, Some(2)),
        (1, 64, 255, 5, Some(2)),
        (1, 64, 0, 1024, None),
        (1, 64, 0, 1025, Some(2)),
    ] {
        let automaton = of_counts(symbols, states, tags, rules);
        for form in Form::ALL {
            let found = number_in(form, &automaton);
            assert_eq!(found, expected, "{form:?} {symbols} {states} {tags} {rules}");
        }
    }
    for (tags, narrow) in (0..=16).map(|tags| (tags, if tags > 8 { Some(3) } else { None })) {
        for (symbols, states, rules) in [(1, 64, 5), (64, 256, 1024)] {
            let automaton = of_counts(symbols, states, tags, rules);
            assert_eq!(number_in(Form::Narrow, &automaton), narrow, "{tags} tags");
            assert_eq!(number_in(Form::Wide, &automaton), None, "{tags} tags");
            assert_eq!(number_in(Form::Isolating, &automaton), None, "{tags} tags");
        }
    }
    assert_eq!(of_counts(64, 256, 16, 1024).encode_in(Form::Isolating).len(), MAX_SET_BYTES);
}

#[test]
fn children_at_their_limits() {
    for (arity, expected) in [(0, None), (4, None), (5, Some(4)), (255, Some(4))] {
        let mut automaton = of_counts(64, 4, 0, 0);
        automaton.arities[63] = arity;
        assert_eq!(number(&automaton), expected, "{arity} children");
    }
}

#[test]
fn tags_at_their_limits() {
    let fits = |mask: u16, tags: usize| if u32::from(mask) < 1 << tags { None } else { Some(5) };
    for tags in 0..=8 {
        for mask in 0..=255 {
            let mut automaton = of_counts(2, 256, tags, 3);
            automaton.states[255].tags = mask;
            for form in Form::ALL {
                assert_eq!(number_in(form, &automaton), fits(mask, tags), "{tags} tags, mask {mask}");
            }
        }
    }
    for tags in 0..=16 {
        for mask in (0..=255).flat_map(|byte| [byte << 8, byte << 8 | 1, byte << 4]) {
            let mut automaton = of_counts(2, 3, tags, 3);
            automaton.states[2].tags = mask;
            for form in [Form::Wide, Form::Isolating] {
                assert_eq!(number_in(form, &automaton), fits(mask, tags), "{tags} tags, mask {mask}");
            }
        }
    }
}

/// The set of so many tags whose rule at a place forgets a mask, and no other rule anything.
fn forgetting(tags: usize, rules: usize, place: usize, mask: u16) -> Automaton {
    let mut automaton = of_counts(2, 64, tags, rules);
    automaton.rules[place].forgets = mask;
    automaton
}

#[test]
fn tags_to_forget_at_their_limits() {
    for tags in 0..=16 {
        let one_tag = (0..16).map(|tag| 1 << tag);
        let all_below = (0..=16).map(|tags| ((1u32 << tags) - 1) as u16);
        for mask in one_tag.chain(all_below).chain([0xff00, 0x8001, 0x0101]) {
            let expected = (u32::from(mask) >= 1 << tags).then_some(9);
            for place in 0..3 {
                let found = number_in(Form::Isolating, &forgetting(tags, 3, place, mask));
                assert_eq!(found, expected, "{tags} tags, mask {mask:016b}, rule {place}");
            }
        }
    }
}

#[test]
fn a_strange_tag_to_forget_is_found_wherever_it_stands_and_behind_7() {
    for place in [0, 1, 511, 1022, 1023] {
        let strange = forgetting(3, 1024, place, 8);
        assert_eq!(number_in(Form::Isolating, &strange), Some(9), "rule {place}");
        for unsorted in [0, 512, 1022] {
            let mut automaton = strange.clone();
            automaton.rules.swap(unsorted, unsorted + 1);
            assert_eq!(number_in(Form::Isolating, &automaton), Some(7), "rules {place} and {unsorted}");
        }
        let mut automaton = strange.clone();
        automaton.rules[1023].target = 64;
        assert_eq!(number_in(Form::Isolating, &automaton), Some(6), "rule {place}");
    }
}

/// The order does not look at the tags to forget.
#[test]
fn a_rule_stands_once_whatever_it_forgets() {
    for (first, second) in [(0, 0), (0, 1), (1, 0), (1, 2), (0xffff, 1)] {
        for place in [0, 512, 1022] {
            let mut automaton = of_counts(3, 64, 16, 1024);
            automaton.rules[place].forgets = first;
            automaton.rules[place + 1].forgets = second;
            assert_eq!(number_in(Form::Isolating, &automaton), None, "{first} and {second}");
            automaton.rules[place + 1] = automaton.rules[place].clone().forgetting(second);
            assert_eq!(number_in(Form::Isolating, &automaton), Some(7), "{first} and {second}");
        }
    }
}

/// With both total and length of the other wide form, rules are cut otherwise.
#[test]
fn rules_of_one_wide_form_taken_for_those_of_the_other() {
    let mut tally = Tally::of("check_automaton, rules cut otherwise");
    for rules in 0..60 {
        let automaton = of_counts(2, 64, 16, rules);
        for (form, other) in [(Form::Wide, Form::Isolating), (Form::Isolating, Form::Wide)] {
            let total = other.total(2, 64, rules);
            let mut set = with_lengths(&automaton, form, form.rules_offset(2, 64), total);
            set.resize(total, 0);
            tally.count(compare(&set), |_| "sound");
        }
    }
    tally.must_reach(120, 3, &[6, 7], &["sound"]);
}

#[test]
fn final_bytes_in_each_form() {
    for form in Form::ALL {
        let sound = of_counts(2, 256, 8, 3).encode_in(form);
        for state in [0, 1, 127, 254, 255] {
            for value in [0, 1, 2, 3, 128, 255] {
                let mut set = sound.clone();
                set[form.states_offset(2) + form.state_bytes() * state] = value;
                let expected = if value > 1 { Some(5) } else { None };
                assert_eq!(compare(&set).number(), expected, "{form:?}, state {state}, byte {value}");
            }
        }
    }
}

#[test]
fn a_wrong_rule_is_found_wherever_it_stands() {
    let sound = of_counts(3, 64, 0, 1024);
    for at in [0, 1, 511, 1022, 1023] {
        let with = |change: fn(&mut Rule)| {
            let mut automaton = sound.clone();
            change(&mut automaton.rules[at]);
            number(&automaton)
        };
        assert_eq!(with(|rule| rule.symbol = 3), Some(6), "rule {at}");
        assert_eq!(with(|rule| rule.target = 64), Some(6), "rule {at}");
        assert_eq!(with(|rule| rule.children[3] = 64), Some(6), "rule {at}");
        assert_eq!(with(|rule| rule.children[3] = 65_535), Some(6), "rule {at}");
        assert_eq!(with(|rule| rule.target = 63), None, "rule {at}");
    }
}

#[test]
fn unused_places_and_order_are_checked_up_to_the_last_rule() {
    let leaf_rules = |children: &[usize]| Automaton {
        rules: vec![rule(1, &[], 0), rule(1, children, 1)],
        ..of_counts(2, 2, 0, 0)
    };
    assert_eq!(number(&leaf_rules(&[])), None);
    assert_eq!(number(&leaf_rules(&[65_535, 65_535, 65_535, 0])), Some(6));
    assert_eq!(number(&leaf_rules(&[65_535, 65_535, 65_535, 65_534])), Some(6));
    for at in [0, 512, 1022] {
        let mut equal = of_counts(3, 64, 0, 1024);
        equal.rules[at + 1] = equal.rules[at].clone();
        assert_eq!(number(&equal), Some(7));
        let mut swapped = of_counts(3, 64, 0, 1024);
        swapped.rules.swap(at, at + 1);
        assert_eq!(number(&swapped), Some(7));
    }
}
