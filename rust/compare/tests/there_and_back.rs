//! Moves of the library that undo each other: what one writes, its opposite turns back into the same bytes.

use cidhomba::interface::{narrow_rules, narrow_states, widen_rules, widen_states};
use cidhomba::MAX_SET_BYTES;
use compare::calls::written;
use compare::lent::Lent;
use generate::sets::Sizes;
use generate::{sets, Random};
use reference::examples::{set_b, set_d, set_e, set_g};
use reference::limits::MAX_NARROW_TAGS;
use reference::{check_automaton, Automaton, Form};

/// A move of the library.
type Move = fn(&[u8], &mut [u8]) -> u64;

/// The set that a move writes, in a space of just its length too.
fn moved(a_move: Move, set: &[u8]) -> Vec<u8> {
    let result = written(|out| a_move(set, out));
    let mut exact: Lent<u8> = Lent::of_length(result.len());
    assert_eq!(a_move(set, exact.space()), result.len() as u64);
    assert_eq!(exact.contents(), result);
    assert!(exact.guards_are_untouched());
    result
}

/// The bytes of a set after some moves, each of which must leave the automaton as it is.
fn after(moves: &[Move], set: &[u8]) -> Vec<u8> {
    let automaton = check_automaton(set).expect("a sound set");
    moves.iter().fold(set.to_vec(), |set, &a_move| {
        let result = moved(a_move, &set);
        assert_eq!(check_automaton(&result), Ok(automaton.clone()));
        result
    })
}

/// Goes from a set by some moves to the bytes expected, and back by their opposites.
fn there_and_back(set: &[u8], there: &[Move], result: &[u8], back: &[Move]) {
    assert_eq!(after(there, set), result, "there, from {set:?}");
    assert_eq!(after(back, result), set, "back, to {set:?}");
}

/// All ways between the forms that hold a set which forgets nothing.
fn every_way(set: &Automaton) {
    let [narrow, wide, isolating] = Form::ALL.map(|form| set.encode_in(form));
    there_and_back(&wide, &[widen_rules], &isolating, &[narrow_rules]);
    there_and_back(&isolating, &[narrow_rules], &wide, &[widen_rules]);
    if set.tag_count <= MAX_NARROW_TAGS {
        there_and_back(&narrow, &[widen_states], &wide, &[narrow_states]);
        there_and_back(&wide, &[narrow_states], &narrow, &[widen_states]);
        let (up, down): ([Move; 2], [Move; 2]) = ([widen_states, widen_rules], [narrow_rules, narrow_states]);
        there_and_back(&narrow, &up, &isolating, &down);
        there_and_back(&isolating, &down, &narrow, &up);
    }
}

#[test]
fn seeded_sets() {
    let (mut with_rules, mut without, mut with_many_tags) = (0, 0, 0);
    for seed in 0..8000 {
        let random = &mut Random::new(seed);
        let sizes = sets::any_sizes(random);
        let mut set = sets::automaton(random, &sizes);
        if random.percent(10) {
            set.rules.clear();
        }
        every_way(&set);
        *(if set.rules.is_empty() { &mut without } else { &mut with_rules }) += 1;
        with_many_tags += usize::from(set.tag_count > MAX_NARROW_TAGS);
    }
    let counts = [with_rules, without, with_many_tags];
    assert!(counts.iter().all(|&count| count > 500), "{counts:?}");
}

#[test]
fn the_examples() {
    [set_e(), set_g(), set_d(), set_b()].iter().for_each(every_way);
}

/// Without rules the moves of rules have nothing to do, and do nothing.
#[test]
fn sets_without_rules_stay_as_they_are() {
    for set in [set_e(), set_g(), set_d(), set_b()] {
        let wide = Automaton { rules: vec![], ..set }.encode_in(Form::Wide);
        for a_move in [widen_rules, narrow_rules] {
            assert_eq!(moved(a_move, &wide), wide);
        }
    }
}

/// All the way from 12,880 bytes to 15,184, and back.
#[test]
fn the_longest_set() {
    let sizes = Sizes { symbols: 64..=64, states: 256..=256, tags: 8..=8, rules: 1024..=1024 };
    let longest = sets::automaton(&mut Random::new(1), &sizes);
    assert_eq!(longest.encode_in(Form::Narrow).len(), 12_880);
    assert_eq!(longest.encode_in(Form::Isolating).len(), MAX_SET_BYTES);
    every_way(&longest);
}
