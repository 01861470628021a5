//! Document 02, Wish 10, sentence by sentence, with the settled readings: rules of 12 bytes to rules of 14 and back.

mod common;

use common::remembering;
use generate::sets::{any_automaton, any_sizes, automaton, tagged_sizes};
use generate::{documents, set_bytes, Random};
use reference::examples::{balanced_trees, lists_of_equal_pairs, rule, set_b, set_d, set_e, set_g, state};
use reference::limits::{ANNOTATION_CELLS, MAX_RULES, MAX_STATES, MAX_SYMBOLS, STEP_CELLS};
use reference::stored::check_with_form;
use reference::{
    check_automaton, membership, narrow_rules, narrow_states, widen_rules, widen_states, Automaton, Form,
    Refusal,
};

/// A move: a set and the length of the result space.
type Move = fn(&[u8], usize) -> Result<Vec<u8>, Refusal>;

/// The two moves of rules, each with the form that it starts from.
const MOVES_OF_RULES: [(Move, Form); 2] = [(widen_rules, Form::Wide), (narrow_rules, Form::Isolating)];

/// Space for every result.
const PLENTY: usize = 16_000;

/// The number of a refusal.
fn number<T>(answer: Result<T, Refusal>) -> Option<u8> {
    answer.err().map(|refusal| refusal.number)
}

/// A set without its rules.
fn without_rules(set: Automaton) -> Automaton {
    Automaton { rules: vec![], ..set }
}

/// A set with four states, so many tags, none of them carried, and so many rules.
fn of_counts(tag_count: usize, rules: usize) -> Automaton {
    let numbered = |number: usize| rule(0, &[number / 4, number % 4], 0);
    let rules = (0..rules).map(numbered).collect();
    Automaton { arities: vec![2, 0], states: vec![state(true, 0); 4], tag_count, rules }
}

// "Move a stored wide set from 12-byte to 14-byte rules with nothing forgotten, and back."

/// Document 01's E with 25 and 61 or 67 for the rules' offset and the total, three bytes for a state, and zeros behind
/// each rule or none.
#[test]
fn e_byte_for_byte() {
    let counts_and_offsets = [3, 0, 2, 0, 1, 0, 3, 0, 16, 0, 19, 0, 25, 0];
    let symbols_and_states = [2, 0, 0, 0, 1, 0, 1, 0, 0];
    let pair = [0, 0, 1, 0, 0, 0, 0, 0, 255, 255, 255, 255];
    let a = [1, 0, 0, 0, 255, 255, 255, 255, 255, 255, 255, 255];
    let b = [2, 0, 0, 0, 255, 255, 255, 255, 255, 255, 255, 255];
    let stored = |total: u8, forgets: &[u8]| {
        let front = [&counts_and_offsets[..], &[total, 0], &symbols_and_states].concat();
        [&front, &pair[..], forgets, &a, forgets, &b, forgets].concat()
    };
    let (short, long) = (stored(61, &[]), stored(67, &[0, 0]));
    assert_eq!((short.len(), long.len()), (61, 67));
    assert_eq!(widen_rules(&short, 67), Ok(long.clone()));
    assert_eq!(narrow_rules(&long, 61), Ok(short));
}

#[test]
fn the_longest_set() {
    let mut set = of_counts(16, 0);
    set.arities = [vec![2], vec![0; MAX_SYMBOLS - 1]].concat();
    set.states = vec![state(false, 0xffff); MAX_STATES];
    set.rules = (0..MAX_RULES).map(|number| rule(0, &[number / 256, number % 256], 255)).collect();
    let (short, long) = (set.encode_in(Form::Wide), set.encode_in(Form::Isolating));
    assert_eq!((short.len(), long.len()), (13_136, 15_184));
    assert_eq!(widen_rules(&short, 15_184), Ok(long.clone()));
    assert_eq!(number(widen_rules(&short, 15_183)), Some(53));
    assert_eq!(narrow_rules(&long, 13_136), Ok(short));
    assert_eq!(number(narrow_rules(&long, 13_135)), Some(53));
}

// "There and back gives the same bytes"

#[test]
fn there_and_back_gives_the_same_bytes() {
    for seed in 0..2000 {
        let random = &mut Random::new(seed);
        let sizes = any_sizes(random);
        let set = automaton(random, &sizes);
        for (form, there, back) in [
            (Form::Wide, widen_rules as Move, narrow_rules as Move),
            (Form::Isolating, narrow_rules, widen_rules),
        ] {
            let stored = set.encode_in(form);
            let moved = there(&stored, PLENTY).expect("nothing is forgotten");
            assert_eq!(moved == stored, set.rules.is_empty(), "seed {seed}");
            assert_eq!(back(&moved, stored.len()), Ok(stored), "seed {seed}");
        }
    }
}

/// All the way from one byte for a state's tags to rules of 14 bytes, and back.
#[test]
fn from_the_first_form_to_the_last_and_back() {
    let mut with_tags = 0;
    for seed in 0..2000 {
        let random = &mut Random::new(seed);
        let sizes = any_sizes(random);
        let set = automaton(random, &sizes);
        if set.tag_count > 8 {
            continue;
        }
        let [narrow, wide, isolating] = Form::ALL.map(|form| set.encode_in(form));
        assert_eq!(widen_states(&narrow, PLENTY), Ok(wide.clone()), "seed {seed}");
        assert_eq!(widen_rules(&wide, PLENTY), Ok(isolating.clone()), "seed {seed}");
        assert_eq!(narrow_rules(&isolating, PLENTY), Ok(wide.clone()), "seed {seed}");
        assert_eq!(narrow_states(&wide, PLENTY), Ok(narrow), "seed {seed}");
        with_tags += usize::from(set.tag_count > 0);
    }
    assert!(with_tags > 500, "only {with_tags} sets have tags");
}

// "and both forms let in the same documents."

#[test]
fn both_forms_are_one_automaton_which_forgets_nothing() {
    for seed in 0..2000 {
        let random = &mut Random::new(seed);
        let sizes = any_sizes(random);
        let set = automaton(random, &sizes);
        let long = widen_rules(&set.encode_in(Form::Wide), PLENTY).expect("the rules have 12 bytes");
        let told = if set.rules.is_empty() { Form::Wide } else { Form::Isolating };
        assert_eq!(check_with_form(&long), Ok((told, set.clone())), "seed {seed}");
        let short = narrow_rules(&long, PLENTY).expect("nothing is forgotten");
        assert_eq!(check_with_form(&short), Ok((Form::Wide, set)), "seed {seed}");
    }
}

#[test]
fn both_forms_let_in_the_same_documents() {
    let mut judgements = [0; 2];
    for seed in 0..1500 {
        let random = &mut Random::new(seed);
        let set = automaton(random, &tagged_sizes());
        let Some(table) = documents::grown(random, &set, 30) else { continue };
        let (short, rows) = (set.encode_in(Form::Wide), table.cells());
        let long = widen_rules(&short, PLENTY).expect("the rules have 12 bytes");
        let judged = |set: &[u8]| membership(set, &rows, ANNOTATION_CELLS * 500, STEP_CELLS * 500);
        assert_eq!(judged(&short), judged(&long), "seed {seed}");
        judged(&short).iter().for_each(|judgement| judgements[usize::from(judgement.is_yes())] += 1);
    }
    assert!(judgements.iter().all(|&count| count > 100), "{judgements:?} turned away and let in");
}

// "A set with no rules has the same bytes in both."

#[test]
fn a_wide_set_without_rules_is_taken_by_all_but_widening_its_states() {
    for (states, tag_count) in [(1, 0), (3, 8), (3, 9), (256, 16)] {
        let set = Automaton { states: vec![state(true, 0); states], ..of_counts(tag_count, 0) };
        let wide = set.encode_in(Form::Wide);
        for (move_of_rules, _) in MOVES_OF_RULES {
            assert_eq!(move_of_rules(&wide, wide.len()), Ok(wide.clone()));
            assert_eq!(number(move_of_rules(&wide, wide.len() - 1)), Some(53), "also where nothing changes");
        }
        assert_eq!(number(widen_states(&wide, PLENTY)), Some(18));
        assert_eq!(number(narrow_states(&wide, PLENTY)), (tag_count > 8).then_some(8));
    }
}

#[test]
fn a_narrow_set_is_18_with_rules_or_without() {
    for set in [set_e(), set_g(), set_d(), set_b()] {
        for set in [set.clone(), without_rules(set)] {
            for (move_of_rules, _) in MOVES_OF_RULES {
                assert_eq!(number(move_of_rules(&set.encode_in(Form::Narrow), PLENTY)), Some(18));
            }
        }
    }
}

// "(18 serves all four moves; going back with a forgotten tag: 10, after 18; space too short: 53, last.)"

#[test]
fn each_move_takes_the_form_that_it_starts_from() {
    let moves: [(Move, Form); 4] = [
        (widen_states, Form::Narrow),
        (narrow_states, Form::Wide),
        (widen_rules, Form::Wide),
        (narrow_rules, Form::Isolating),
    ];
    for set in [set_e(), set_g(), set_d(), set_b()] {
        for (a_move, start) in moves {
            for form in Form::ALL {
                let expected = (form != start).then_some(18);
                assert_eq!(number(a_move(&set.encode_in(form), PLENTY)), expected, "{form:?}");
            }
        }
    }
}

#[test]
fn a_forgotten_tag_is_10_in_whichever_rule_it_stands() {
    for (place, tag) in (0..5).flat_map(|place| (0..16).map(move |tag| (place, tag))) {
        let mut set = of_counts(16, 5);
        set.rules[place].forgets = 1 << tag;
        let stored = set.encode_in(Form::Isolating);
        for space in [0, PLENTY] {
            assert_eq!(number(narrow_rules(&stored, space)), Some(10), "rule {place}, tag {tag}");
            assert_eq!(number(widen_rules(&stored, space)), Some(18), "10 is no number of widening");
        }
        set.tag_count = tag;
        let strange = set.encode_in(Form::Isolating);
        assert_eq!(number(narrow_rules(&strange, PLENTY)), Some(9), "rule {place}, tag {tag} of {tag}");
    }
}

#[test]
fn the_sets_that_forget_cannot_go_back() {
    for set in [lists_of_equal_pairs(), balanced_trees()] {
        assert_eq!(number(narrow_rules(&set.encode(), PLENTY)), Some(10));
        let remembering = remembering(set);
        let answer = narrow_rules(&remembering.encode_in(Form::Isolating), PLENTY);
        assert_eq!(answer, Ok(remembering.encode_in(Form::Wide)));
    }
}

/// No state carries the tag, or the rule has no children whose memory could hold it; the mask counts all the same.
#[test]
fn a_mask_without_an_effect_is_10() {
    let mut nothing_carried = Automaton { tag_count: 1, ..set_b() };
    nothing_carried.rules[0].forgets = 1;
    let mut at_a_leaf = set_e();
    at_a_leaf.rules[2].forgets = 1;
    for set in [nothing_carried, at_a_leaf] {
        assert_eq!(number(narrow_rules(&set.encode(), PLENTY)), Some(10));
    }
}

#[test]
fn every_space() {
    let (short, long) = (set_e().encode_in(Form::Wide), set_e().encode_in(Form::Isolating));
    for space in 0..=80 {
        assert_eq!(number(widen_rules(&short, space)), (space < 67).then_some(53), "space {space}");
        assert_eq!(number(narrow_rules(&long, space)), (space < 61).then_some(53), "space {space}");
    }
}

/// A rule with a known tag to forget before or behind one with a tag that the set does not have: 9 first.
#[test]
fn the_order_of_numbers() {
    let (mut known_first, mut known_last) = (set_e(), set_e());
    (known_first.rules[0].forgets, known_first.rules[2].forgets) = (1, 2);
    (known_last.rules[0].forgets, known_last.rules[2].forgets) = (2, 1);
    let mut unsorted = known_first.clone();
    unsorted.rules.swap(1, 2);
    for space in [0, 60, PLENTY] {
        let of = |a_move: Move, set: &Automaton, form| number(a_move(&set.encode_in(form), space));
        for (move_of_rules, _) in MOVES_OF_RULES {
            assert_eq!(of(move_of_rules, &unsorted, Form::Narrow), Some(7), "7 before 18");
            assert_eq!(of(move_of_rules, &unsorted, Form::Wide), Some(7), "7 before 18 and 53");
            assert_eq!(of(move_of_rules, &unsorted, Form::Isolating), Some(7), "7 before 9, 18 and 10");
            assert_eq!(of(move_of_rules, &known_first, Form::Isolating), Some(9), "9 before 18 and 10");
            assert_eq!(of(move_of_rules, &known_last, Form::Isolating), Some(9), "9 before 18 and 10");
            assert_eq!(of(move_of_rules, &set_e(), Form::Narrow), Some(18), "18 before 53");
        }
        assert_eq!(of(widen_rules, &set_e(), Form::Isolating), Some(18), "18 before 53");
        assert_eq!(of(narrow_rules, &set_e(), Form::Wide), Some(18), "18 before 53");
        assert_eq!(of(narrow_rules, &lists_of_equal_pairs(), Form::Isolating), Some(10), "10 before 53");
    }
}

/// 8 is no number of the moves of rules.
#[test]
fn every_number_of_tags_is_moved() {
    for tag_count in 0..=16 {
        for (move_of_rules, start) in MOVES_OF_RULES {
            let set = of_counts(tag_count, 3);
            assert_eq!(number(move_of_rules(&set.encode_in(start), PLENTY)), None, "{tag_count} tags");
        }
    }
}

#[test]
fn a_set_that_is_refused_has_the_same_number_for_all_moves() {
    let mut refused = [0; 10];
    for seed in 0..8000 {
        let random = &mut Random::new(seed);
        let sizes = any_sizes(random);
        let set = any_automaton(random, &sizes);
        let bytes = set_bytes::stored(random, &set, 90);
        let Err(refusal) = check_automaton(&bytes) else { continue };
        for a_move in [widen_states, narrow_states, widen_rules, narrow_rules] {
            assert_eq!(a_move(&bytes, random.pick(&[0, PLENTY])), Err(refusal), "seed {seed}");
        }
        refused[usize::from(refusal.number)] += 1;
    }
    let of_a_set = [1, 2, 3, 4, 5, 6, 7, 9];
    assert!(of_a_set.iter().all(|&number| refused[number] > 50), "{refused:?}");
}
