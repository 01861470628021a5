//! The library's dead or live with a sample against the reference's.

use cidhomba::interface::witness;
use compare::answer::Answer;
use compare::case::{Case, Expected, Input};
use compare::lent::Lent;
use compare::tally::{Tally, SET};
use generate::{set_bytes, sets, Random};
use reference::examples::{rule, set_b, set_d, set_e, set_g, state};
use reference::limits::ROW_CELLS;
use reference::{Automaton, Document, Form};

/// Compares one call with a row space of so many cells, and answers what both answered.
fn compare(set: &[u8], row_cells: usize) -> Answer {
    let inputs = [("set", Input::Set(set)), ("rows", Input::Space(row_cells))];
    let mut rows = Lent::of_length(row_cells);
    let library = Answer::of_library(witness(set, rows.space()));
    let sample = reference::witness(set, row_cells);
    let written = sample.as_ref().ok().and_then(Option::as_ref).map(Document::cells);
    let reference = Answer::of_reference(sample.map(|sample| sample.map_or(0, as_value)));
    let expected = Expected::Exactly(reference);
    let case = Case { function: "witness", inputs: &inputs, library, expected };
    case.same_answer();
    case.same_space("rows", &rows, &rows.with_front(&written.unwrap_or_default()));
    reference
}

/// Rows and levels in one value, as the C interface answers them.
fn as_value(sample: Document) -> usize {
    sample.rows.len() + 65_536 * sample.levels()
}

fn kind(value: u64) -> &'static str {
    match value / 65_536 {
        0 => "dead",
        1 | 2 => "live",
        _ => "live with three or more levels",
    }
}

fn some_set(random: &mut Random) -> Automaton {
    let sizes = sets::any_sizes(random);
    let set = match random.below(10) {
        0..=4 => sets::layered(random, &sizes),
        5..=7 => sets::with_own_tags(random, &sizes),
        _ => sets::automaton(random, &sizes),
    };
    sets::forgetting_perhaps(random, set)
}

#[test]
fn seeded_sets() {
    let mut tally = Tally::of("witness");
    for seed in 0..25_000 {
        let random = &mut Random::new(seed);
        let automaton = some_set(random);
        let exact = ROW_CELLS * automaton.states.len();
        let space = exact + random.pick(&[0, 0, 1, 9, 10, 100]);
        let space = if random.percent(10) { random.below(exact) } else { space };
        let set = set_bytes::stored(random, &automaton, 20);
        tally.count(compare(&set, space), kind);
    }
    let numbers = [&SET[..], &[42, 41]].concat();
    let kinds = ["dead", "live", "live with three or more levels"];
    tally.must_reach(20_000, 200, &numbers, &kinds);
}

#[test]
fn the_examples_with_every_space() {
    for (set, rows, levels) in [(set_e(), 2, 2), (set_g(), 1, 1), (set_d(), 0, 0), (set_b(), 2, 2)] {
        for space in 0..=ROW_CELLS * (set.states.len() + 2) {
            for answer in Form::ALL.map(|form| compare(&set.encode_in(form), space)) {
                if space < ROW_CELLS * set.states.len() {
                    assert_eq!(answer.number(), Some(42));
                } else {
                    assert_eq!(answer, Answer::Value(rows + 65_536 * levels));
                }
            }
        }
    }
}

/// What rules forget changes no sample: it is that of the set that forgets nothing, refusals included.
#[test]
fn samples_ignore_forgetting() {
    let mut tally = Tally::of("witness, rules that forget");
    for seed in 0..9000 {
        let random = &mut Random::new(seed);
        let sizes = random.pick(&[sets::small_sizes, sets::tagged_sizes, sets::many_tags_sizes])();
        let make = random.pick(&[sets::layered, sets::with_own_tags, sets::automaton]);
        let mut set = make(random, &sizes);
        let (space, plain) = (ROW_CELLS * set.states.len(), set.encode());
        sets::forget_some(random, &mut set);
        let answer = compare(&set.encode(), space);
        assert_eq!(answer, compare(&plain, space), "seed {seed}");
        tally.count(answer, kind);
    }
    tally.must_reach(6000, 200, &[41], &["dead", "live", "live with three or more levels"]);
}

/// Each state over two of the one before, so that the tree doubles 255 times; states counted up or down.
fn doubling_set(number: fn(usize) -> usize) -> Automaton {
    let mut rules: Vec<_> =
        (0..255).map(|below| rule(0, &[number(below), number(below)], number(below + 1))).collect();
    rules.push(rule(1, &[], number(0)));
    rules.sort();
    let is_final = |state: usize| state == number(255);
    Automaton {
        arities: vec![2, 0],
        states: (0..256).map(|number| state(is_final(number), 0)).collect(),
        tag_count: 0,
        rules,
    }
}

#[test]
fn a_sample_that_doubles_at_each_level_is_answered_at_once() {
    for number in [|layer| layer, |layer: usize| 255 - layer] {
        let set = doubling_set(number).encode();
        assert_eq!(compare(&set, 2560), Answer::Value(256 + 65_536 * 256));
        assert_eq!(compare(&set, 2559).number(), Some(42));
    }
}

#[test]
fn a_set_of_1024_rules_that_needs_256_rounds() {
    let mut rules = doubling_set(|layer| layer).rules;
    rules.extend((0..255).map(|below| rule(0, &[below + 1, below + 1], below)));
    rules.extend((0..255).map(|below| rule(0, &[below, 255], below)));
    rules.extend((0..255).map(|below| rule(0, &[255, below], 255 - below)));
    rules.sort();
    rules.dedup();
    let set = Automaton { rules, ..doubling_set(|layer| layer) };
    assert!(set.rules.len() > 1000);
    assert_eq!(compare(&set.encode(), 2560), Answer::Value(256 + 65_536 * 256));
}

#[test]
fn the_final_state_marked_first_counts_and_the_lowest_on_a_tie() {
    // Leaves a, b and c lead to states 3, 2 and 1; g leads on to 0. All but 3 are final.
    let set = Automaton {
        arities: vec![1, 0, 0, 0],
        states: vec![state(true, 0), state(true, 0), state(true, 0), state(false, 0)],
        tag_count: 0,
        rules: vec![rule(0, &[3], 0), rule(1, &[], 3), rule(2, &[], 2), rule(3, &[], 1)],
    };
    assert_eq!(compare(&set.encode(), 40), Answer::Value(1 + 65_536));
}

#[test]
fn the_first_rule_in_stored_order_builds_the_tree() {
    // Both f(0,1) and g(1) lead to the final state in round 2; f comes first. States 0 and 1 have
    // equal trees, which are one row.
    let set = Automaton {
        arities: vec![2, 1, 0],
        states: vec![state(false, 1), state(false, 2), state(true, 4)],
        tag_count: 3,
        rules: vec![rule(0, &[0, 1], 2), rule(1, &[1], 2), rule(2, &[], 0), rule(2, &[], 1)],
    };
    assert_eq!(compare(&set.encode(), 30), Answer::Value(2 + 65_536 * 2));
}

#[test]
fn a_shared_tag_is_found_wherever_it_stands() {
    for (tag_count, tag) in [8, 16].into_iter().flat_map(|count| (0..count).map(move |tag| (count, tag))) {
        for (one, other) in [(0, 1), (0, 255), (127, 128), (254, 255)] {
            let mut set = doubling_set(|layer| layer);
            set.tag_count = tag_count;
            set.states[one].tags = 1 << tag;
            assert_eq!(compare(&set.encode(), 2560), Answer::Value(256 + 65_536 * 256));
            set.states[other].tags = ((1u32 << tag_count) - 1) as u16;
            assert_eq!(compare(&set.encode(), 2560).number(), Some(41), "tag {tag} on {one}, {other}");
        }
    }
}
