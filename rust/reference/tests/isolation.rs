//! Document 02, Wish 9, on what sets mean that forget tags, with the settled readings and the examples of source document
//! 000.

mod common;

use common::{document, is_let_in, judge_with_room, remembering, ROW_SPACE};
use generate::sets::{automaton, forget_some, tagged_sizes};
use generate::{trees, Random};
use reference::boolean::{multiplied, united};
use reference::brute_force::Tree;
use reference::examples::{balanced_trees, doubled_lists, lists_of_equal_pairs, rule, set_e, set_g, state};
use reference::membership::judge;
use reference::run::run_cells;
use reference::{check_run, sample_program, witness, Automaton, Refusal, Step};

// "Take in isolation from source document 000: a rule may name tags to forget."

/// A list of elements, as text over cons (s1) and nil (s2).
fn list(elements: &[String]) -> String {
    elements.iter().rev().fold("s2".to_string(), |rest, element| format!("s1({element},{rest})"))
}

/// A list of pairs p(x,y).
fn pairs_of(pairs: &[(u64, u64)]) -> String {
    let pair = |(x, y): &(u64, u64)| format!("s0(s3={x},s3={y})");
    list(&pairs.iter().map(pair).collect::<Vec<String>>())
}

#[test]
fn lists_of_equal_pairs_are_let_in_each_pair_with_its_own_part() {
    for pairs in [&[][..], &[(1, 1)], &[(1, 1), (2, 2)], &[(1, 1), (2, 2), (1, 1), (9, 9)]] {
        assert!(is_let_in(&lists_of_equal_pairs(), &pairs_of(pairs)), "{pairs:?}");
    }
    let many: Vec<(u64, u64)> = (0..200).map(|x| (x, x)).collect();
    assert!(is_let_in(&lists_of_equal_pairs(), &pairs_of(&many)));
    assert!(!is_let_in(&remembering(lists_of_equal_pairs()), &pairs_of(&[(1, 1), (2, 2)])));
    assert!(is_let_in(&remembering(lists_of_equal_pairs()), &pairs_of(&[(1, 1), (1, 1)])));
}

/// "The formula printed there is too weak: it would let `p` in its own first example hold two unequal parts."
#[test]
fn a_pair_of_two_unequal_parts_is_turned_away() {
    for pairs in [&[(1, 2)][..], &[(1, 1), (2, 3)], &[(1, 2), (3, 3)], &[(1, 2), (2, 1)]] {
        assert!(!is_let_in(&lists_of_equal_pairs(), &pairs_of(pairs)), "{pairs:?}");
    }
    let mut one_of_many: Vec<(u64, u64)> = (0..200).map(|x| (x, x)).collect();
    one_of_many[77].1 = 1000;
    assert!(!is_let_in(&lists_of_equal_pairs(), &pairs_of(&one_of_many)));
}

/// A list of leaves x.
fn elements(elements: &[u64]) -> String {
    list(&elements.iter().map(|x| format!("s3={x}")).collect::<Vec<String>>())
}

#[test]
fn doubled_lists_are_let_in() {
    for (list, expected) in [
        (&[][..], true),
        (&[1, 1], true),
        (&[1, 1, 2, 2], true),
        (&[1, 1, 1, 1], true),
        (&[1, 1, 2, 2, 1, 1], true),
        (&[1], false),
        (&[1, 2], false),
        (&[1, 1, 2], false),
        (&[1, 2, 2], false),
        (&[1, 2, 2, 1], false),
        (&[1, 1, 2, 3], false),
    ] {
        assert_eq!(is_let_in(&doubled_lists(), &elements(list)), expected, "{list:?}");
    }
    assert!(!is_let_in(&remembering(doubled_lists()), &elements(&[1, 1, 2, 2])));
}

/// Source document 000, section 3, language D': every third element is the same in the whole list, and the two behind it
/// are equal to each other.
#[test]
fn one_tag_is_forgotten_and_another_is_not() {
    let set = Automaton {
        arities: vec![2, 2, 0, 0],
        states: vec![state(false, 1), state(false, 2), state(true, 0), state(false, 0), state(false, 0)],
        tag_count: 2,
        rules: vec![
            rule(1, &[0, 4], 2),
            rule(1, &[1, 2], 3),
            rule(1, &[1, 3], 4).forgetting(2),
            rule(2, &[], 2),
            rule(3, &[], 0),
            rule(3, &[], 1),
        ],
    };
    for (list, expected) in [
        (&[][..], true),
        (&[0, 1, 1], true),
        (&[0, 1, 1, 0, 2, 2], true),
        (&[0, 1, 1, 0, 2, 2, 0, 1, 1], true),
        (&[0, 1, 1, 3, 2, 2], false),
        (&[0, 1, 1, 0, 2, 3], false),
        (&[0, 1, 1, 0], false),
    ] {
        assert_eq!(is_let_in(&set, &elements(list)), expected, "{list:?}");
    }
}

/// Source document 000, section 6, language B.
#[test]
fn of_all_binary_trees_the_balanced_ones_are_let_in() {
    fn is_balanced(tree: &Tree) -> bool {
        tree.children.windows(2).all(|pair| pair[0] == pair[1]) && tree.children.iter().all(is_balanced)
    }
    let mut balanced = 0;
    for tree in trees::all(&[2, 0], 5) {
        let judgement = judge(&balanced_trees(), &trees::table_of(&tree), usize::MAX).expect("no bound");
        assert_eq!(judgement.is_yes(), is_balanced(&tree), "{tree:?}");
        balanced += usize::from(judgement.is_yes());
    }
    assert_eq!(balanced, 5, "one of each height");
}

// "The rule is: the children's memories joined must give each tag one row; then the named tags are dropped; then the
// target's tags are added, and again each tag has one row."

/// f/2 and a/0 to one state, which is final and carries tag 0.
fn one_state() -> Automaton {
    Automaton {
        arities: vec![2, 0],
        states: vec![state(true, 1)],
        tag_count: 1,
        rules: vec![rule(0, &[0, 0], 0).forgetting(1), rule(1, &[], 0)],
    }
}

#[test]
fn a_target_may_carry_a_tag_that_its_rule_forgets() {
    assert!(is_let_in(&one_state(), "s1"));
    assert!(is_let_in(&one_state(), "s0(s1,s1)"));
    assert!(!is_let_in(&one_state(), "s0(s0(s1,s1),s1)"), "the two children carry the tag");
    assert!(is_let_in(&one_state(), "s0(s0(s1,s1),s0(s1,s1))"));
    assert!(!is_let_in(&remembering(one_state()), "s0(s1,s1)"));
}

#[test]
fn only_the_named_tags_are_dropped() {
    let mut set = lists_of_equal_pairs();
    set.tag_count = 16;
    for tag in 0..16 {
        set.states[0].tags = 1 << tag;
        for forgets in (0..16).map(|forgotten| 1 << forgotten).chain([0, 0xffff, !(1 << tag)]) {
            set.rules[0].forgets = forgets;
            let expected = forgets >> tag & 1 == 1;
            let found = is_let_in(&set, &pairs_of(&[(1, 1), (2, 2)]));
            assert_eq!(found, expected, "tag {tag}, forgotten {forgets:016b}");
        }
    }
}

#[test]
fn annotations_are_counted_after_forgetting() {
    // a to 1 or 2, which carry tags 0 and 1; g over either to 0. With both forgotten there is one annotation of g(a).
    let set = |forgets| Automaton {
        arities: vec![1, 0],
        states: vec![state(true, 0), state(false, 1), state(false, 2)],
        tag_count: 2,
        rules: vec![
            rule(0, &[1], 0).forgetting(forgets),
            rule(0, &[2], 0).forgetting(forgets),
            rule(1, &[], 1),
            rule(1, &[], 2),
        ],
    };
    for (forgets, annotations) in [(0, 4), (1, 4), (2, 4), (3, 3)] {
        let set = set(forgets);
        let table = document(&set, "s0(s1)");
        let judgement = judge_with_room(&set, &table, annotations).expect("there is room");
        assert!(judgement.is_yes());
        assert_eq!(judgement.annotations, annotations, "forgets {forgets}");
        let refused = judge_with_room(&set, &table, annotations - 1);
        assert_eq!(refused, Err(Refusal::plain(31)), "forgets {forgets}");
    }
}

// "The run check now works out memories step by step, 24 meaning a clash at any step."

/// The number that a run on a text's table is refused with.
fn run_number(set: &Automaton, text: &str, steps: &[(usize, usize, &[usize])]) -> Option<u8> {
    let rows = document(set, text).cells();
    let step =
        |&(rule, row, children): &(usize, usize, &[usize])| Step { rule, row, children: children.to_vec() };
    let run: Vec<Step> = steps.iter().map(step).collect();
    check_run(&set.encode(), &rows, &run_cells(&run)).err().map(|refusal| refusal.number)
}

/// g/1 and a/0; state 0 is final and state 1 carries tag 0; rules g(0) to 0, g(0) to 1, a to 0, a to 1.
fn chain_set() -> Automaton {
    Automaton {
        arities: vec![1, 0],
        states: vec![state(true, 0), state(false, 1)],
        tag_count: 1,
        rules: vec![rule(0, &[0], 0), rule(0, &[0], 1), rule(1, &[], 0), rule(1, &[], 1)],
    }
}

#[test]
fn two_steps_that_no_one_step_sees_together_do_not_clash() {
    let steps: [(usize, usize, &[usize]); 5] =
        [(2, 0, &[]), (3, 0, &[]), (1, 1, &[0]), (0, 1, &[0]), (0, 2, &[3])];
    assert_eq!(run_number(&chain_set(), "s0(s0(s1))", &steps), Some(26));
    assert_eq!(run_number(&chain_set(), "s0(s0(s1))", &steps[..3]), Some(25));
    assert_eq!(run_number(&set_e(), "s0(s1,s2)", &[(1, 0, &[]), (2, 1, &[])]), Some(25));
}

#[test]
fn a_clash_where_memories_are_joined_is_24() {
    let leaves = [(1, 0, &[][..]), (2, 1, &[])];
    let run = [&leaves[..], &[(0, 2, &[0, 1])]].concat();
    assert_eq!(run_number(&set_e(), "s0(s1,s2)", &run), Some(24));
    let mut forgetting = set_e();
    forgetting.rules[0].forgets = 1;
    assert_eq!(run_number(&forgetting, "s0(s1,s2)", &run), Some(24), "joining comes before dropping");
}

#[test]
fn a_clash_where_tags_are_added_is_24() {
    let run: [(usize, usize, &[usize]); 5] =
        [(2, 0, &[]), (0, 1, &[0]), (1, 2, &[1]), (0, 3, &[2]), (1, 4, &[3])];
    let fourfold = "s0(s0(s0(s0(s1))))";
    assert_eq!(run_number(&set_g(), fourfold, &run), Some(24));
    let mut forgetting = set_g();
    forgetting.rules[1].forgets = 1;
    assert_eq!(run_number(&forgetting, fourfold, &run), None, "the row below is forgotten on the way");
    let mut at_the_step = set_g();
    at_the_step.rules[0].forgets = 1;
    assert_eq!(run_number(&at_the_step, fourfold, &run), None, "dropping comes before adding");
}

#[test]
fn a_clash_in_a_step_that_no_other_uses_is_24_before_25_and_26() {
    // pair(pair(a,b),pair(a,b)): the pair on row 2 clashes, and nothing stands on it.
    let steps: [(usize, usize, &[usize]); 3] = [(1, 0, &[]), (2, 1, &[]), (0, 2, &[0, 1])];
    assert_eq!(run_number(&set_e(), "s0(s0(s1,s2),s0(s1,s2))", &steps), Some(24));
    let mut any = set_e();
    any.rules =
        vec![rule(0, &[0, 0], 1), rule(0, &[1, 1], 1), rule(1, &[], 0), rule(2, &[], 0), rule(2, &[], 1)];
    let unused: [(usize, usize, &[usize]); 4] = [(2, 0, &[]), (3, 1, &[]), (0, 2, &[0, 1]), (4, 1, &[])];
    assert_eq!(run_number(&any, "s0(s0(s1,s2),s0(s1,s2))", &unused), Some(24));
}

#[test]
fn a_step_may_be_seen_by_two_others_of_which_one_forgets() {
    // x=1 in the pair twice, and the list's two pairs over one step each.
    let (set, text) = (lists_of_equal_pairs(), pairs_of(&[(1, 1), (2, 2)]));
    let run: [(usize, usize, &[usize]); 7] = [
        (3, 0, &[]),
        (0, 1, &[0, 0]),
        (3, 2, &[]),
        (0, 3, &[2, 2]),
        (2, 4, &[]),
        (1, 5, &[3, 4]),
        (1, 6, &[1, 5]),
    ];
    assert_eq!(run_number(&set, &text, &run), None);
    assert_eq!(run_number(&remembering(set), &text, &run), Some(24));
}

// "A product rule forgets every tag that either of its two rules forgets, the second's shifted; with tags this stays exact
// for membership." What the union's rules forget is shifted as the tags of its states are.

#[test]
fn masks_of_unions_and_products() {
    let set = |tag_count, forgets| Automaton {
        arities: vec![2, 0],
        states: vec![state(true, 0)],
        tag_count,
        rules: vec![rule(0, &[0, 0], 0).forgetting(forgets), rule(1, &[], 0)],
    };
    for (first, second, shifted) in
        [(1, 1, 2), (3, 5, 0x80), (8, 8, 0x8000), (15, 1, 0x8000), (0, 16, 0x8000)]
    {
        let own = if first == 0 { 0 } else { 1 };
        let (one, other) = (set(first, own), set(second, 1 << (second - 1)));
        let either = united(&one, &other);
        assert_eq!([&either.rules[0], &either.rules[1]].map(|rule| rule.forgets), [own, shifted]);
        assert_eq!(multiplied(&one, &other).rules[0].forgets, own | shifted);
        assert_eq!(multiplied(&one, &other).rules[1].forgets, 0);
    }
    let all = multiplied(&set(16, 0xffff), &set(0, 0));
    assert_eq!(all.rules[0].forgets, 0xffff, "nothing is left of a mask that is shifted by 16");
}

#[test]
fn pairs_and_doubled_lists_joined_and_demanded_together() {
    let (pairs, doubled) = (lists_of_equal_pairs(), doubled_lists());
    let (either, both) = (united(&pairs, &doubled), multiplied(&pairs, &doubled));
    for text in [
        pairs_of(&[]),
        pairs_of(&[(1, 1), (2, 2)]),
        pairs_of(&[(1, 2)]),
        elements(&[1, 1, 2, 2]),
        elements(&[1, 2]),
    ] {
        let (one, other) = (is_let_in(&pairs, &text), is_let_in(&doubled, &text));
        assert_eq!(is_let_in(&either, &text), one || other, "{text}");
        assert_eq!(is_let_in(&both, &text), one && other, "{text}");
    }
}

// "Samples ignore forgetting, .., and the dead-or-sample promise holds for these sets too."

#[test]
fn samples_are_those_of_the_set_that_forgets_nothing() {
    let (mut live, mut shared) = (0, 0);
    for seed in 0..2000 {
        let random = &mut Random::new(seed);
        let mut set = automaton(random, &tagged_sizes());
        let expected = witness(&set.encode(), ROW_SPACE);
        forget_some(random, &mut set);
        assert_eq!(witness(&set.encode(), ROW_SPACE), expected, "seed {seed}");
        assert_eq!(sample_program(&set.encode()), sample_program(&remembering(set).encode()), "seed {seed}");
        live += usize::from(matches!(expected, Ok(Some(_))));
        shared += usize::from(expected == Err(Refusal::plain(41)));
    }
    assert!(live > 200 && shared > 200, "{live} live, {shared} with a shared tag");
    assert_eq!(
        witness(&lists_of_equal_pairs().encode(), 30).map(|sample| sample.map(|s| s.rows.len())),
        Ok(Some(1))
    );
}
