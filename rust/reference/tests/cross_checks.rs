//! Random sets and documents, judged in two unlike ways that must agree.

use generate::sets::{
    any_automaton, forget_some, forgetting_perhaps, layered, layered_over_symbols, many_tags_sizes,
    over_symbols, separate_tags, small_sizes, tiny_sizes, Sizes,
};
use generate::{documents, runs, trees, Random};
use reference::boolean::{multiplied, united};
use reference::brute_force::{self, lets_in, Tree};
use reference::membership::{all_annotations, judge};
use reference::run::{check_steps, run_cells};
use reference::{check_automaton, witness, Automaton, Document};

/// Most labellings that a test tries on one tree.
const MOST_LABELLINGS: usize = 20_000;

/// A tiny set, with many tags in one of four cases and often with tags to forget, and a document small enough for every
/// labelling to be tried.
fn small_case(seed: u64) -> Option<(Automaton, Document)> {
    let random = &mut Random::new(seed);
    let tags = if random.percent(25) { many_tags_sizes().tags } else { tiny_sizes().tags };
    let automaton = any_automaton(random, &Sizes { tags, ..tiny_sizes() });
    let document = documents::document(random, &automaton, 6)?;
    can_be_tried(&automaton, &document).then_some((automaton, document))
}

fn can_be_tried(automaton: &Automaton, document: &Document) -> bool {
    if document.levels() > 12 {
        return false;
    }
    let positions = Tree::of_row(document, document.last()).size();
    let labellings = automaton.states.len().checked_pow(positions as u32);
    labellings.is_some_and(|count| count <= MOST_LABELLINGS)
}

fn says_yes(automaton: &Automaton, document: &Document) -> bool {
    judge(automaton, document, usize::MAX).expect("no bound, no refusal").is_yes()
}

#[test]
fn annotations_and_decision_agree_with_all_labellings() {
    let (mut yes, mut no, mut with_memory) = (0, 0, 0);
    for (automaton, document) in (0..6000).filter_map(small_case) {
        let tree = Tree::of_row(&document, document.last());
        let expected = lets_in(&automaton, &tree);
        assert_eq!(says_yes(&automaton, &document), expected, "{automaton:?} {document:?}");
        let found = all_annotations(&automaton, &document);
        let expected_annotations = brute_force::annotations(&automaton, &document);
        assert_eq!(found, expected_annotations, "{automaton:?} {document:?}");
        *(if expected { &mut yes } else { &mut no }) += 1;
        with_memory += usize::from(found.iter().any(|a| a.memory.iter().any(Option::is_some)));
    }
    assert!(yes > 300 && no > 300 && with_memory > 300, "{yes} yes, {no} no, {with_memory} with memory");
}

#[test]
fn tags_decide_many_of_the_cases_tried() {
    let turned_down_by_tags = (0..6000)
        .filter_map(small_case)
        .filter(|(automaton, document)| {
            let mut untagged = automaton.clone();
            untagged.states.iter_mut().for_each(|state| state.tags = 0);
            says_yes(&untagged, document) && !says_yes(automaton, document)
        })
        .count();
    assert!(turned_down_by_tags > 30, "only {turned_down_by_tags} cases");
}

/// A tiny set in which most rules forget tags, and a document grown along them.
fn forgetting_case(seed: u64) -> Option<(Automaton, Document)> {
    let random = &mut Random::new(seed);
    let sizes = Sizes { symbols: 2..=4, tags: 1..=2, rules: 4..=14, ..tiny_sizes() };
    let mut automaton = generate::sets::automaton(random, &sizes);
    forget_some(random, &mut automaton);
    let document = documents::grown(random, &automaton, 8)?;
    can_be_tried(&automaton, &document).then_some((automaton, document))
}

#[test]
fn forgetting_agrees_with_all_labellings_and_lets_in_more() {
    let (mut by_forgetting, mut turned_down) = (0, 0);
    for (automaton, document) in (0..60_000).filter_map(forgetting_case) {
        let expected = lets_in(&automaton, &Tree::of_row(&document, document.last()));
        assert_eq!(says_yes(&automaton, &document), expected, "{automaton:?} {document:?}");
        let found = all_annotations(&automaton, &document);
        assert_eq!(found, brute_force::annotations(&automaton, &document), "{automaton:?} {document:?}");
        let mut remembering = automaton.clone();
        remembering.rules.iter_mut().for_each(|rule| rule.forgets = 0);
        let without = says_yes(&remembering, &document);
        assert!(expected || !without, "what is forgotten turns nothing away: {automaton:?} {document:?}");
        by_forgetting += usize::from(expected && !without);
        turned_down += usize::from(!expected);
    }
    assert!(by_forgetting > 100 && turned_down > 100, "{by_forgetting} let in, {turned_down} turned down");
}

#[test]
fn the_room_is_exactly_the_number_of_annotations() {
    for (automaton, document) in (0..2000).filter_map(small_case) {
        let count = all_annotations(&automaton, &document).len();
        let judgement = judge(&automaton, &document, count).expect("there is room for all");
        assert_eq!(judgement.annotations, count);
        if count > 0 {
            assert_eq!(judge(&automaton, &document, count - 1).unwrap_err().number, 31);
        }
    }
}

#[test]
fn a_run_handed_back_passes_the_check_and_is_no_longer_than_the_annotations() {
    let mut runs = 0;
    for seed in 0..4000 {
        let random = &mut Random::new(seed);
        let sizes = random.pick(&[small_sizes, small_sizes, many_tags_sizes])();
        let automaton = any_automaton(random, &sizes);
        let Some(document) = documents::document(random, &automaton, 20) else { continue };
        let Ok(judgement) = judge(&automaton, &document, 2000) else { continue };
        if let Some(run) = judgement.run {
            assert_eq!(check_steps(&automaton, &document, &run_cells(&run)), Ok(()));
            assert!(run.len() <= judgement.annotations);
            runs += 1;
        }
    }
    assert!(runs > 300, "only {runs} runs");
}

#[test]
fn a_run_that_passes_the_check_means_that_the_document_is_let_in() {
    let (mut passed, mut refused_where_let_in) = (0, 0);
    for seed in 0..8000 {
        let Some((automaton, document)) = small_case(seed) else { continue };
        let cells = runs::lent(&mut Random::new(!seed), &automaton, &document, 40);
        let tree = Tree::of_row(&document, document.last());
        match check_steps(&automaton, &document, &cells) {
            Ok(()) => {
                assert!(lets_in(&automaton, &tree), "{automaton:?} {document:?} {cells:?}");
                passed += 1;
            }
            Err(_) => refused_where_let_in += usize::from(lets_in(&automaton, &tree)),
        }
    }
    assert!(passed > 200 && refused_where_let_in > 100, "{passed} {refused_where_let_in}");
}

#[test]
fn union_and_product_mean_either_and_both() {
    let (mut both_yes, mut differing) = (0, 0);
    for seed in 0..6000 {
        let random = &mut Random::new(seed);
        let tags = random.pick(&[2, 2, 8]);
        let sizes = Sizes { states: 1..=2, tags: 0..=tags, ..tiny_sizes() };
        let first = any_automaton(random, &sizes);
        let second = over_symbols(random, &sizes, first.arities.clone());
        let second = forgetting_perhaps(random, second);
        let Some(document) = documents::document(random, &first, 5) else { continue };
        let (either, both) = (united(&first, &second), multiplied(&first, &second));
        if !can_be_tried(&either, &document) {
            continue;
        }
        let tree = Tree::of_row(&document, document.last());
        let (one, other) = (lets_in(&first, &tree), lets_in(&second, &tree));
        assert_eq!(lets_in(&either, &tree), one || other, "{first:?} {second:?} {document:?}");
        assert_eq!(lets_in(&both, &tree), one && other, "{first:?} {second:?} {document:?}");
        assert_eq!(says_yes(&either, &document), one || other);
        assert_eq!(says_yes(&both, &document), one && other);
        assert_eq!(check_automaton(&either.encode()), Ok(either));
        assert_eq!(check_automaton(&both.encode()), Ok(both));
        both_yes += usize::from(one && other);
        differing += usize::from(one != other);
    }
    assert!(both_yes > 100 && differing > 100, "{both_yes} both, {differing} differing");
}

/// The levels of the lowest tree, of at most three levels, that a set lets in.
fn lowest_tree_let_in(automaton: &Automaton, trees: &[Tree]) -> Option<usize> {
    trees.iter().filter(|tree| says_yes(automaton, &trees::table_of(tree))).map(Tree::height).min()
}

#[test]
fn no_tree_let_in_is_lower_than_the_sample() {
    let (mut seen_live, mut seen_dead, mut seen_high) = (0, 0, 0);
    for arities in [vec![2, 0, 0], vec![1, 2, 0], vec![1, 0, 0, 1]] {
        let trees = trees::all(&arities, 3);
        for seed in 0..400 {
            let random = &mut Random::new(seed);
            let sizes = Sizes { states: 1..=4, tags: 0..=3, rules: 0..=8, ..tiny_sizes() };
            let mut automaton = layered_over_symbols(random, &sizes, arities.clone());
            if random.percent(50) {
                automaton = over_symbols(random, &sizes, arities.clone());
                separate_tags(&mut automaton);
            }
            let automaton = forgetting_perhaps(random, automaton);
            let lowest = lowest_tree_let_in(&automaton, &trees);
            match witness(&automaton.encode(), 1000).expect("no state shares a tag") {
                None => {
                    assert_eq!(lowest, None, "{automaton:?}");
                    seen_dead += 1;
                }
                Some(sample) => {
                    assert!(says_yes(&automaton, &sample), "{automaton:?}");
                    assert_eq!(lowest, Some(sample.levels()).filter(|&levels| levels <= 3));
                    seen_live += 1;
                    seen_high += usize::from(sample.levels() == 3);
                }
            }
        }
    }
    assert!(seen_live > 100 && seen_dead > 100 && seen_high > 10, "{seen_live} {seen_dead} {seen_high}");
}

#[test]
fn a_sample_is_a_sound_table_in_first_finishing_order() {
    let mut with_shared_rows = 0;
    for seed in 0..3000 {
        let random = &mut Random::new(seed);
        let automaton = layered(random, &small_sizes());
        let automaton = forgetting_perhaps(random, automaton);
        let set = automaton.encode();
        let Some(sample) = witness(&set, 1000).expect("no state shares a tag") else { continue };
        assert!(reference::check_document(&set, &sample.cells()).is_ok());
        assert!(says_yes(&automaton, &sample), "{automaton:?}");
        let Ok(text) = reference::write_term(&set, b"", b"", &sample.cells(), 100_000) else { continue };
        assert_eq!(reference::read_term(&set, b"", b"", &text, 10_240), Ok(sample.clone()));
        with_shared_rows += usize::from(table_size(&sample) > sample.rows.len());
    }
    assert!(with_shared_rows > 100, "only {with_shared_rows}");
}

fn table_size(document: &Document) -> usize {
    Tree::of_row(document, document.last()).size()
}
