//! The library's functions held against each other, on what they mean: what one writes, the others judge.

use cidhomba::*;
use generate::sets::{
    forgetting_perhaps, layered, layered_over_symbols, over_symbols, separate_tags, tiny_sizes,
    with_own_tags, Sizes,
};
use generate::{documents, set_bytes, sets, trees, Random};
use reference::examples::{set_b, set_e};
use reference::{Automaton, Document, Row, Scalar};

/// Whether a set lets a table in, by a run that passes the check; nothing where the room is too small.
fn judged(set: &[u8], rows: &[u16]) -> Option<bool> {
    let (mut work, mut run) = (vec![0; ANNOTATION_CELLS * MAX_ROOM], vec![0; STEP_CELLS * MAX_ROOM]);
    match membership(set, rows, &mut work, &mut run) {
        Ok(Judgement::Yes(run)) => {
            assert_eq!(check_run(set, rows, run), Ok(()));
            Some(true)
        }
        Ok(Judgement::No) => Some(false),
        Err(refusal) => {
            assert_eq!(refusal.reason, Reason::NoRoom, "{refusal}");
            None
        }
    }
}

#[test]
fn union_and_product_mean_either_and_both() {
    let mut seen = [[0; 2]; 2];
    for seed in 0..6000 {
        let random = &mut Random::new(seed);
        let tags = random.pick(&[4, 8]);
        let sizes = Sizes { states: 1..=6, tags: 0..=tags, rules: 4..=40, ..sets::small_sizes() };
        let first = sets::any_automaton(random, &sizes);
        let second = over_symbols(random, &sizes, first.arities.clone());
        let second = forgetting_perhaps(random, second);
        let Some(document) = documents::document(random, &first, 12) else { continue };
        let [first, second] = [first, second].map(|set| set_bytes::stored(random, &set, 0));
        let rows = document.cells();
        let (mut either, mut both) = (vec![0; MAX_SET_BYTES], vec![0; MAX_SET_BYTES]);
        let either = union(&first, &second, &mut either).expect("within the limits");
        let Ok(both) = product(&first, &second, &mut both) else { continue };
        assert_eq!((check_automaton(either), check_automaton(both)), (Ok(()), Ok(())));
        let answers = [&first[..], &second, either, both].map(|set| judged(set, &rows));
        let [Some(one), Some(other), Some(either), Some(both)] = answers else { continue };
        assert_eq!((either, both), (one || other, one && other), "seed {seed}");
        seen[usize::from(one)][usize::from(other)] += 1;
    }
    assert!(seen.iter().flatten().all(|&count| count > 100), "{seen:?}");
}

#[test]
fn tags_keep_the_product_of_e_and_b_exact() {
    let mut out = vec![0; MAX_SET_BYTES];
    let both = product(&set_e().encode(), &set_b().encode(), &mut out).expect("within the limits");
    let pair = |left: u64, right: u64| {
        let leaf = |count| Row { symbol: 1, children: vec![], scalar: Scalar::Count(count) };
        let over = Row { symbol: 0, children: vec![0, 1], scalar: Scalar::Bare };
        let mut rows = vec![leaf(left), leaf(right), over];
        if left == right {
            rows.remove(1);
            rows[1].children = vec![0, 0];
        }
        Document { rows }.cells()
    };
    assert_eq!(judged(both, &pair(1, 2)), Some(false));
    assert_eq!(judged(both, &pair(1, 1)), Some(true));
    let mut rows = vec![0; ROW_CELLS * MAX_STATES];
    assert_eq!(witness(both, &mut rows).map_err(|refusal| refusal.reason), Err(Reason::TagShared));
}

#[test]
fn a_lowest_document_is_sound_and_let_in() {
    let (mut live, mut dead, mut refused) = (0, 0, 0);
    for seed in 0..5000 {
        let random = &mut Random::new(seed);
        let sizes = random.pick(&[sets::small_sizes, sets::medium_sizes, sets::largest_sizes])();
        let automaton = random.pick(&[layered, with_own_tags])(random, &sizes);
        let automaton = forgetting_perhaps(random, automaton);
        let (set, mut rows) = (set_bytes::stored(random, &automaton, 0), vec![0; ROW_CELLS * MAX_STATES]);
        match witness(&set, &mut rows) {
            Ok(Witness::Live { rows, .. }) => {
                assert_eq!(check_document(&set, rows), Ok(()), "seed {seed}");
                match judged(&set, rows) {
                    Some(answer) => assert!(answer, "seed {seed}"),
                    None => refused += 1,
                }
                live += 1;
            }
            Ok(Witness::Dead) => {
                let document = documents::document(random, &automaton, 12);
                let answer = document.and_then(|document| judged(&set, &document.cells()));
                assert_ne!(answer, Some(true), "seed {seed}");
                dead += 1;
            }
            Err(refusal) => panic!("seed {seed}: {refusal}"),
        }
    }
    assert!(live > 1000 && dead > 200 && live > 10 * refused, "{live} live, {dead} dead, {refused} refused");
}

/// The levels of the lowest of some trees that a set lets in.
fn lowest_let_in(set: &Automaton, trees: &[(usize, Vec<u16>)]) -> Option<usize> {
    let set = set.encode();
    let let_in = |rows: &[u16]| judged(&set, rows).expect("small trees have few annotations");
    trees.iter().filter(|(_, rows)| let_in(rows)).map(|(levels, _)| *levels).min()
}

#[test]
fn no_tree_let_in_is_lower_than_the_lowest_document() {
    let (mut live, mut dead, mut high) = (0, 0, 0);
    for arities in [vec![2, 0, 0], vec![1, 2, 0], vec![1, 0, 0, 1]] {
        let tables: Vec<(usize, Vec<u16>)> = trees::all(&arities, 3)
            .iter()
            .map(|tree| (tree.height(), trees::table_of(tree).cells()))
            .collect();
        for seed in 0..120 {
            let random = &mut Random::new(seed);
            let sizes = Sizes { states: 1..=4, tags: 0..=3, rules: 0..=8, ..tiny_sizes() };
            let mut automaton = layered_over_symbols(random, &sizes, arities.clone());
            if random.percent(50) {
                automaton = over_symbols(random, &sizes, arities.clone());
                separate_tags(&mut automaton);
            }
            let automaton = forgetting_perhaps(random, automaton);
            let lowest = lowest_let_in(&automaton, &tables);
            let mut rows = vec![0; ROW_CELLS * MAX_STATES];
            match witness(&automaton.encode(), &mut rows).expect("no state shares a tag") {
                Witness::Dead => {
                    assert_eq!(lowest, None, "{automaton:?}");
                    dead += 1;
                }
                Witness::Live { levels, .. } => {
                    assert_eq!(lowest, Some(levels).filter(|&levels| levels <= 3), "{automaton:?}");
                    live += 1;
                    high += usize::from(levels == 3);
                }
            }
        }
    }
    assert!(live > 30 && dead > 30 && high > 3, "{live} live, {dead} dead, {high} of three levels");
}
