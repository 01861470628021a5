//! The library's check of a written run against the reference's.

use std::collections::BTreeMap;

use compare::answer::Answer;
use compare::calls::check_run as compare;
use compare::tally::{Tally, RUN, SET, TABLE};
use generate::{documents, rows, runs, set_bytes, sets, Random};
use reference::examples::{lists_of_equal_pairs, rule, set_b, set_e, set_g, state, CONS, NIL, P, X};
use reference::limits::{MAX_TAGS, STEP_CELLS, UNUSED};
use reference::membership::judge;
use reference::memory::{after_rule, join_all, Memory};
use reference::run::run_cells;
use reference::{Automaton, Document, Form, Row, Scalar, Step};

/// Sets of these sizes have runs checked.
const SIZES: [fn() -> sets::Sizes; 4] =
    [sets::tiny_sizes, sets::small_sizes, sets::tagged_sizes, sets::many_tags_sizes];

/// The rule and the row of a step, and the steps below it.
fn parts(step: &[u16]) -> (usize, usize, Vec<usize>) {
    let below = step[2..].iter().filter(|&&place| place != UNUSED).map(|&place| usize::from(place));
    (usize::from(step[0]), usize::from(step[1]), below.collect())
}

/// Where the first clash of a run with 24 is.
fn first_clash(automaton: &Automaton, run: &[u16]) -> &'static str {
    let mut memories: Vec<Memory> = Vec::new();
    for step in run.chunks_exact(STEP_CELLS) {
        let (rule, row, below) = parts(step);
        let Some(joined) = join_all(below.iter().map(|&step| &memories[step])) else {
            return "24, where memories are joined";
        };
        match after_rule(automaton, &automaton.rules[rule], row, &joined) {
            Some(memory) => memories.push(memory),
            None => return "24, where tags are added",
        }
    }
    panic!("no step clashes: {run:?}")
}

/// Whether a tag goes to two rows over all steps, which document 01 refused with 24.
fn has_two_rows_over_all_steps(automaton: &Automaton, run: &[u16]) -> bool {
    let mut row_of_tag = [None; MAX_TAGS];
    run.chunks_exact(STEP_CELLS).map(parts).any(|(rule, row, _)| {
        let mut tags = automaton.tags_of(automaton.rules[rule].target);
        tags.any(|tag| *row_of_tag[tag].get_or_insert(row) != row)
    })
}

/// What a run's memories have to do with its answer: where they clash, or that a tag goes to two rows and they do not.
fn by_memories(set: &[u8], run: &[u16], answer: Answer) -> Option<&'static str> {
    let number = answer.number();
    if !matches!(number, None | Some(24..=26)) {
        return None;
    }
    let automaton = reference::check_automaton(set).expect("a run is looked at behind its set");
    match number {
        Some(24) => Some(first_clash(&automaton, run)),
        _ if !has_two_rows_over_all_steps(&automaton, run) => None,
        Some(25) => Some("25, and no longer 24"),
        Some(26) => Some("26, and no longer 24"),
        _ => Some("passes, and a tag has two rows"),
    }
}

/// Sets of many tags, some of which forget, with runs that differ from sound ones by their memories, ends and uses alone.
#[test]
fn seeded_memories() {
    let mut tally = Tally::of("check_run, memories");
    let mut seen: BTreeMap<&str, usize> = BTreeMap::new();
    for seed in 0..60_000 {
        let random = &mut Random::new(seed);
        let automaton = match random.below(3) {
            0 => sets::automaton(random, &sets::tagged_sizes()),
            _ => sets::forgetful(random),
        };
        let Some(document) = documents::grown(random, &automaton, 20) else { continue };
        let run = runs::beside_each_other(random, &automaton, &document);
        let set = set_bytes::stored(random, &automaton, 0);
        let answer = compare(&set, &document.cells(), &run);
        tally.count(answer, |_| "passes");
        by_memories(&set, &run, answer).into_iter().for_each(|kind| *seen.entry(kind).or_default() += 1);
    }
    tally.must_reach(20_000, 200, &[23, 24, 25, 26], &["passes"]);
    println!("check_run, memories: {seen:?}");
    assert!(seen.len() == 5 && seen.values().all(|&count| count >= 200), "{seen:?}");
}

#[test]
fn seeded_runs() {
    let mut tally = Tally::of("check_run");
    for seed in 0..40_000 {
        let random = &mut Random::new(seed);
        let sizes = random.pick(&SIZES)();
        let automaton = sets::any_automaton(random, &sizes);
        let most = random.pick(&[2, 5, 12]);
        let Some(document) = documents::document(random, &automaton, most) else { continue };
        let run = runs::lent(random, &automaton, &document, 60);
        let set = set_bytes::stored(random, &automaton, 15);
        let table =
            if random.percent(20) { rows::damaged(random, &automaton, document) } else { document.cells() };
        tally.count(compare(&set, &table, &run), |_| "passes");
    }
    let numbers = [&SET[..], &TABLE, &RUN].concat();
    tally.must_reach(20_000, 200, &numbers, &["passes"]);
}

/// A row over others.
fn over(symbol: usize, children: &[usize]) -> Row {
    Row { symbol, children: children.to_vec(), scalar: Scalar::Bare }
}

/// A list of pairs of equal leaves, the pairs being different.
fn list_of_pairs(pairs: u64) -> Document {
    let mut rows = vec![over(NIL, &[])];
    for count in 0..pairs {
        let rest = rows.len() - 1;
        rows.push(Row { scalar: Scalar::Count(count), ..over(X, &[]) });
        rows.push(over(P, &[rest + 1, rest + 1]));
        rows.push(over(CONS, &[rest + 2, rest]));
    }
    Document { rows }
}

/// Sets of the examples with a document that each lets in, and the run that says so.
fn examples() -> Vec<(Automaton, Document, Vec<Step>)> {
    let leaf = |symbol| over(symbol, &[]);
    let documents = [
        (set_e(), vec![leaf(1), over(0, &[0, 0])]),
        (set_b(), vec![leaf(1), over(0, &[0, 0])]),
        (set_g(), vec![leaf(1), over(0, &[0]), over(0, &[1])]),
        (lists_of_equal_pairs(), list_of_pairs(2).rows),
    ];
    documents
        .into_iter()
        .map(|(set, rows)| {
            let document = Document { rows };
            let judgement = judge(&set, &document, 100).expect("enough room");
            (set, document, judgement.run.expect("let in"))
        })
        .collect()
}

#[test]
fn every_cell_of_the_examples() {
    let mut tally = Tally::of("check_run, cell by cell");
    for (set, document, run) in examples() {
        let (set, rows) = (set.encode(), document.cells());
        for run in [run.clone(), runs::unfolded(&run, 20)] {
            let sound = run_cells(&run);
            assert_eq!(compare(&set, &rows, &sound), Answer::Value(0));
            for at in 0..sound.len() {
                for value in (0..=20).chain([1023, 4095, 4096, 32_768, 65_534, 65_535]) {
                    let mut changed = sound.clone();
                    changed[at] = value;
                    tally.count(compare(&set, &rows, &changed), |_| "passes");
                }
            }
        }
    }
    tally.must_reach(2000, 1, &[22, 23, 26], &["passes"]);
}

#[test]
fn every_length_of_the_examples() {
    for (set, document, run) in examples() {
        let sound = run_cells(&run);
        for length in 0..=sound.len() {
            let number = compare(&set.encode(), &document.cells(), &sound[..length]).number();
            let is_whole = length > 0 && length % STEP_CELLS == 0;
            assert_eq!(number != Some(21), is_whole, "{length} cells");
        }
    }
}

/// A set that lets in every tree of a and f with four children, and a table of seven levels of it.
fn unfolding_case() -> (Automaton, Document) {
    let set = Automaton {
        arities: vec![4, 0],
        states: vec![state(true, 0)],
        tag_count: 0,
        rules: vec![rule(0, &[0, 0, 0, 0], 0), rule(1, &[], 0)],
    };
    let document = documents::chain(&set, 7).expect("there is a leaf");
    (set, document)
}

#[test]
fn steps_at_their_limit() {
    let (set, document) = unfolding_case();
    let judgement = judge(&set, &document, 100).expect("enough room");
    let shortest = judgement.run.expect("let in");
    for (steps, expected) in [(7, None), (8, None), (4095, None), (4096, None), (4097, Some(21))] {
        let run = runs::unfolded(&shortest, steps);
        assert_eq!(run.len(), steps);
        let answer = compare(&set.encode(), &document.cells(), &run_cells(&run));
        assert_eq!(answer.number(), expected, "{steps} steps");
    }
    let many = vec![0; 70_000 * STEP_CELLS];
    assert_eq!(compare(&set.encode(), &document.cells(), &many).number(), Some(21));
}

#[test]
fn a_run_without_rules_to_name() {
    let (mut set, document) = unfolding_case();
    set.rules.clear();
    let step = [0, 0, 65_535, 65_535, 65_535, 65_535];
    assert_eq!(compare(&set.encode(), &document.cells(), &step).number(), Some(22));
    assert_eq!(compare(&set.encode(), &document.cells(), &[]).number(), Some(21));
}

/// E with another tag, out of as many as a form can hold, instead of tag 0.
fn e_with_tag(tag: usize, form: Form) -> Automaton {
    let mut set = set_e();
    set.tag_count = form.most_tags();
    set.states[0].tags = 1 << tag;
    set
}

#[test]
fn each_tag_may_go_to_one_row() {
    let leaf = |count| Row { scalar: Scalar::Count(count), ..over(1, &[]) };
    let rows = Document { rows: vec![leaf(7), leaf(8), over(0, &[0, 1])] }.cells();
    let run = run_cells(&[step(1, 0, &[]), step(1, 1, &[]), step(0, 2, &[0, 1])]);
    for (form, tag) in
        Form::ALL.into_iter().flat_map(|form| (0..form.most_tags()).map(move |tag| (form, tag)))
    {
        let mut set = e_with_tag(tag, form);
        assert_eq!(compare(&set.encode_in(form), &rows, &run).number(), Some(24), "{form:?}, tag {tag}");
        set.states[0].tags = 0;
        assert_eq!(compare(&set.encode_in(form), &rows, &run).number(), None, "{form:?}, without tag {tag}");
    }
}

/// A step of a rule on a row, over lower steps.
fn step(rule: usize, row: usize, children: &[usize]) -> Step {
    Step { rule, row, children: children.to_vec() }
}

/// The number that a run is refused with, the same for the set in every form that holds it.
fn number(set: &Automaton, document: &Document, run: &[Step]) -> Option<u8> {
    let forms = Form::ALL.into_iter().filter(|&form| form >= set.shortest_form());
    let answers = forms.map(|form| compare(&set.encode_in(form), &document.cells(), &run_cells(run)));
    let numbers: Vec<Option<u8>> = answers.map(Answer::number).collect();
    assert!(numbers.iter().all(|number| *number == numbers[0]), "{numbers:?}");
    numbers[0]
}

#[test]
fn a_clash_is_found_in_the_step_that_sees_both_used_or_not() {
    // Two leaves a and b in the tagged state of E, and a pair of both.
    let document = Document { rows: vec![over(1, &[]), over(2, &[]), over(0, &[0, 1]), over(0, &[2, 2])] };
    let run = [step(1, 0, &[]), step(2, 1, &[]), step(0, 2, &[0, 1])];
    assert_eq!(number(&set_e(), &document, &run), Some(24));
    assert_eq!(number(&set_e(), &document, &run[..2]), Some(25), "no step sees the two together");
    assert_eq!(number(&set_e(), &document, &[step(1, 0, &[]), step(1, 0, &[])]), Some(25));
    let unused = [&run[..], &[step(1, 0, &[])]].concat();
    assert_eq!(number(&set_e(), &document, &unused), Some(24), "before 25 and 26");
    let mut forgetting = set_e();
    forgetting.rules[0].forgets = 1;
    assert_eq!(number(&forgetting, &document, &run), Some(24), "joining comes before dropping");
}

/// g/1 and a/0; state 0 is final and state 1 carries tag 0; rules g(0) to 0, g(0) to 1, a to 0, a to 1.
#[test]
fn steps_that_no_one_step_sees_together_do_not_clash() {
    let set = Automaton {
        arities: vec![1, 0],
        states: vec![state(true, 0), state(false, 1)],
        tag_count: 1,
        rules: vec![rule(0, &[0], 0), rule(0, &[0], 1), rule(1, &[], 0), rule(1, &[], 1)],
    };
    let document = documents::chain(&set, 3).expect("there is a leaf");
    let run = [step(2, 0, &[]), step(3, 0, &[]), step(1, 1, &[0]), step(0, 1, &[0]), step(0, 2, &[3])];
    assert_eq!(number(&set, &document, &run), Some(26));
    assert_eq!(number(&set, &document, &run[..3]), Some(25));
}

#[test]
fn a_clash_where_tags_are_added_is_24_unless_the_rule_forgets() {
    let document = documents::chain(&set_g(), 5).expect("G has a leaf");
    let run = [step(2, 0, &[]), step(0, 1, &[0]), step(1, 2, &[1]), step(0, 3, &[2]), step(1, 4, &[3])];
    assert_eq!(number(&set_g(), &document, &run), Some(24));
    for forgetting in [0, 1] {
        let mut set = set_g();
        set.rules[forgetting].forgets = 1;
        assert_eq!(number(&set, &document, &run), None, "rule {forgetting} forgets");
    }
    let mut too_late = set_g();
    too_late.rules[2].forgets = 1;
    assert_eq!(number(&too_late, &document, &run), Some(24));
}

/// Each of sixteen tags, forgotten or not, with every other one forgotten or not.
#[test]
fn each_tag_is_forgotten_by_its_own_bit() {
    let document = list_of_pairs(2);
    let run = examples().pop().expect("the list of pairs is the last").2;
    for tag in 0..MAX_TAGS {
        let mut set = lists_of_equal_pairs();
        set.tag_count = MAX_TAGS;
        set.states[0].tags = 1 << tag;
        for (forgets, expected) in [(0, Some(24)), (1 << tag, None), (0xffff, None), (!(1 << tag), Some(24))]
        {
            set.rules[0].forgets = forgets;
            assert_eq!(number(&set, &document, &run), expected, "tag {tag}, forgotten {forgets:016b}");
        }
    }
}

/// Lists of pairs, with steps shared and repeated.
#[test]
fn runs_that_forget_many_times() {
    let set = lists_of_equal_pairs();
    for pairs in [1, 2, 80] {
        let document = list_of_pairs(pairs);
        let judgement = judge(&set, &document, 1024).expect("an annotation a row");
        let run = judgement.run.expect("each pair is equal");
        assert_eq!(number(&set, &document, &run), None, "{pairs} pairs");
        assert_eq!(number(&set, &document, &runs::unfolded(&run, 4096)), None, "{pairs} pairs");
        let mut remembering = set.clone();
        remembering.rules[0].forgets = 0;
        let expected = if pairs > 1 { Some(24) } else { None };
        assert_eq!(number(&remembering, &document, &run), expected, "{pairs} pairs");
    }
}
