//! The library's judging against the reference's, with the run handed back and both spaces.

use cidhomba::interface::membership;
use compare::answer::Answer;
use compare::calls::membership as compare;
use compare::tally::{Tally, SET, TABLE};
use generate::example_files::file;
use generate::paired_list::{paired_list, paired_list_set};
use generate::wide_export::{wide_export, wide_set, PARTS};
use generate::{documents, rows, set_bytes, sets, Random};
use reference::boolean::multiplied;
use reference::examples::{
    balanced_trees, doubled_lists, lists_of_equal_pairs, rule, set_b, set_d, set_e, set_g, state,
};
use reference::limits::{ANNOTATION_CELLS, MAX_ROOM, MAX_ROWS, ROW_CELLS, STEP_CELLS};
use reference::{Automaton, Document, Row, Scalar, MINUS_ZERO};

fn kind(value: u64) -> &'static str {
    if value == 0 {
        "no"
    } else {
        "yes"
    }
}

/// Room for so many annotations and run space for as many steps, neither with a cell to spare.
fn compare_with_room(automaton: &Automaton, document: &Document, room: usize) -> Answer {
    let (work, run) = (ANNOTATION_CELLS * room, STEP_CELLS * room);
    compare(&automaton.encode(), &document.cells(), work, run)
}

/// A room near the number of annotations, or any.
fn telling_room(random: &mut Random, automaton: &Automaton, document: &Document) -> usize {
    const ENOUGH: usize = 400;
    let count = match reference::membership::judge(automaton, document, ENOUGH) {
        Ok(judgement) => judgement.annotations,
        Err(_) => ENOUGH,
    };
    random.pick(&[count, count, count + 1, count.saturating_sub(1), count / 2, 0, 30])
}

/// Sets of these sizes are judged.
const SIZES: [fn() -> sets::Sizes; 5] =
    [sets::tiny_sizes, sets::small_sizes, sets::tagged_sizes, sets::many_tags_sizes, sets::medium_sizes];

#[test]
fn seeded_documents() {
    let mut tally = Tally::of("membership");
    for seed in 0..30_000 {
        let random = &mut Random::new(seed);
        let sizes = random.pick(&SIZES)();
        let automaton = sets::any_automaton(random, &sizes);
        let most = random.pick(&[1, 4, 8, 16, 30]);
        let Some(document) = documents::document(random, &automaton, most) else { continue };
        let room = telling_room(random, &automaton, &document);
        let work = ANNOTATION_CELLS * room + random.pick(&[0, 1, 31]);
        let run = STEP_CELLS * room + random.pick(&[0, 0, 1, 5, 6, 40]);
        let run = if random.percent(10) { random.below(run + 1) } else { run };
        let set = set_bytes::stored(random, &automaton, 12);
        let table =
            if random.percent(20) { rows::damaged(random, &automaton, document) } else { document.cells() };
        tally.count(compare(&set, &table, work, run), kind);
    }
    let numbers = [&SET[..], &TABLE, &[32, 31]].concat();
    tally.must_reach(20_000, 200, &numbers, &["yes", "no"]);
}

/// Whether a set lets the document in, whatever the room.
fn is_let_in(automaton: &Automaton, document: &Document) -> bool {
    let judgement = reference::membership::judge(automaton, document, usize::MAX);
    judgement.expect("no bound, no refusal").is_yes()
}

/// Whether the set would let the document in if no state had a tag.
fn is_let_in_without_tags(automaton: &Automaton, document: &Document) -> bool {
    let mut untagged = automaton.clone();
    untagged.states.iter_mut().for_each(|state| state.tags = 0);
    is_let_in(&untagged, document)
}

/// Whether the set would let the document in if it forgot nothing.
fn is_let_in_without_forgetting(automaton: &Automaton, document: &Document) -> bool {
    let mut remembering = automaton.clone();
    remembering.rules.iter_mut().for_each(|rule| rule.forgets = 0);
    is_let_in(&remembering, document)
}

#[test]
fn documents_grown_along_the_rules() {
    let mut tally = Tally::of("membership, grown documents");
    for seed in 0..9000 {
        let random = &mut Random::new(seed);
        let sizes = random.pick(&[sets::tagged_sizes, sets::many_tags_sizes])();
        let automaton = sets::automaton(random, &sizes);
        let Some(document) = documents::grown(random, &automaton, 60) else { continue };
        let room = random.pick(&[20, 500, 500]);
        let answer = compare_with_room(&automaton, &document, room);
        let turned_down = answer == Answer::Value(0) && is_let_in_without_tags(&automaton, &document);
        tally.count(answer, |value| if turned_down { "no, by its tags" } else { kind(value) });
    }
    tally.must_reach(2000, 200, &[31], &["yes", "no, by its tags"]);
}

#[test]
fn documents_grown_along_rules_that_forget() {
    let mut tally = Tally::of("membership, rules that forget");
    for seed in 0..20_000 {
        let random = &mut Random::new(seed);
        let automaton = sets::forgetful(random);
        let Some(document) = documents::grown(random, &automaton, 40) else { continue };
        let room = random.pick(&[20, 300, 300]);
        let answer = compare_with_room(&automaton, &document, room);
        let kind = match answer {
            Answer::Value(0) if is_let_in_without_tags(&automaton, &document) => "no, by its tags",
            Answer::Value(1..) if !is_let_in_without_forgetting(&automaton, &document) => {
                "yes, by forgetting"
            }
            Answer::Value(value) => kind(value),
            _ => "refused",
        };
        tally.count(answer, |_| kind);
    }
    tally.must_reach(4000, 200, &[31], &["yes", "yes, by forgetting", "no, by its tags"]);
}

/// A pair over one or two leaves of symbol 1, for the examples.
fn example_document(scalars: &[Scalar]) -> Document {
    let leaves = scalars.iter().map(|&scalar| Row { symbol: 1, children: vec![], scalar });
    let pair = Row { symbol: 0, children: vec![0, scalars.len() - 1], scalar: Scalar::Bare };
    Document { rows: leaves.chain([pair]).collect() }
}

#[test]
fn the_examples_with_every_room_and_run_space() {
    let equal = example_document(&[Scalar::Count(7)]);
    let unequal = example_document(&[Scalar::Count(7), Scalar::Count(8)]);
    let zeros = example_document(&[Scalar::Rate(0), Scalar::Rate(MINUS_ZERO)]);
    let one_zero = example_document(&[Scalar::Rate(0)]);
    let next_rate = example_document(&[Scalar::Rate(0), Scalar::Rate(MINUS_ZERO + 1)]);
    for set in [set_e(), set_b(), set_d()] {
        for document in [&equal, &unequal, &zeros, &one_zero, &next_rate] {
            for work in 0..=140 {
                for run in [0, 5, 6, 11, 12, 17, 18, 23, 24, 30] {
                    compare(&set.encode(), &document.cells(), work, run);
                }
            }
        }
    }
    assert_eq!(compare_with_room(&set_e(), &equal, 2), Answer::Value(2));
    assert_eq!(compare_with_room(&set_e(), &equal, 1).number(), Some(31));
    assert_eq!(compare_with_room(&set_e(), &unequal, 9), Answer::Value(0));
    assert_eq!(compare_with_room(&set_e(), &zeros, 9).number(), Some(14));
    assert_eq!(compare_with_room(&set_e(), &one_zero, 9), Answer::Value(2));
    assert_eq!(compare_with_room(&set_e(), &next_rate, 9), Answer::Value(0));
    assert_eq!(compare_with_room(&set_b(), &equal, 3), Answer::Value(3));
    assert_eq!(compare_with_room(&set_d(), &equal, 0), Answer::Value(0));
}

/// As a table the two zeros are refused, and as text they are one row; all other rates are judged by their bits.
#[test]
fn loads_of_either_sign() {
    for bits in [0, 1, 1.5f64.to_bits(), f64::INFINITY.to_bits(), f64::NAN.to_bits(), u64::MAX >> 1] {
        let loads = [bits, bits | MINUS_ZERO].map(Scalar::Rate);
        let (as_a_table, as_text) = if bits == 0 { (Some(14), 2) } else { (None, 0) };
        let answer = compare_with_room(&set_e(), &example_document(&loads), 9);
        assert_eq!(answer.number(), as_a_table, "{bits:016x}");
        let text = format!("s0(s1~{bits:016x},s1~{:016x})", bits | MINUS_ZERO);
        let read = reference::read_term(&set_e().encode(), b"", b"", text.as_bytes(), 3 * ROW_CELLS);
        let answer = compare_with_room(&set_e(), &read.expect("a sound text"), 9);
        assert_eq!(answer, Answer::Value(as_text), "{text}");
    }
}

/// Source document 000, with every room up to one that is enough: P, D and B, and lists that each turns away.
#[test]
fn the_examples_that_forget_with_every_room() {
    let pair = |x: usize, y: usize| format!("s0(s3={x},s3={y})");
    let list = |parts: &[String]| {
        parts.iter().rev().fold("s2".to_string(), |rest, part| format!("s1({part},{rest})"))
    };
    let elements = |numbers: &[usize]| list(&numbers.iter().map(|x| format!("s3={x}")).collect::<Vec<_>>());
    let (pairs, doubled, balanced) = (lists_of_equal_pairs(), doubled_lists(), balanced_trees());
    for (set, text, is_yes) in [
        (&pairs, list(&[]), true),
        (&pairs, list(&[pair(1, 1), pair(2, 2), pair(1, 1)]), true),
        (&pairs, list(&[pair(1, 1), pair(2, 3)]), false),
        (&pairs, pair(1, 1), false),
        (&doubled, elements(&[1, 1, 2, 2, 1, 1]), true),
        (&doubled, elements(&[1, 1, 2]), false),
        (&doubled, elements(&[1, 2, 2, 1]), false),
        (&balanced, "s0(s0(s1,s1),s0(s1,s1))".to_string(), true),
        (&balanced, "s0(s0(s1,s1),s1)".to_string(), false),
        (&balanced, "s0(s1=1,s1=2)".to_string(), false),
    ] {
        let read = reference::read_term(&set.encode(), b"", b"", text.as_bytes(), ROW_CELLS * 40);
        let document = read.expect("a sound text");
        for room in 0..30 {
            compare_with_room(set, &document, room);
        }
        let last = compare_with_room(set, &document, 30);
        assert_eq!(matches!(last, Answer::Value(1..)), is_yes, "{text}");
        assert_eq!(last.number(), None, "{text}");
    }
}

/// a in two states that carry a tag each, and g over either; what g forgets is no part of its annotations.
#[test]
fn annotations_are_counted_after_forgetting() {
    for (forgets, annotations) in [(0, 4), (1, 4), (2, 4), (3, 3)] {
        let set = Automaton {
            arities: vec![1, 0],
            states: vec![state(true, 0), state(false, 1), state(false, 2)],
            tag_count: 2,
            rules: vec![
                rule(0, &[1], 0).forgetting(forgets),
                rule(0, &[2], 0).forgetting(forgets),
                rule(1, &[], 1),
                rule(1, &[], 2),
            ],
        };
        let document = documents::chain(&set, 2).expect("there is a leaf");
        assert_eq!(compare_with_room(&set, &document, annotations), Answer::Value(2), "forgets {forgets}");
        assert_eq!(compare_with_room(&set, &document, annotations - 1).number(), Some(31));
    }
}

/// The exports of `examples/json` whose servers stand in pairs, with the set that forgets and with the one that does not.
#[test]
fn paired_servers() {
    let keys = file("json/paired.keys");
    for (set, export, is_yes) in [
        ("paired", "paired", true),
        ("paired", "paired-mixed", false),
        ("paired", "paired-odd", false),
        ("paired-strict", "paired", false),
    ] {
        let read = reference::read_json(&keys, &file(&format!("json/{export}.json")), ROW_CELLS * MAX_ROWS);
        let (set, rows) = (file(&format!("json/{set}.set")), read.expect("an export is read").cells());
        let answer = compare(&set, &rows, ANNOTATION_CELLS * MAX_ROWS, STEP_CELLS * MAX_ROWS);
        assert_eq!(matches!(answer, Answer::Value(1..)), is_yes, "{export}");
    }
}

/// As many pairs as a table holds, and each of them mixed once.
#[test]
fn long_lists_of_paired_servers() {
    let set = paired_list_set();
    for pairs in [1, 40, 200, 204] {
        let list = paired_list(pairs, None);
        let rows = list.rows.len();
        assert_eq!(compare_with_room(&set, &list, rows), Answer::Value(rows as u64), "{pairs} pairs");
        assert_eq!(compare_with_room(&set, &list, rows - 1).number(), Some(31), "{pairs} pairs");
    }
    for mixed in 0..40 {
        let answer = compare_with_room(&set, &paired_list(40, Some(mixed)), MAX_ROWS);
        assert_eq!(answer, Answer::Value(0), "pair {mixed}");
    }
}

/// A target may carry a tag that its rule forgets, since dropping comes before adding.
#[test]
fn a_tag_is_dropped_before_it_is_added() {
    let set = Automaton {
        arities: vec![2, 0],
        states: vec![state(true, 1)],
        tag_count: 1,
        rules: vec![rule(0, &[0, 0], 0).forgetting(1), rule(1, &[], 0)],
    };
    for (text, expected) in [("s0(s1,s1)", 2), ("s0(s0(s1,s1),s1)", 0), ("s0(s0(s1,s1),s0(s1,s1))", 3)] {
        let read = reference::read_term(&set.encode(), b"", b"", text.as_bytes(), ROW_CELLS * 9);
        let answer = compare_with_room(&set, &read.expect("a sound text"), 9);
        assert_eq!(answer, Answer::Value(expected), "{text}");
    }
}

#[test]
fn chains_of_g() {
    for levels in 1..=20 {
        let document = documents::chain(&set_g(), levels).expect("G has a leaf");
        let answer = compare_with_room(&set_g(), &document, 100);
        let is_yes = answer != Answer::Value(0);
        assert_eq!(is_yes, levels == 1 || levels == 3, "{levels} levels");
    }
}

/// Symbols f/4 and a/0 in four states each and b/0 in five, so that annotations can be counted.
fn counting_set() -> Automaton {
    let f = (0..4).map(|target| rule(0, &[0, 0, 0, 0], target));
    let a = (0..4).map(|target| rule(1, &[], target));
    let b = (0..5).map(|target| rule(2, &[], target));
    Automaton {
        arities: vec![4, 0, 0],
        states: vec![state(true, 0); 5],
        tag_count: 0,
        rules: f.chain(a).chain(b).collect(),
    }
}

#[test]
fn annotations_at_their_limit() {
    let set = counting_set();
    let mut document = documents::broad(&mut Random::new(11), &set, 1024).expect("there are leaves");
    assert_eq!(document.rows.len(), 1024);
    let yes = compare_with_room(&set, &document, MAX_ROOM);
    assert!(matches!(yes, Answer::Value(steps) if steps > 0));
    assert_eq!(compare_with_room(&set, &document, MAX_ROOM - 1).number(), Some(31));
    // Work space past 4,096 annotations makes no more room and asks for no longer run space.
    let (set_bytes, cells) = (set.encode(), document.cells());
    let (work, run) = (ANNOTATION_CELLS * (MAX_ROOM + 9) + 5, STEP_CELLS * MAX_ROOM);
    assert!(matches!(compare(&set_bytes, &cells, work, run), Answer::Value(steps) if steps > 0));
    assert_eq!(compare(&set_bytes, &cells, work, run - 1).number(), Some(32));
    document.rows[0].symbol = 2;
    assert_eq!(compare(&set_bytes, &document.cells(), work, run).number(), Some(31));
}

/// A set at all limits: g in 256 states one after the other, and a leaf in each of them.
#[test]
fn a_set_and_a_document_at_the_limits() {
    let mut rules: Vec<_> = (0..256).map(|from| rule(0, &[from], (from + 1) % 256)).collect();
    rules.extend((0..256).map(|from| rule(1, &[from, from], (from + 7) % 256)));
    rules.extend((0..256).map(|from| rule(2, &[from, from, from, from], from)));
    rules.extend((0..256).map(|target| rule(3, &[], target)));
    let set = Automaton {
        arities: vec![1, 2, 4, 0],
        states: (0..256).map(|number| state(number == 200, 0)).collect(),
        tag_count: 16,
        rules,
    };
    assert_eq!(set.rules.len(), 1024);
    let document = documents::broad(&mut Random::new(2), &set, 16).expect("there are leaves");
    assert!(matches!(compare_with_room(&set, &document, MAX_ROOM), Answer::Value(steps) if steps > 0));
    let longer = documents::broad(&mut Random::new(2), &set, 17).expect("there are leaves");
    assert_eq!(compare_with_room(&set, &longer, MAX_ROOM).number(), Some(31));
}

#[test]
fn a_chain_of_256_levels_with_tags() {
    // Each g may carry tag 0 or not; at most one row can, so there is an annotation for each choice.
    let set = Automaton {
        arities: vec![1, 0],
        states: vec![state(false, 0), state(true, 1)],
        tag_count: 1,
        rules: vec![rule(0, &[0], 0), rule(0, &[0], 1), rule(0, &[1], 0), rule(1, &[], 0)],
    };
    let document = documents::chain(&set, 30).expect("there is a leaf");
    assert!(matches!(compare_with_room(&set, &document, 1000), Answer::Value(30)));
    let document = documents::chain(&set, 256).expect("there is a leaf");
    assert_eq!(compare_with_room(&set, &document, MAX_ROOM).number(), Some(31));
}

/// Sixteen parts of each server must be those of the others, and each has a tag of its own.
#[test]
fn all_sixteen_tags_decide() {
    let set = wide_set();
    for servers in [1, 2, 20, 59] {
        let export = wide_export(servers, None);
        let rows = export.rows.len();
        assert_eq!(compare_with_room(&set, &export, rows), Answer::Value(rows as u64), "{servers} servers");
        assert_eq!(compare_with_room(&set, &export, rows - 1).number(), Some(31), "{servers} servers");
    }
    for part in 0..PARTS {
        let export = wide_export(3, Some(part));
        assert_eq!(compare_with_room(&set, &export, 100), Answer::Value(0), "part {part}");
        let mut without = set.clone();
        without.states.iter_mut().for_each(|state| state.tags &= !(1 << part));
        assert!(matches!(compare_with_room(&without, &export, 100), Answer::Value(steps) if steps > 0));
    }
}

/// A chain in which each row may carry a tag of its own or not, so that every set of tags is remembered on its last row.
#[test]
fn memories_of_many_tags() {
    for (tags, free) in [(8, 8), (11, 11), (16, 10)] {
        let set = sets::of_choices(tags, free);
        let document = documents::chain(&set, tags).expect("there is a leaf");
        let annotations = tags - free + (2 << free) - 2;
        let yes = compare_with_room(&set, &document, annotations);
        assert_eq!(yes, Answer::Value(tags as u64), "{tags} tags");
        assert_eq!(compare_with_room(&set, &document, annotations - 1).number(), Some(31), "{tags} tags");
    }
}

/// Document 01, "Three traps on the way": the product with a tag for each of its tagged states.
#[test]
fn tagging_product_states_one_by_one_would_let_unequal_leaves_in() {
    let unequal = example_document(&[Scalar::Count(1), Scalar::Count(2)]);
    let both = multiplied(&set_e(), &set_b());
    assert_eq!(compare_with_room(&both, &unequal, 9), Answer::Value(0));
    let equal = example_document(&[Scalar::Bare]);
    assert_eq!(compare_with_room(&both, &equal, 9), Answer::Value(3));
    let mut one_by_one = both.clone();
    one_by_one.tag_count = 0;
    for state in one_by_one.states.iter_mut().filter(|state| state.tags != 0) {
        state.tags = 1 << one_by_one.tag_count;
        one_by_one.tag_count += 1;
    }
    assert_eq!(compare_with_room(&one_by_one, &unequal, 9), Answer::Value(3));
}

/// The second trap: the run of B has two steps on row 0, and with either one alone there is no run.
#[test]
fn one_state_per_row_would_lose_the_pair_of_b() {
    let document = example_document(&[Scalar::Bare]);
    let (mut work, mut run) = ([7; 3 * ANNOTATION_CELLS], [7; 3 * STEP_CELLS]);
    let (set, rows) = (set_b().encode(), document.cells());
    let answer = Answer::of_library(membership(&set, &rows, &mut work, &mut run));
    assert_eq!(answer, Answer::Value(3));
    assert_eq!(run.chunks(STEP_CELLS).filter(|step| step[1] == 0).count(), 2);
    for dropped in [1, 2] {
        let mut one_state = set_b();
        one_state.rules.remove(dropped);
        assert_eq!(compare_with_room(&one_state, &document, 9), Answer::Value(0));
    }
}

/// The third trap: in G the rows that must be equal lie below each other.
#[test]
fn comparing_only_siblings_would_let_the_fourfold_g_in() {
    let fold = |times: usize| documents::chain(&set_g(), times + 1).expect("G has a leaf");
    assert_eq!(compare_with_room(&set_g(), &fold(2), 9), Answer::Value(3));
    assert_eq!(compare_with_room(&set_g(), &fold(4), 9), Answer::Value(0));
}
