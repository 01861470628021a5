//! The Rust that the library is measured against answers as the reference does, refusals included.

use bench::baseline;
use generate::crowded_leaves::{crowded_document, crowded_set};
use generate::paired_list::{paired_list, paired_list_set};
use generate::picked_leaves::{picked_document, picking_set, Root};
use generate::wide_export::{wide_export, wide_set, PARTS};
use generate::{
    documents, json_export, json_lists, json_texts, lists, meeting, pairs, rows, set_bytes, sets, texts,
    towers, Random,
};
use reference::limits::{ANNOTATION_CELLS, MAX_ROWS, ROW_CELLS, STEP_CELLS};
use reference::{check_names, Automaton, Document, Form, Refusal};

const SEEDS: u64 = 3000;

fn number(refusal: Refusal) -> u8 {
    refusal.number
}

fn number_and_place(refusal: Refusal) -> (u8, usize) {
    (refusal.number, refusal.place.unwrap_or(0))
}

#[test]
fn sets_and_tables() {
    for seed in 0..SEEDS {
        let random = &mut Random::new(seed);
        let sizes = random.pick(&[sets::small_sizes, sets::many_tags_sizes])();
        let automaton = sets::any_automaton(random, &sizes);
        let table = rows::lent(random, &automaton, 30, 70);
        let set = set_bytes::stored(random, &automaton, 50);
        let found = baseline::set::read(&set).and_then(|set| baseline::table::read(&set, &table));
        let expected = reference::check_document(&set, &table);
        assert_eq!(found.map(|_| ()), expected.map(|_| ()).map_err(number), "seed {seed}");
    }
}

/// Sets in all forms, most of them damaged: each number of a set comes often.
#[test]
fn sets_in_all_forms() {
    let mut refused = [0; 10];
    for seed in 0..4 * SEEDS {
        let random = &mut Random::new(seed);
        let sizes = sets::any_sizes(random);
        let automaton = sets::any_automaton(random, &sizes);
        let set = set_bytes::stored(random, &automaton, 85);
        let expected = reference::check_automaton(&set).map_err(number).err();
        assert_eq!(baseline::set::read(&set).err(), expected, "seed {seed}");
        expected.into_iter().for_each(|number| refused[usize::from(number)] += 1);
    }
    assert!([1, 2, 3, 4, 5, 6, 7, 9].iter().all(|&number| refused[number] > 200), "{refused:?}");
}

/// Zeros of either sign in text, and the one that may not stand in a row in tables.
#[test]
fn zeros() {
    let mut with_a_sign = 0;
    for seed in 0..SEEDS {
        let random = &mut Random::new(seed);
        let automaton = sets::automaton(random, &sets::small_sizes());
        let (set, space) = (automaton.encode(), ROW_CELLS * MAX_ROWS);
        let names = check_names(b"", b"", automaton.arities.len()).expect("empty lists are sound");
        let Some(text) = texts::of_loads(random, &automaton, &names) else { continue };
        let document = reference::read_term(&set, b"", b"", &text, space).expect("a sound text");
        assert_eq!(baseline::term::read(&set, b"", b"", &text, space), Ok(document.cells()), "seed {seed}");
        with_a_sign += usize::from(text.windows(17).any(|bytes| bytes == b"~8000000000000000"));
        let table = rows::with_minus_zero(random, &document);
        let found = baseline::set::read(&set).and_then(|set| baseline::table::read(&set, &table));
        assert_eq!(found.err(), Some(14), "seed {seed}");
        assert_eq!(reference::check_document(&set, &table).map_err(number).err(), Some(14), "seed {seed}");
    }
    assert!(with_a_sign >= 200, "only {with_a_sign} texts have a zero with its sign bit set");
}

/// A judge: set, rows and room, and the cells of a run for a yes.
type Judge = fn(&[u8], &[u16], usize) -> Result<Option<Vec<u16>>, u8>;

/// The judge that tries every choice, and the one that remembers what it has joined.
const JUDGES: [Judge; 2] = [baseline::membership::membership, baseline::remembering::membership];

#[test]
fn judging() {
    for seed in 0..SEEDS {
        let random = &mut Random::new(seed);
        let sizes = random.pick(&[sets::tagged_sizes, sets::many_tags_sizes])();
        let automaton = sets::any_automaton(random, &sizes);
        let Some(document) = documents::document(random, &automaton, 30) else { continue };
        let room = random.pick(&[0, 5, 100, 4096]);
        let set = set_bytes::stored(random, &automaton, 0);
        judged_alike(&set, &document.cells(), room);
    }
}

#[test]
fn judging_by_damaged_sets() {
    for seed in 0..SEEDS {
        let random = &mut Random::new(seed);
        let automaton = sets::any_automaton(random, &sets::tagged_sizes());
        let Some(document) = documents::document(random, &automaton, 30) else { continue };
        let set = set_bytes::stored(random, &automaton, 30);
        judged_alike(&set, &document.cells(), 100);
    }
}

/// Judges rows on all sides with room for so many annotations; answers whether they are let in, where there is room.
fn judged_alike(set: &[u8], rows: &[u16], room: usize) -> Option<bool> {
    let expected = reference::membership(set, rows, ANNOTATION_CELLS * room, STEP_CELLS * room);
    let expected = expected.map(|judgement| judgement.is_yes()).map_err(number);
    for judge in JUDGES {
        assert_eq!(judged_by(judge, set, rows, room), expected, "set {set:?}, rows {rows:?}, room {room}");
    }
    expected.ok()
}

/// Judges rows by one judge; the run of a yes must pass its check.
fn judged_by(judge: Judge, set: &[u8], rows: &[u16], room: usize) -> Result<bool, u8> {
    let found = judge(set, rows, room);
    if let Ok(Some(run)) = &found {
        assert_eq!(reference::check_run(set, rows, run), Ok(()), "set {set:?}, rows {rows:?}");
    }
    found.map(|run| run.is_some())
}

/// Sets with rules of three and four children whose memories meet, with rooms that are exactly enough and one too few.
#[test]
fn judging_where_memories_meet() {
    let (mut yes, mut no, mut refused) = (0, 0, 0);
    for seed in 0..3 * SEEDS {
        let random = &mut Random::new(seed);
        let (automaton, document) = (meeting::set(random), meeting::document(random));
        let room = match reference::membership::judge(&automaton, &document, 150) {
            Ok(judgement) => judgement.annotations,
            Err(_) => 150,
        };
        for room in [Some(room), room.checked_sub(1)].into_iter().flatten() {
            match judged_alike(&automaton.encode(), &document.cells(), room) {
                Some(true) => yes += 1,
                Some(false) => no += 1,
                None => refused += 1,
            }
        }
    }
    assert!(yes > 200 && no > 200 && refused > 200, "{yes} let in, {no} turned away, {refused} refused");
}

/// Judges by all sides with room for exactly as many annotations as there are, and with one too few.
fn judged_at_the_limit((set, document): (Automaton, Document), annotations: usize) -> bool {
    let (set, rows) = (set.encode(), document.cells());
    assert_eq!(judged_alike(&set, &rows, annotations - 1), None);
    judged_alike(&set, &rows, annotations).expect("there is room")
}

/// The hard inputs that are measured, those that trying every choice takes long for in a smaller size.
#[test]
fn judging_hard_inputs() {
    assert!(judged_at_the_limit(towers::of_width(1, 13, 11), 4096));
    assert!(judged_at_the_limit(towers::of_width(2, 16, 7), 9 + (2 << 7) - 2));
    assert!(judged_at_the_limit(towers::fourfold(3), (8 << 3) - 2));
    assert!(judged_at_the_limit(towers::forgetting(5), 2 + 4 + 8 + 16 + 32 + 32));
    assert!(judged_at_the_limit((crowded_set(), crowded_document()), 12 * 240 + 301));
    for root in [Root::WithTheFirstTag, Root::WithAnotherRule, Root::ClashingLate] {
        let is_let_in = root == Root::WithAnotherRule;
        let annotations = 117 + usize::from(is_let_in);
        assert_eq!(judged_at_the_limit((picking_set(root), picked_document(1)), annotations), is_let_in);
    }
}

/// The hardest inputs that are measured, by the judge that remembers alone. Which annotations there are is plain.
#[test]
fn judging_the_hardest_inputs() {
    let picked = |root: Root| (picking_set(root), picked_document(2));
    for ((set, document), annotations, is_let_in) in [
        (towers::fourfold(6), (8 << 6) - 2, true),
        (towers::forgetting(130), 2 + 4 + 8 + 16 + 127 * 32, true),
        (picked(Root::WithTheFirstTag), 16 * 9 + 4 * 81 + 1089, false),
        (picked(Root::WithAnotherRule), 16 * 9 + 4 * 81 + 1089 + 1, true),
    ] {
        let (set, rows) = (set.encode(), document.cells());
        let judged = |room: usize| judged_by(baseline::remembering::membership, &set, &rows, room);
        assert_eq!(judged(annotations), Ok(is_let_in));
        assert_eq!(judged(annotations - 1), Err(31));
    }
}

/// The exports and the chain that are measured with sixteen tags, let in and turned away by each of them.
#[test]
fn judging_with_sixteen_tags() {
    let set = wide_set().encode();
    for servers in [1, 3, 20, 59] {
        assert_eq!(judged_alike(&set, &wide_export(servers, None).cells(), 1024), Some(true));
    }
    for part in 0..PARTS {
        let export = wide_export(5, Some(part));
        assert_eq!(judged_alike(&set, &export.cells(), 1024), Some(false), "part {part}");
    }
    let set = sets::of_choices(16, 10);
    let chain = documents::chain(&set, 16).expect("there is a leaf").cells();
    assert_eq!(judged_alike(&set.encode(), &chain, 2052), Some(true));
    assert_eq!(judged_alike(&set.encode(), &chain, 2051), None);
}

/// Sets that forget, with documents grown along their rules; and the paired servers that are measured.
#[test]
fn judging_with_sets_that_forget() {
    let (mut yes, mut no) = (0, 0);
    for seed in 0..2 * SEEDS {
        let random = &mut Random::new(seed);
        let automaton = sets::forgetful(random);
        let Some(document) = documents::grown(random, &automaton, 30) else { continue };
        match judged_alike(&automaton.encode(), &document.cells(), random.pick(&[5, 500, 500])) {
            Some(true) => yes += 1,
            Some(false) => no += 1,
            None => {}
        }
    }
    assert!(yes > 200 && no > 100, "{yes} let in, {no} turned away");
    let set = paired_list_set().encode();
    for pairs in [1, 40, 200] {
        assert_eq!(judged_alike(&set, &paired_list(pairs, None).cells(), 1024), Some(true));
        assert_eq!(judged_alike(&set, &paired_list(pairs, Some(pairs / 2)).cells(), 1024), Some(false));
    }
}

#[test]
fn union_and_product() {
    for seed in 0..SEEDS {
        let random = &mut Random::new(seed);
        let (first, second) = pairs::any_pair(random);
        let (first, second) = (set_bytes::stored(random, &first, 10), set_bytes::stored(random, &second, 10));
        let space = random.pick(&[100, 20_000, 20_000]);
        let union = baseline::boolean::union(&first, &second, space);
        assert_eq!(union, reference::union(&first, &second, space).map_err(number), "seed {seed}");
        let product = baseline::boolean::product(&first, &second, space);
        assert_eq!(product, reference::product(&first, &second, space).map_err(number), "seed {seed}");
    }
}

/// Sets in all forms, many of them damaged, without rules or with tags to forget: each number of a move comes often.
#[test]
fn moves() {
    type Move = (fn(&[u8], usize) -> Result<Vec<u8>, u8>, fn(&[u8], usize) -> Result<Vec<u8>, Refusal>);
    let moves: [Move; 4] = [
        (baseline::moves::widen_states, reference::widen_states),
        (baseline::moves::narrow_states, reference::narrow_states),
        (baseline::moves::widen_rules, reference::widen_rules),
        (baseline::moves::narrow_rules, reference::narrow_rules),
    ];
    let (mut refused, mut written) = ([0; 54], 0);
    for seed in 0..2 * SEEDS {
        let random = &mut Random::new(seed);
        let sizes = sets::any_sizes(random);
        let mut automaton = sets::any_automaton(random, &sizes);
        if random.percent(10) {
            automaton.rules.clear();
        }
        let form = random.pick(&Form::ALL).max(Form::for_tags(automaton.tag_count));
        let set = set_bytes::stored_in(random, &automaton, form, 20);
        let space = random.pick(&[set.len(), 20_000, 20_000]);
        for (found, expected) in moves {
            let expected = expected(&set, space).map_err(number);
            assert_eq!(found(&set, space), expected, "seed {seed}");
            match expected {
                Ok(_) => written += 1,
                Err(number) => refused[usize::from(number)] += 1,
            }
        }
    }
    let numbers = [1, 2, 3, 4, 5, 6, 7, 8, 9, 10, 18, 53];
    assert!(written > 1000 && numbers.iter().all(|&number| refused[number] > 50), "{written} {refused:?}");
}

#[test]
fn dead_or_live() {
    for seed in 0..SEEDS {
        let random = &mut Random::new(seed);
        let sizes = sets::any_sizes(random);
        let make = random.pick(&[sets::layered, sets::with_own_tags, sets::automaton]);
        let automaton = make(random, &sizes);
        let automaton = sets::forgetting_perhaps(random, automaton);
        let set = set_bytes::stored(random, &automaton, 10);
        let space = ROW_CELLS * random.pick(&[10, 256, 256]);
        let expected = reference::witness(&set, space).map_err(number);
        let expected = expected.map(|sample| sample.map(|sample| (sample.cells(), sample.levels())));
        assert_eq!(baseline::witness::witness(&set, space), expected, "seed {seed}");
    }
}

#[test]
fn term_text() {
    for seed in 0..SEEDS {
        let random = &mut Random::new(seed);
        let automaton = sets::automaton(random, &sets::small_sizes());
        let symbols = automaton.arities.len();
        let (site, built_in) = lists::both(random, symbols, 15);
        let names = check_names(&site, &built_in, symbols)
            .unwrap_or_else(|_| check_names(b"", b"", symbols).expect("empty lists are sound"));
        let text = texts::text(random, &automaton, &names, 60);
        let set = set_bytes::stored(random, &automaton, 10);
        let space = ROW_CELLS * random.pick(&[3, MAX_ROWS, MAX_ROWS]);
        let expected = reference::read_term(&set, &site, &built_in, &text, space);
        let expected = expected.map(|document| document.cells()).map_err(number_and_place);
        let found = baseline::term::read(&set, &site, &built_in, &text, space);
        assert_eq!(found, expected, "seed {seed}");
        let table = rows::lent(random, &automaton, 30, 20);
        let space = random.pick(&[20, 3000, 3000]);
        let expected = reference::write_term(&set, &site, &built_in, &table, space);
        let found = baseline::term::write(&set, &site, &built_in, &table, space);
        assert_eq!(found, expected.map_err(number_and_place), "seed {seed}");
    }
}

#[test]
fn json() {
    let agree = |keys: &[u8], text: &[u8], space: usize| {
        let expected = reference::read_json(keys, text, space);
        let expected = expected.map(|document| document.cells()).map_err(number_and_place);
        let found = baseline::json::read(keys, text, space);
        assert_eq!(found, expected, "keys {}, text {}", keys.escape_ascii(), text.escape_ascii());
    };
    for seed in 0..5 * SEEDS {
        let random = &mut Random::new(seed);
        let keys = json_lists::key_list(random, 5);
        let text = json_texts::text(random, &keys, 60);
        agree(&keys, &text, ROW_CELLS * random.pick(&[3, 20, MAX_ROWS, MAX_ROWS, MAX_ROWS]));
    }
    let keys = json_export::key_list(&json_export::KEYS);
    for (_, text) in json_export::measured() {
        agree(&keys, text.as_bytes(), ROW_CELLS * MAX_ROWS);
    }
}
