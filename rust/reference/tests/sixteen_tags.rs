//! Document 02, Wish 2, sentence by sentence, with the settled readings: the wide form, the two moves, and what the other
//! functions answer to sets in either form.

mod common;

use common::{document, judge_with_room, leaf, over, ROW_SPACE};
use generate::sets::{any_sizes, automaton, many_tags_sizes};
use generate::{documents, pairs, set_bytes, Random};
use reference::examples::{rule, set_b, set_d, set_e, set_g, state};
use reference::limits::{ANNOTATION_CELLS, MAX_RULES, MAX_STATES, MAX_SYMBOLS, STEP_CELLS};
use reference::run::run_cells;
use reference::stored::check_with_form;
use reference::{
    check_automaton, check_document, check_run, judge_program, membership, narrow_states, product, read_term,
    sample_program, union, widen_states, witness, write_term, Automaton, Document, Form, Refusal, Scalar,
    Step,
};

/// The two forms whose rules have 12 bytes.
const SHORT_RULES: [Form; 2] = [Form::Narrow, Form::Wide];

/// Union or product: two sets and the length of the result space.
type Join = fn(&[u8], &[u8], usize) -> Result<Vec<u8>, Refusal>;

/// The number of a refusal.
fn number<T>(answer: Result<T, Refusal>) -> Option<u8> {
    answer.err().map(|refusal| refusal.number)
}

/// The number that a set in a form is refused with, after some of its bytes are changed.
fn set_number(set: &Automaton, form: Form, changes: &[(usize, u8)]) -> Option<u8> {
    let mut bytes = set.encode_in(form);
    for &(at, byte) in changes {
        bytes[at] = byte;
    }
    number(check_automaton(&bytes))
}

/// Set E in the wide form.
fn wide_e() -> Vec<u8> {
    set_e().encode_in(Form::Wide)
}

// "Widen a state's tags from one byte to two, so a state takes three bytes, offsets follow, and T goes up to 16."

#[test]
fn e_in_the_wide_form_byte_for_byte() {
    let header = [3, 0, 2, 0, 1, 0, 3, 0, 16, 0, 19, 0, 25, 0, 61, 0];
    let symbols = [2, 0, 0];
    let states = [0, 1, 0, 1, 0, 0];
    let pair = [0, 0, 1, 0, 0, 0, 0, 0, 255, 255, 255, 255];
    let a = [1, 0, 0, 0, 255, 255, 255, 255, 255, 255, 255, 255];
    let b = [2, 0, 0, 0, 255, 255, 255, 255, 255, 255, 255, 255];
    let stored = [&header[..], &symbols, &states, &pair, &a, &b].concat();
    assert_eq!(wide_e(), stored);
    assert_eq!(check_with_form(&stored), Ok((Form::Wide, set_e())));
}

#[test]
fn a_tag_past_the_eighth_stands_in_the_second_byte() {
    let mut set = set_e();
    set.tag_count = 16;
    set.states = vec![state(false, 0x8001), state(true, 0x0100)];
    let bytes = set.encode_in(Form::Wide);
    assert_eq!(bytes[19..25], [0, 1, 128, 1, 0, 1]);
    assert_eq!(check_with_form(&bytes), Ok((Form::Wide, set)));
}

#[test]
fn the_longest_set_with_rules_of_12_bytes_has_13136_bytes() {
    assert_eq!(Form::Wide.total(MAX_SYMBOLS, MAX_STATES, MAX_RULES), 13_136);
    assert_eq!(Form::Narrow.total(MAX_SYMBOLS, MAX_STATES, MAX_RULES), 12_880);
}

// "(2 and 52 now say 16 tags; 3 admits either form, and meets a one-byte set with T over 8.)"

#[test]
fn sixteen_tags_pass_in_the_wide_form_alone() {
    for tags in 0..=20 {
        let header_byte = [(4, tags as u8)];
        let (narrow, wide) = match tags {
            0 => (Some(5), Some(5)), // E carries tag 0
            1..=8 => (None, None),
            9..=16 => (Some(3), None),
            _ => (Some(2), Some(2)),
        };
        assert_eq!(set_number(&set_e(), Form::Narrow, &header_byte), narrow, "{tags} tags");
        assert_eq!(set_number(&set_e(), Form::Wide, &header_byte), wide, "{tags} tags");
    }
    assert_eq!(set_number(&set_e(), Form::Wide, &[(5, 1)]), Some(2), "257 tags");
}

#[test]
fn a_one_byte_set_with_over_8_tags_is_3_before_its_children_states_and_rules_are_tried() {
    assert_eq!(set_number(&set_e(), Form::Narrow, &[(4, 9), (18, 5), (19, 2), (58, 0)]), Some(3));
    assert_eq!(set_number(&set_e(), Form::Narrow, &[(4, 17), (18, 5), (19, 2), (58, 0)]), Some(2));
    assert_eq!(set_number(&set_e(), Form::Narrow, &[(4, 8), (18, 5), (19, 2), (58, 0)]), Some(4));
}

/// The highest byte that a final byte or a mask's byte may be: for a mask all bits below T, from bit 0 or 8 on.
fn most(byte: usize, tags: usize) -> u8 {
    match byte {
        0 => 1,
        1 => ((1u32 << tags.min(8)) - 1) as u8,
        _ => ((1u32 << tags.saturating_sub(8)) - 1) as u8,
    }
}

#[test]
fn both_bytes_of_a_mask_are_tried_by_5() {
    for tags in 0..=16 {
        for byte in 0..3 {
            for value in 0..=255 {
                let changes = [(4, tags as u8), (20, 0), (22 + byte, value)];
                let expected = if value <= most(byte, tags) { None } else { Some(5) };
                let found = set_number(&set_e(), Form::Wide, &changes);
                assert_eq!(found, expected, "{tags} tags, byte {byte} is {value}");
            }
        }
    }
}

// "Old sets still read: the distance from the states' offset to the rules', 2Q or 3Q, tells which form it is."

#[test]
fn a_set_reads_the_same_in_either_form() {
    for seed in 0..2000 {
        let random = &mut Random::new(seed);
        let sizes = any_sizes(random);
        let set = automaton(random, &sizes);
        assert_eq!(check_with_form(&set.encode_in(Form::Wide)), Ok((Form::Wide, set.clone())));
        if set.tag_count <= 8 {
            assert_eq!(check_with_form(&set.encode_in(Form::Narrow)), Ok((Form::Narrow, set)));
        }
    }
}

/// A set in a form with another offset of the rules and total in its header.
fn with_lengths(set: &Automaton, form: Form, rules_offset: usize, total: usize) -> Vec<u8> {
    let mut bytes = set.encode_in(form);
    bytes[12..14].copy_from_slice(&(rules_offset as u16).to_le_bytes());
    bytes[14..16].copy_from_slice(&(total as u16).to_le_bytes());
    bytes
}

#[test]
fn the_distance_tells_the_form_and_total_and_length_must_follow() {
    for form in Form::ALL {
        let length = set_e().encode_in(form).len();
        for rules_offset in 0..=80 {
            for total in 58..=68 {
                let bytes = with_lengths(&set_e(), form, rules_offset, total);
                let is_sound = total == length && rules_offset == form.rules_offset(3, 2);
                let expected = if is_sound { None } else { Some(3) };
                assert_eq!(number(check_automaton(&bytes)), expected, "{form:?} {rules_offset} {total}");
            }
        }
    }
    assert_eq!(number(check_automaton(&wide_e()[..60])), Some(3));
    assert_eq!(number(check_automaton(&[wide_e(), vec![0]].concat())), Some(3));
}

/// Twelve states: the wide form is as much longer as one rule is, so that only the header tells the two apart.
#[test]
fn sets_of_one_length_are_told_apart_by_the_header() {
    let rules = |count: usize| (0..count).map(|target| rule(1, &[], target)).collect();
    let set = |count: usize| Automaton {
        arities: vec![2, 0, 0],
        states: vec![state(true, 0); 12],
        tag_count: 0,
        rules: rules(count),
    };
    let (narrow, wide) = (set(3).encode_in(Form::Narrow), set(2).encode_in(Form::Wide));
    assert_eq!(narrow.len(), wide.len());
    assert_eq!(check_with_form(&narrow), Ok((Form::Narrow, set(3))));
    assert_eq!(check_with_form(&wide), Ok((Form::Wide, set(2))));
}

// "Memories, runs, union and product all carry the wider mask."

/// E with another tag, out of sixteen, instead of tag 0.
fn e_with_tag(tag: usize) -> Automaton {
    let mut set = set_e();
    set.tag_count = 16;
    set.states[0].tags = 1 << tag;
    set
}

#[test]
fn each_of_sixteen_tags_is_remembered() {
    for tag in 0..16 {
        let set = e_with_tag(tag);
        let equal = judge_with_room(&set, &document(&set, "s0(s1=7,s1=7)"), 2).expect("enough room");
        assert!(equal.is_yes(), "tag {tag}");
        let unequal = judge_with_room(&set, &document(&set, "s0(s1=7,s1=8)"), 9).expect("enough room");
        assert!(!unequal.is_yes(), "tag {tag}");
    }
}

#[test]
fn each_of_sixteen_tags_may_go_to_one_row_of_a_run() {
    let rows = [leaf(1, Scalar::Count(7)), leaf(1, Scalar::Count(8)), over(0, &[0, 1])];
    let cells = Document { rows: rows.to_vec() }.cells();
    let step = |rule, row, children: &[usize]| Step { rule, row, children: children.to_vec() };
    let run = run_cells(&[step(1, 0, &[]), step(1, 1, &[]), step(0, 2, &[0, 1])]);
    for tag in 0..16 {
        let mut set = e_with_tag(tag);
        assert_eq!(check_run(&set.encode(), &cells, &run), Err(Refusal::plain(24)), "tag {tag}");
        set.states[0].tags = 0;
        assert_eq!(check_run(&set.encode(), &cells, &run), Ok(()), "without tag {tag}");
    }
}

#[test]
fn a_tag_of_the_second_byte_that_two_states_share_is_41() {
    for tag in 0..16 {
        let mut set = e_with_tag(tag);
        assert!(witness(&set.encode(), ROW_SPACE).is_ok(), "tag {tag}");
        set.states[1].tags = 0xffff;
        assert_eq!(witness(&set.encode(), ROW_SPACE), Err(Refusal::plain(41)), "tag {tag}");
    }
}

/// E with so many tags; its first state carries the highest.
fn e_of_tags(tag_count: usize) -> Vec<u8> {
    let mut set = set_e();
    set.tag_count = tag_count;
    set.states[0].tags = if tag_count == 0 { 0 } else { 1 << (tag_count - 1) };
    set.encode()
}

#[test]
fn union_and_product_have_at_most_16_tags() {
    let pairs = (0..=16).flat_map(|first| (0..=16).map(move |second| (first, second)));
    for (first, second) in pairs {
        let expected = if first + second > 16 { Some(52) } else { None };
        let (one, other) = (e_of_tags(first), e_of_tags(second));
        assert_eq!(number(union(&one, &other, 1000)), expected, "{first} and {second}");
        assert_eq!(number(product(&one, &other, 1000)), expected, "{first} and {second}");
    }
}

#[test]
fn tags_are_shifted_into_the_second_byte() {
    for (first, second, expected) in
        [(8, 8, 0x8000), (16, 0, 0), (0, 16, 0x8000), (7, 2, 0x0100), (15, 1, 0x8000)]
    {
        let either = check_automaton(&union(&e_of_tags(first), &e_of_tags(second), 1000).expect("a union"));
        let either = either.expect("a sound set");
        assert_eq!(either.tag_count, first + second);
        assert_eq!(either.states[2].tags, expected, "{first} and {second}");
        let both = check_automaton(&product(&e_of_tags(first), &e_of_tags(second), 1000).expect("a product"));
        let own = if first == 0 { 0 } else { 1 << (first - 1) };
        assert_eq!(both.expect("a sound set").states[0].tags, expected | own, "{first} and {second}");
    }
}

/// Sixteen sets, each with a state and a tag of its own, in a union and in a product; there is no place for another.
#[test]
fn sixteen_sets_of_one_tag_joined_and_demanded_together() {
    let one_state = Automaton {
        arities: vec![2, 0, 0],
        states: vec![state(true, 1)],
        tag_count: 1,
        rules: vec![rule(1, &[], 0)],
    };
    let one = one_state.encode();
    let with =
        |join: Join| (1..16).fold(one.clone(), |set, _| join(&set, &one, 5000).expect("16 tags at most"));
    let (either, both) = (with(union), with(product));
    let tags =
        |set: &[u8]| check_automaton(set).map(|set| (set.tag_count, set.states[set.states.len() - 1].tags));
    assert_eq!(tags(&either), Ok((16, 0x8000)));
    assert_eq!(tags(&both), Ok((16, 0xffff)));
    for set in [&either, &both] {
        assert_eq!(number(union(set, &one, 5000)), Some(52));
        assert_eq!(number(product(set, &one, 5000)), Some(52));
    }
}

// "Union and product write the wide form from now on."

#[test]
fn union_and_product_are_wide_and_the_same_bytes_whatever_the_forms_of_the_two_sets() {
    let (mut unions, mut products) = (0, 0);
    for seed in 0..1000 {
        let (mut first, mut second) = pairs::pair(&mut Random::new(seed));
        for set in [&mut first, &mut second] {
            set.tag_count = set.tag_count.min(8);
            set.states.iter_mut().for_each(|state| state.tags &= 0xff);
        }
        let forms = SHORT_RULES.into_iter().flat_map(|one| SHORT_RULES.map(|other| (one, other)));
        let answers = forms.map(|(one, other)| {
            let (first, second) = (first.encode_in(one), second.encode_in(other));
            (union(&first, &second, 20_000), product(&first, &second, 20_000))
        });
        let answers: Vec<_> = answers.collect();
        assert!(answers.iter().all(|answer| *answer == answers[0]), "seed {seed}");
        let (either, both) = &answers[0];
        for set in [either, both].into_iter().flatten() {
            assert_eq!(check_with_form(set).map(|(form, _)| form), Ok(Form::Wide), "seed {seed}");
        }
        unions += usize::from(either.is_ok());
        products += usize::from(both.is_ok());
    }
    assert!(unions > 300 && products > 300, "{unions} unions, {products} products");
}

/// E and B have 5 states together and 6 pairs of states: 101 and 67 bytes in the narrow form.
#[test]
fn a_space_that_held_the_result_of_old_sets_is_now_too_short() {
    let (e, b) = (set_e().encode(), set_b().encode());
    let narrow_lengths: [(Join, usize); 2] = [(union, 16 + 3 + 10 + 72), (product, 16 + 3 + 12 + 36)];
    for (join, narrow) in narrow_lengths {
        let wide = join(&e, &b, 1000).expect("there is space");
        let states = wide[2] as usize;
        assert_eq!(wide.len(), narrow + states);
        assert_eq!(join(&e, &b, narrow), Err(Refusal::plain(53)));
        assert_eq!(join(&e, &b, wide.len() - 1), Err(Refusal::plain(53)));
        assert_eq!(join(&e, &b, wide.len()), Ok(wide.clone()));
        assert_eq!(narrow_states(&wide, narrow).map(|set| set.len()), Ok(narrow));
    }
}

// "Widening an old set and narrowing it again gives the same bytes."

#[test]
fn there_and_back_gives_the_same_bytes() {
    for seed in 0..2000 {
        let random = &mut Random::new(seed);
        let sizes = any_sizes(random);
        let set = automaton(random, &sizes);
        if set.tag_count > 8 {
            continue;
        }
        let (narrow, wide) = (set.encode_in(Form::Narrow), set.encode_in(Form::Wide));
        assert_eq!(widen_states(&narrow, wide.len()), Ok(wide.clone()), "seed {seed}");
        assert_eq!(narrow_states(&wide, narrow.len()), Ok(narrow), "seed {seed}");
    }
}

// "(A set not in the form the move starts from: 18, after 7; narrowing with T over 8: 8, after 18; space too short for
// either move: 53.)"

#[test]
fn a_move_takes_the_form_that_it_starts_from() {
    for set in [set_e(), set_g(), set_d(), set_b()] {
        let (narrow, wide) = (set.encode_in(Form::Narrow), set.encode_in(Form::Wide));
        assert_eq!(widen_states(&narrow, 1000), Ok(wide.clone()));
        assert_eq!(widen_states(&wide, 1000), Err(Refusal::plain(18)));
        assert_eq!(narrow_states(&wide, 1000), Ok(narrow.clone()));
        assert_eq!(narrow_states(&narrow, 1000), Err(Refusal::plain(18)));
    }
}

#[test]
fn narrowing_looks_at_the_number_of_tags_and_not_at_those_carried() {
    for tag_count in 0..=16 {
        let set = Automaton { tag_count, ..set_d() };
        let answer = narrow_states(&set.encode_in(Form::Wide), 1000);
        let expected = if tag_count > 8 { Some(8) } else { None };
        assert_eq!(number(answer), expected, "{tag_count} tags, none of them carried");
    }
}

#[test]
fn every_space() {
    let (narrow, wide) = (set_e().encode(), wide_e());
    for space in 0..=70 {
        assert_eq!(number(widen_states(&narrow, space)), (space < 61).then_some(53), "space {space}");
        assert_eq!(number(narrow_states(&wide, space)), (space < 59).then_some(53), "space {space}");
    }
}

#[test]
fn the_order_of_a_moves_numbers() {
    let many = Automaton { tag_count: 9, ..set_e() }.encode_in(Form::Wide);
    assert_eq!(number(narrow_states(&many, 0)), Some(8), "8 before 53");
    assert_eq!(number(narrow_states(&set_e().encode(), 0)), Some(18), "18 before 53");
    assert_eq!(number(widen_states(&wide_e(), 0)), Some(18), "18 before 53");
    assert_eq!(number(widen_states(&many, 0)), Some(18), "8 is no number of widening");
    let mut unsorted = set_e();
    unsorted.tag_count = 9;
    unsorted.rules.reverse();
    for space in [0, 1000] {
        let wide = unsorted.encode_in(Form::Wide);
        assert_eq!(number(narrow_states(&wide, space)), Some(7), "7 before 8");
        assert_eq!(number(widen_states(&wide, space)), Some(7), "7 before 18");
        let narrow = unsorted.encode_in(Form::Narrow);
        assert_eq!(number(narrow_states(&narrow, space)), Some(3), "9 tags in one byte are no narrow set");
        assert_eq!(number(widen_states(&narrow, space)), Some(3), "9 tags in one byte are no narrow set");
    }
}

#[test]
fn a_set_that_is_refused_has_the_same_number_for_both_moves() {
    let mut refused = [0; 10];
    for seed in 0..6000 {
        let random = &mut Random::new(seed);
        let sizes = any_sizes(random);
        let set = automaton(random, &sizes);
        let bytes = set_bytes::stored(random, &set, 90);
        if let Err(refusal) = check_automaton(&bytes) {
            assert_eq!(number(widen_states(&bytes, 0)), Some(refusal.number), "seed {seed}");
            assert_eq!(number(narrow_states(&bytes, 0)), Some(refusal.number), "seed {seed}");
            refused[usize::from(refusal.number)] += 1;
        }
    }
    let of_a_set = [1, 2, 3, 4, 5, 6, 7, 9];
    assert!(of_a_set.iter().all(|&number| refused[number] > 50), "{refused:?}");
}

// What else takes a set takes it in either form, with the same answer.

#[test]
fn every_function_answers_both_forms_alike() {
    let mut let_in = 0;
    for seed in 0..1500 {
        let random = &mut Random::new(seed);
        let set = automaton(random, &generate::sets::tagged_sizes());
        let Some(table) = documents::document(random, &set, 20) else { continue };
        let (narrow, wide, rows) = (set.encode_in(Form::Narrow), set.encode_in(Form::Wide), table.cells());
        assert_eq!(check_document(&narrow, &rows), check_document(&wide, &rows));
        let judged = |set: &[u8]| membership(set, &rows, ANNOTATION_CELLS * 500, STEP_CELLS * 500);
        assert_eq!(judged(&narrow), judged(&wide));
        if let Ok(run) = judged(&narrow).map(|judgement| run_cells(&judgement.run.unwrap_or_default())) {
            assert_eq!(check_run(&narrow, &rows, &run), check_run(&wide, &rows, &run));
            let_in += usize::from(!run.is_empty());
        }
        assert_eq!(witness(&narrow, ROW_SPACE), witness(&wide, ROW_SPACE));
        let text = |set: &[u8]| write_term(set, b"", b"", &rows, 5000);
        assert_eq!(text(&narrow), text(&wide));
        if let Ok(text) = text(&narrow) {
            let read = |set: &[u8]| read_term(set, b"", b"", &text, ROW_SPACE);
            assert_eq!(read(&narrow), read(&wide));
            let judged = |set: &[u8]| judge_program(&[set, &text].concat());
            assert_eq!(judged(&narrow), judged(&wide));
        }
        assert_eq!(sample_program(&narrow), sample_program(&wide));
    }
    assert!(let_in > 200, "only {let_in} documents are let in");
}

/// A set that needs its tags past the eighth: without those that the narrow form has no bits for, more is let in.
#[test]
fn tags_past_the_eighth_decide_many_cases() {
    let mut turned_away = 0;
    for seed in 0..6000 {
        let random = &mut Random::new(seed);
        let set = automaton(random, &many_tags_sizes());
        let Some(table) = documents::grown(random, &set, 40) else { continue };
        let mut cut = set.clone();
        cut.states.iter_mut().for_each(|state| state.tags &= 0xff);
        let (Ok(whole), Ok(cut)) = (judge_with_room(&set, &table, 500), judge_with_room(&cut, &table, 500))
        else {
            continue;
        };
        assert!(cut.is_yes() || !whole.is_yes(), "seed {seed}: a tag less turns nothing away");
        turned_away += usize::from(cut.is_yes() && !whole.is_yes());
    }
    assert!(turned_away > 50, "only {turned_away} documents");
}
