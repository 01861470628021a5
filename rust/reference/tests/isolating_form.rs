//! Document 02, Wish 9, on the form that holds tags to forget, sentence by sentence, with the settled readings: its bytes,
//! the refusals 3, 7, 9 and 18, and the forms of unions and products.

mod common;

use common::{remembering, ROW_SPACE};
use generate::sets::{any_sizes, automaton, forgetting_perhaps, tagged_sizes};
use generate::{documents, pairs, Random};
use reference::examples::{lists_of_equal_pairs, rule, set_b, set_d, set_e, set_g, state};
use reference::limits::{HEADER_BYTES, MAX_RULES, MAX_STATES, MAX_SYMBOLS, RULE_BYTES};
use reference::run::run_cells;
use reference::stored::check_with_form;
use reference::{
    check_automaton, check_document, check_run, judge_program, membership, narrow_states, product, read_term,
    sample_program, union, widen_states, witness, write_term, Automaton, Document, Form, Refusal, Rule,
};

/// Union or product: two sets and the length of the result space.
type Join = fn(&[u8], &[u8], usize) -> Result<Vec<u8>, Refusal>;

/// The number of a refusal.
fn number<T>(answer: Result<T, Refusal>) -> Option<u8> {
    answer.err().map(|refusal| refusal.number)
}

// "Such a set is stored in the wide form with rules of 14 bytes, the last two the tags to forget; the total tells it."

#[test]
fn lists_of_equal_pairs_byte_for_byte() {
    let header = [4, 0, 3, 0, 1, 0, 4, 0, 16, 0, 20, 0, 29, 0, 85, 0];
    let symbols = [2, 2, 0, 0];
    let states = [0, 1, 0, 0, 0, 0, 1, 0, 0];
    let pair = [0, 0, 1, 0, 0, 0, 0, 0, 255, 255, 255, 255, 1, 0];
    let cons = [1, 0, 2, 0, 1, 0, 2, 0, 255, 255, 255, 255, 0, 0];
    let nil = [2, 0, 2, 0, 255, 255, 255, 255, 255, 255, 255, 255, 0, 0];
    let x = [3, 0, 0, 0, 255, 255, 255, 255, 255, 255, 255, 255, 0, 0];
    let stored = [&header[..], &symbols, &states, &pair, &cons, &nil, &x].concat();
    assert_eq!(lists_of_equal_pairs().encode(), stored);
    assert_eq!(check_with_form(&stored), Ok((Form::Isolating, lists_of_equal_pairs())));
}

#[test]
fn the_longest_set_has_15184_bytes() {
    assert_eq!(Form::Isolating.total(MAX_SYMBOLS, MAX_STATES, MAX_RULES), 15_184);
}

/// Seven rules of 12 bytes are as long as six of 14: only the header tells the two apart.
#[test]
fn sets_of_one_length_are_told_apart_by_the_number_of_rules() {
    let set = |count: usize| Automaton {
        arities: vec![0],
        states: vec![state(true, 0); 7],
        tag_count: 0,
        rules: (0..count).map(|target| rule(0, &[], target)).collect(),
    };
    let (seven, six) = (set(7).encode_in(Form::Wide), set(6).encode_in(Form::Isolating));
    assert_eq!(seven.len(), six.len());
    assert_eq!(check_with_form(&seven), Ok((Form::Wide, set(7))));
    assert_eq!(check_with_form(&six), Ok((Form::Isolating, set(6))));
}

#[test]
fn a_set_without_rules_has_the_same_bytes_in_both_wide_forms() {
    for (states, tags) in [(1, 0), (3, 8), (256, 16)] {
        let set = Automaton {
            arities: vec![1],
            states: vec![state(true, 0); states],
            tag_count: tags,
            rules: vec![],
        };
        let wide = set.encode_in(Form::Wide);
        assert_eq!(set.encode_in(Form::Isolating), wide);
        assert_eq!(check_with_form(&wide), Ok((Form::Wide, set)));
        assert_eq!(number(widen_states(&wide, 9999)), Some(18));
        assert_eq!(number(narrow_states(&wide, 9999)), (tags > 8).then_some(8));
    }
}

/// "3 admits this form", and no narrow set with long rules.
#[test]
fn every_total_and_every_length() {
    let set = set_e();
    for form in Form::ALL {
        let sound = set.encode_in(form);
        for total in 0..=90 {
            for length in HEADER_BYTES..=90 {
                let mut bytes = sound.clone();
                bytes.resize(length, 255);
                bytes[14..16].copy_from_slice(&(total as u16).to_le_bytes());
                let is_known = |form: Form| total == length && total == form.total(3, 2, 3);
                let follows = Form::ALL
                    .into_iter()
                    .any(|other| other.state_bytes() == form.state_bytes() && is_known(other));
                assert_eq!(number(check_automaton(&bytes)) == Some(3), !follows, "{form:?} {total} {length}");
            }
        }
    }
}

// "The order of rules does not look at those two bytes, so a rule stands once."

#[test]
fn a_rule_that_stands_twice_with_other_tags_to_forget_is_7() {
    for (first, second) in [(0, 0), (0, 1), (1, 0), (1, 1)] {
        let mut set = set_e();
        set.rules.insert(1, set.rules[0].clone());
        set.rules[0].forgets = first;
        set.rules[1].forgets = second;
        assert_eq!(number(check_automaton(&set.encode_in(Form::Isolating))), Some(7), "{first} {second}");
    }
}

#[test]
fn falling_masks_are_in_order() {
    let mut set = set_e();
    for (place, rule) in set.rules.iter_mut().enumerate() {
        rule.forgets = u16::from(place == 0);
    }
    assert_eq!(check_automaton(&set.encode()), Ok(set));
}

// "Union and product write 14-byte rules if either input has them."

#[test]
fn the_forms_of_results() {
    let forms = || Form::ALL.into_iter();
    for (one, other) in forms().flat_map(|one| forms().map(move |other| (one, other))) {
        let expected = one.max(other).max(Form::Wide);
        let (first, second) = (set_e().encode_in(one), set_b().encode_in(other));
        for join in [union as Join, product] {
            let result = join(&first, &second, 1000).expect("there is space");
            assert_eq!(check_with_form(&result).map(|(form, _)| form), Ok(expected), "{one:?} {other:?}");
            assert_eq!(join(&first, &second, result.len()), Ok(result.clone()));
            assert_eq!(join(&first, &second, result.len() - 1), Err(Refusal::plain(53)));
        }
        let without_rules = Automaton { rules: vec![], ..set_b() }.encode_in(other);
        let expected = one.max(Form::Wide);
        let either = union(&first, &without_rules, 1000).expect("there is space");
        assert_eq!(check_with_form(&either).map(|(form, _)| form), Ok(expected), "{one:?} {other:?}");
    }
}

/// What is forgotten apart, the form of the two sets changes nothing in the result.
#[test]
fn results_differ_by_nothing_but_the_tags_to_forget() {
    let mut written = 0;
    for seed in 0..1000 {
        let (first, second) = pairs::any_pair(&mut Random::new(seed));
        let plain = [&first, &second].map(|set| remembering(set.clone()));
        for join in [union as Join, product] {
            let found = join(&first.encode(), &second.encode(), 20_000);
            let expected = join(&plain[0].encode(), &plain[1].encode(), 20_000);
            assert_eq!(number(found.clone()), number(expected.clone()), "seed {seed}");
            let (Ok(found), Ok(expected)) = (found, expected) else { continue };
            let set = |bytes: &[u8]| check_automaton(bytes).expect("a sound set");
            assert_eq!(remembering(set(&found)), set(&expected), "seed {seed}");
            written += 1;
        }
    }
    assert!(written > 600, "only {written} results");
}

// "(A forgotten tag at or above T: 9, after 7; .. narrowing a set with 14-byte rules: 18, which now stands after 9.)"

#[test]
fn every_tag_to_forget_with_every_number_of_tags() {
    for tag_count in 0..=16 {
        for (place, tag) in (0..3).flat_map(|place| (0..16).map(move |tag| (place, tag))) {
            let mut set = Automaton { tag_count, ..set_d() };
            set.rules = set_e().rules.into_iter().map(|rule| Rule { target: 0, ..rule }).collect();
            set.rules[place].forgets = 1 << tag;
            let expected = (tag >= tag_count).then_some(9);
            let found = number(check_automaton(&set.encode_in(Form::Isolating)));
            assert_eq!(found, expected, "tag {tag} of {tag_count}, rule {place}");
        }
    }
}

/// E with a tag to forget that it does not have, in its first rule.
fn strange() -> Automaton {
    let mut set = set_e();
    set.rules[0].forgets = 2;
    set
}

#[test]
fn nine_is_tried_after_7_over_the_whole_set() {
    let mut unsorted = strange();
    unsorted.rules.swap(1, 2);
    assert_eq!(number(check_automaton(&unsorted.encode())), Some(7));
    let mut bytes = strange().encode();
    assert_eq!(number(check_automaton(&bytes)), Some(9));
    let last_place = bytes.len() - 4;
    bytes[last_place] = 0;
    assert_eq!(number(check_automaton(&bytes)), Some(6), "an unused place of the last rule");
}

#[test]
fn nine_wherever_a_set_is_lent() {
    let (strange, sound) = (strange().encode(), set_e().encode());
    assert_eq!(number(check_document(&strange, &[])), Some(9));
    assert_eq!(number(check_run(&strange, &[], &[])), Some(9));
    assert_eq!(number(membership(&strange, &[], 32, 0)), Some(9));
    assert_eq!(number(witness(&strange, 0)), Some(9));
    assert_eq!(number(read_term(&strange, b"A", b"", b"", 0)), Some(9));
    assert_eq!(number(write_term(&strange, b"A", b"", &[], 0)), Some(9));
    assert_eq!(number(widen_states(&strange, 0)), Some(9), "before 18");
    assert_eq!(number(narrow_states(&strange, 0)), Some(9), "before 18");
    assert_eq!(sample_program(&strange), b"refused 9\n");
    assert_eq!(judge_program(&[&strange[..], b"s0("].concat()), b"refused 9\n");
    for join in [union as Join, product] {
        assert_eq!(number(join(&strange, b"", 0)), Some(9), "the first set before the second");
        assert_eq!(number(join(&sound, &strange, 0)), Some(9));
        assert_eq!(number(join(&set_g().encode(), &strange, 0)), Some(9), "before 51");
    }
}

#[test]
fn moves_of_states_take_no_set_with_rules_of_14_bytes() {
    for set in [set_e(), set_g(), set_d(), set_b(), lists_of_equal_pairs()] {
        for space in [0, 1000] {
            let isolating = set.encode_in(Form::Isolating);
            assert_eq!(number(narrow_states(&isolating, space)), Some(18), "whatever is forgotten");
            assert_eq!(number(widen_states(&isolating, space)), Some(18));
        }
    }
    let many = Automaton { tag_count: 9, ..set_e() }.encode_in(Form::Isolating);
    assert_eq!(number(narrow_states(&many, 1000)), Some(18), "before 8");
}

// What takes a set takes it in all three forms, with the same answer where nothing is forgotten.

#[test]
fn every_function_answers_all_forms_alike() {
    let mut let_in = 0;
    for seed in 0..1000 {
        let random = &mut Random::new(seed);
        let set = automaton(random, &tagged_sizes());
        let Some(table) = documents::document(random, &set, 20) else { continue };
        let forms = Form::ALL.map(|form| answers(&set.encode_in(form), &table));
        assert!(forms.iter().all(|answers| *answers == forms[0]), "seed {seed}");
        let_in += usize::from(forms[0].contains("yes"));
    }
    assert!(let_in > 100, "only {let_in} documents are let in");
}

/// What a set's functions answer to a table, as words.
fn answers(set: &[u8], table: &Document) -> String {
    let rows = table.cells();
    let judged = membership(set, &rows, 32 * 500, 6 * 500);
    let run = judged.as_ref().ok().and_then(|judgement| judgement.run.clone()).unwrap_or_default();
    let text = write_term(set, b"", b"", &rows, 5000);
    let judged_text = text.as_ref().map(|text| judge_program(&[set, text].concat()));
    format!(
        "{:?} {judged:?} {:?} {:?} {text:?} {:?} {:?}",
        check_document(set, &rows),
        check_run(set, &rows, &run_cells(&run)),
        witness(set, ROW_SPACE),
        judged_text.map(|line| String::from_utf8_lossy(&line).into_owned()),
        sample_program(set),
    )
}

/// Masks of all kinds and sizes, stored and read back.
#[test]
fn masks_are_read_as_they_are_stored() {
    let mut with_high_bits = 0;
    for seed in 0..2000 {
        let random = &mut Random::new(seed);
        let sizes = any_sizes(random);
        let set = automaton(random, &sizes);
        let set = forgetting_perhaps(random, set);
        let stored = set.encode_in(Form::Isolating);
        let masks: Vec<u16> = stored[Form::Isolating.rules_offset(set.arities.len(), set.states.len())..]
            .chunks_exact(Form::Isolating.rule_bytes())
            .map(|bytes| u16::from_le_bytes([bytes[RULE_BYTES], bytes[RULE_BYTES + 1]]))
            .collect();
        assert!(masks.iter().copied().eq(set.rules.iter().map(|rule| rule.forgets)), "seed {seed}");
        assert_eq!(check_automaton(&stored), Ok(set), "seed {seed}");
        with_high_bits += usize::from(masks.iter().any(|mask| mask >> 8 != 0));
    }
    assert!(with_high_bits > 100, "only {with_high_bits} sets forget tags past the eighth");
}
