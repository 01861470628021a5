//! Every case of document 01, "Examples, with the edges", and of "Three traps on the way", as the wishes of document 02
//! that have landed leave them.

mod common;

use common::{document, is_let_in, judge_with_room, ROW_SPACE};
use reference::examples::{rule, set_b, set_d, set_e, set_g, state};
use reference::limits::{ROW_CELLS, UNUSED};
use reference::run::{check_steps, run_cells};
use reference::{
    check_automaton, check_document, judge_program, product, read_term, sample_program, union, witness,
    write_term, Automaton, Refusal,
};

/// E and B demanded together.
fn e_and_b() -> Automaton {
    let bytes = product(&set_e().encode(), &set_b().encode(), 1000).expect("a product");
    check_automaton(&bytes).expect("a sound set")
}

#[test]
fn e_is_59_bytes_with_offsets_16_19_23() {
    let bytes = set_e().encode();
    assert_eq!(bytes.len(), 59);
    assert_eq!(bytes[8..16], [16, 0, 19, 0, 23, 0, 59, 0]);
    assert_eq!(check_automaton(&bytes), Ok(set_e()));
}

#[test]
fn e_stored_byte_for_byte() {
    let header = [3, 0, 2, 0, 1, 0, 3, 0, 16, 0, 19, 0, 23, 0, 59, 0];
    let symbols = [2, 0, 0];
    let states = [0, 1, 1, 0];
    let pair = [0, 0, 1, 0, 0, 0, 0, 0, 255, 255, 255, 255];
    let a = [1, 0, 0, 0, 255, 255, 255, 255, 255, 255, 255, 255];
    let b = [2, 0, 0, 0, 255, 255, 255, 255, 255, 255, 255, 255];
    let stored = [&header[..], &symbols, &states, &pair, &a, &b].concat();
    assert_eq!(set_e().encode(), stored);
}

#[test]
fn e_lets_in_a_pair_of_equal_leaves() {
    let document = document(&set_e(), "s0(s1=7,s1=7)");
    assert_eq!(document.rows.len(), 2);
    let leaf = [1, UNUSED, UNUSED, UNUSED, UNUSED, 2, 7, 0, 0, 0];
    let pair = [0, 0, 0, UNUSED, UNUSED, 0, 0, 0, 0, 0];
    assert_eq!(document.cells(), [leaf, pair].concat());
    let judgement = judge_with_room(&set_e(), &document, 2).expect("enough room");
    assert!(judgement.is_yes());
    assert_eq!(judgement.annotations, 2);
}

#[test]
fn e_with_room_for_one_annotation_gives_31() {
    let document = document(&set_e(), "s0(s1=7,s1=7)");
    assert_eq!(judge_with_room(&set_e(), &document, 1), Err(Refusal::plain(31)));
}

#[test]
fn e_lets_in_no_unequal_pair_and_no_leaf() {
    assert!(!is_let_in(&set_e(), "s0(s1=7,s1=8)"));
    assert!(!is_let_in(&set_e(), "s0(s1,s2)"));
    assert!(!is_let_in(&set_e(), "s1"));
}

/// Document 01 told them apart; document 02, Wish 6, makes them one load.
#[test]
fn e_takes_the_two_zeros_for_one_load() {
    assert!(is_let_in(&set_e(), "s0(s1~0000000000000000,s1~8000000000000000)"));
    assert!(is_let_in(&set_e(), "s0(s1~8000000000000000,s1~0000000000000000)"));
    assert!(is_let_in(&set_e(), "s0(s1~8000000000000000,s1~8000000000000000)"));
}

#[test]
fn e_tells_all_other_rates_apart_by_their_bits() {
    for (one, other) in [
        ("~0000000000000000", "~0000000000000001"),
        ("~0000000000000000", "~8000000000000001"),
        ("~8000000000000000", "~8000000000000001"),
        ("~8000000000000000", "~7fffffffffffffff"),
        ("~3ff8000000000000", "~bff8000000000000"),
        ("~7ff0000000000000", "~fff0000000000000"),
        ("~7ff8000000000000", "~fff8000000000000"),
        ("~7fffffffffffffff", "~ffffffffffffffff"),
        ("~8000000000000000", "=9223372036854775808"),
        ("~8000000000000000", "=0"),
    ] {
        assert!(!is_let_in(&set_e(), &format!("s0(s1{one},s1{other})")), "{one} {other}");
        assert!(is_let_in(&set_e(), &format!("s0(s1{other},s1{other})")), "{other} twice");
    }
}

#[test]
fn g_lets_in_the_twofold_g_and_not_the_fourfold_one() {
    assert!(is_let_in(&set_g(), "s0(s0(s1))"));
    assert!(!is_let_in(&set_g(), "s0(s0(s0(s0(s1))))"));
}

#[test]
fn b_lets_in_a_pair_with_two_steps_on_row_0() {
    let document = document(&set_b(), "s0(s1,s1)");
    let judgement = judge_with_room(&set_b(), &document, 4096).expect("enough room");
    let run = judgement.run.expect("yes");
    assert_eq!(check_steps(&set_b(), &document, &run_cells(&run)), Ok(()));
    assert_eq!(run.iter().filter(|step| step.row == 0).count(), 2);
    assert_eq!(run.len(), 3);
}

#[test]
fn e_and_b_together_let_in_equal_leaves_only() {
    assert!(!is_let_in(&e_and_b(), "s0(s1=1,s1=2)"));
    assert!(is_let_in(&e_and_b(), "s0(s1,s1)"));
}

#[test]
fn the_union_of_e_and_b_lets_in_what_either_does() {
    let bytes = union(&set_e().encode(), &set_b().encode(), 1000).expect("a union");
    let either = check_automaton(&bytes).expect("a sound set");
    assert!(is_let_in(&either, "s0(s1=1,s1=2)"));
    assert!(is_let_in(&either, "s0(s2=1,s2=1)"));
    assert!(!is_let_in(&either, "s0(s2=1,s2=2)"));
}

#[test]
fn e_has_the_sample_pair_a_a_of_height_2() {
    let sample = witness(&set_e().encode(), 20).expect("not refused").expect("live");
    assert_eq!(sample, document(&set_e(), "s0(s1,s1)"));
    assert_eq!(sample.levels(), 2);
}

#[test]
fn d_is_dead() {
    assert_eq!(witness(&set_d().encode(), 10), Ok(None));
}

#[test]
fn the_product_of_e_and_b_has_no_sample() {
    let bytes = e_and_b().encode();
    assert_eq!(witness(&bytes, ROW_SPACE), Err(Refusal::plain(41)));
}

#[test]
fn sixty_four_symbols_pass_and_65_give_2() {
    let set = |symbols: usize| Automaton {
        arities: vec![0; symbols],
        states: vec![state(true, 0)],
        tag_count: 0,
        rules: vec![rule(symbols - 1, &[], 0)],
    };
    assert_eq!(check_automaton(&set(64).encode()), Ok(set(64)));
    assert_eq!(check_automaton(&set(65).encode()), Err(Refusal::plain(2)));
}

#[test]
fn fifty_eight_bytes_of_e_give_3() {
    assert_eq!(check_automaton(&set_e().encode()[..58]), Err(Refusal::plain(3)));
}

#[test]
fn a_table_of_1024_rows_passes_and_1025_give_11() {
    let set = set_e();
    let cells = |rows: usize| {
        generate::documents::broad(&mut generate::Random::new(1), &set, rows).expect("E has leaves").cells()
    };
    assert_eq!(cells(1024).len(), 1024 * ROW_CELLS);
    assert!(check_document(&set.encode(), &cells(1024)).is_ok());
    assert_eq!(cells(1025).len(), 1025 * ROW_CELLS);
    assert_eq!(check_document(&set.encode(), &cells(1025)), Err(Refusal::plain(11)));
}

#[test]
fn the_sample_program_prints_height_and_sample_or_dead_or_the_refusal() {
    assert_eq!(sample_program(&set_e().encode()), b"alive 2\ns0(s1,s1)\n");
    assert_eq!(sample_program(&set_d().encode()), b"dead\n");
    assert_eq!(sample_program(&set_e().encode()[..58]), b"refused 3\n");
    assert_eq!(sample_program(b""), b"refused 1\n");
    assert_eq!(sample_program(&e_and_b().encode()), b"refused 41\n");
    assert_eq!(sample_program(&[0; 32_768]), b"refused 2\n");
    assert_eq!(sample_program(&[0; 32_769]), b"refused 69\n");
}

/// 256 states, each over two of the one before: the tree doubles 255 times.
fn doubling_set() -> Automaton {
    let doubling = (0..255).map(|below| rule(0, &[below, below], below + 1));
    Automaton {
        arities: vec![2, 0],
        states: (0..256).map(|number| state(number == 255, 0)).collect(),
        tag_count: 0,
        rules: doubling.chain([rule(1, &[], 0)]).collect(),
    }
}

#[test]
fn a_sample_that_doubles_at_each_level_is_found_at_once() {
    let sample = witness(&doubling_set().encode(), 2560).expect("not refused").expect("live");
    assert_eq!(sample.rows.len(), 256);
    assert_eq!(sample.levels(), 256);
    assert_eq!(sample_program(&doubling_set().encode()), b"refused 68\n");
    let set = doubling_set().encode();
    let refused = write_term(&set, b"", b"", &sample.cells(), usize::MAX - 1);
    assert_eq!(refused, Err(Refusal::plain(68)));
}

#[test]
fn the_judging_program_prints_one_line() {
    let judged = |text: &str| judge_program(&[&set_e().encode(), text.as_bytes()].concat());
    assert_eq!(judged("s0(s1=7,s1=7)"), b"yes\n");
    assert_eq!(judged("s0(s1=7,s1=8)"), b"no\n");
    assert_eq!(judged("s0(s1)"), b"refused 66 at 0\n");
    assert_eq!(judged("s0(s1,s1)\n"), b"refused 63 at 9\n");
    assert_eq!(judged(""), b"refused 63 at 0\n");
    assert_eq!(judge_program(&set_e().encode()[..58]), b"refused 3\n");
    assert_eq!(judge_program(b"short"), b"refused 1\n");
    assert_eq!(judge_program(&vec![0; 32_769]), b"refused 69\n");
}

#[test]
fn the_judging_program_has_room_for_512_annotations() {
    // A chain of 171 rows in three states each has 513 annotations, one of 170 rows 510.
    let mut rules = Vec::new();
    for target in 0..3 {
        rules.push(rule(0, &[0], target));
    }
    for target in 0..3 {
        rules.push(rule(1, &[], target));
    }
    let set = Automaton { arities: vec![1, 0], states: vec![state(true, 0); 3], tag_count: 0, rules };
    let chain = |rows: usize| format!("{}s1{}", "s0(".repeat(rows - 1), ")".repeat(rows - 1));
    let judged = |rows: usize| judge_program(&[&set.encode(), chain(rows).as_bytes()].concat());
    assert_eq!(judged(170), b"yes\n");
    assert_eq!(judged(171), b"refused 31\n");
}

#[test]
fn reading_takes_equal_parts_as_one_row_numbered_by_first_finishing() {
    let set = set_e().encode();
    let document = read_term(&set, b"", b"", b"s0(s0(s2,s1),s0(s1,s2))", ROW_SPACE).expect("sound");
    let symbols: Vec<usize> = document.rows.iter().map(|row| row.symbol).collect();
    assert_eq!(symbols, [2, 1, 0, 0, 0]);
    assert_eq!(document.rows[3].children, [1, 0]);
    assert_eq!(document.rows[4].children, [2, 3]);
}
