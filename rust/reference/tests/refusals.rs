//! One case or more for every number of document 01, "Turned away, by place", in the table's order, as the wishes of
//! document 02 that have landed leave it.

mod common;

use common::{document, ROW_SPACE};
use reference::examples::{rule, set_b, set_d, set_e, set_g, state};
use reference::limits::{ROW_CELLS, STEP_CELLS, UNUSED};
use reference::run::run_cells;
use reference::{
    check_automaton, check_document, check_names, check_run, judge_program, membership, product, read_term,
    union, witness, write_term, Automaton, Form, Refusal, Scalar, Step, MINUS_ZERO,
};

/// The number that set E is refused with after some of its bytes are changed.
fn set_number(changes: &[(usize, u8)]) -> Option<u8> {
    let mut bytes = set_e().encode();
    for &(at, byte) in changes {
        bytes[at] = byte;
    }
    check_automaton(&bytes).err().map(|refusal| refusal.number)
}

#[test]
fn fewer_than_16_bytes_is_1() {
    assert_eq!(check_automaton(&set_e().encode()[..15]), Err(Refusal::plain(1)));
    assert_eq!(check_automaton(&set_e().encode()[..16]), Err(Refusal::plain(3)));
}

#[test]
fn a_count_outside_its_range_is_2() {
    for (at, byte) in [(0, 0), (0, 65), (2, 0), (4, 17), (7, 4)] {
        assert_eq!(set_number(&[(at, byte)]), Some(2), "byte {at}");
    }
    assert_eq!(set_number(&[(2, 1), (3, 1)]), Some(2), "257 states");
    assert_eq!(set_number(&[(6, 1), (7, 4)]), Some(2), "1,025 rules");
}

#[test]
fn an_offset_or_a_length_that_differs_is_3() {
    for at in 8..16 {
        assert_eq!(set_number(&[(at, 77)]), Some(3), "byte {at}");
    }
    assert_eq!(check_automaton(&[set_e().encode(), vec![0]].concat()), Err(Refusal::plain(3)));
    assert_eq!(set_number(&[(0, 64)]), Some(3), "64 symbols are in range");
    assert_eq!(set_number(&[(2, 0), (3, 1)]), Some(3), "256 states are in range");
    assert_eq!(set_number(&[(6, 0), (7, 4)]), Some(3), "1,024 rules are in range");
    assert_eq!(set_number(&[(4, 8)]), None, "the number of tags moves nothing");
    assert_eq!(set_number(&[(4, 9)]), Some(3), "but one byte has bits for eight");
    assert_eq!(set_number(&[(4, 16)]), Some(3), "16 tags are in range");
}

#[test]
fn more_than_4_children_is_4() {
    assert_eq!(set_number(&[(18, 5)]), Some(4));
    assert_eq!(set_number(&[(18, 4)]), Some(6), "but the rule for that symbol has none");
}

#[test]
fn a_final_byte_above_1_or_a_tag_at_or_above_t_is_5() {
    assert_eq!(set_number(&[(21, 2)]), Some(5));
    assert_eq!(set_number(&[(20, 2)]), Some(5));
    assert_eq!(set_number(&[(4, 2), (20, 2)]), None);
}

#[test]
fn an_unknown_symbol_or_state_or_a_used_unused_place_is_6() {
    assert_eq!(set_number(&[(47, 3)]), Some(6), "symbol of the last rule");
    assert_eq!(set_number(&[(49, 2)]), Some(6), "its target");
    assert_eq!(set_number(&[(57, 0)]), Some(6), "its last place, unused");
    assert_eq!(set_number(&[(29, 2)]), Some(6), "second child of the first rule");
}

#[test]
fn rules_not_strictly_ascending_are_7() {
    assert_eq!(set_number(&[(47, 1)]), Some(7), "the last rule becomes the one before it");
    assert_eq!(set_number(&[(35, 2), (47, 1)]), Some(7), "the last two change places");
    assert_eq!(set_number(&[(47, 1), (49, 1)]), None, "a higher target ascends");
}

#[test]
fn a_forgotten_tag_at_or_above_t_is_9() {
    let number = |forgets| {
        let mut set = set_e();
        set.rules[2].forgets = forgets;
        check_automaton(&set.encode_in(Form::Isolating)).err().map(|refusal| refusal.number)
    };
    assert_eq!(number(1), None);
    assert_eq!(number(2), Some(9));
    assert_eq!(number(0x8001), Some(9));
}

/// The number that the table of pair(a=1,pair(a=1,a=2)) is refused with after some cells are changed.
fn table_number(changes: &[(usize, usize, u16)]) -> Option<u8> {
    let mut cells = document(&set_e(), "s0(s1=1,s0(s1=1,s1=2))").cells();
    assert_eq!(cells.len(), 4 * ROW_CELLS);
    for &(row, cell, value) in changes {
        cells[ROW_CELLS * row + cell] = value;
    }
    check_document(&set_e().encode(), &cells).err().map(|refusal| refusal.number)
}

#[test]
fn no_rows_or_a_row_cut_short_is_11() {
    for cells in [0, 9, 11, 19] {
        let rows = vec![UNUSED; cells];
        assert_eq!(check_document(&set_e().encode(), &rows), Err(Refusal::plain(11)), "{cells} cells");
    }
}

#[test]
fn an_unknown_symbol_is_12() {
    assert_eq!(table_number(&[(3, 0, 3)]), Some(12));
    assert_eq!(table_number(&[(0, 0, 65_535)]), Some(12));
}

#[test]
fn a_child_not_lower_or_a_used_unused_place_is_13() {
    assert_eq!(table_number(&[(2, 1, 2)]), Some(13), "the row itself");
    assert_eq!(table_number(&[(2, 2, 3)]), Some(13), "a higher row");
    assert_eq!(table_number(&[(2, 2, 65_535)]), Some(13), "no child where one is due");
    assert_eq!(table_number(&[(2, 3, 0)]), Some(13), "a third child");
    assert_eq!(table_number(&[(0, 1, 0)]), Some(13), "a child of a leaf");
}

#[test]
fn a_wrong_kind_or_payload_is_14() {
    assert_eq!(table_number(&[(0, 5, 5)]), Some(14), "kind 5");
    assert_eq!(table_number(&[(0, 5, 0)]), Some(14), "bare with a payload");
    assert_eq!(table_number(&[(0, 5, 1)]), None, "the flag 1");
    assert_eq!(table_number(&[(1, 5, 1)]), Some(14), "the flag 2");
    assert_eq!(table_number(&[(0, 5, 4), (0, 7, 65_535)]), None, "a name below 2^32");
    assert_eq!(table_number(&[(0, 5, 4), (0, 8, 1)]), Some(14), "a name above");
    assert_eq!(table_number(&[(0, 9, 65_535)]), None, "any count");
    assert_eq!(table_number(&[(2, 5, 2)]), Some(14), "a scalar on a row with children");
    assert_eq!(table_number(&[(2, 9, 1)]), Some(14), "a payload on a row with children");
}

/// The cells that give a row a scalar, for `table_number`.
fn scalar(row: usize, scalar: Scalar) -> Vec<(usize, usize, u16)> {
    let (kind, payload) = scalar.kind_and_payload();
    let payload = (0..4).map(|part| (row, 6 + part, (payload >> (16 * part)) as u16));
    payload.chain([(row, 5, kind)]).collect()
}

#[test]
fn the_rate_with_only_its_sign_bit_set_is_14() {
    let leaf = |given| table_number(&scalar(0, given));
    assert_eq!(leaf(Scalar::Rate(MINUS_ZERO)), Some(14));
    for rate in [0.0, f64::from_bits(1), -f64::from_bits(1), -1.0, f64::NEG_INFINITY, f64::NAN, -f64::NAN] {
        assert_eq!(leaf(Scalar::Rate(rate.to_bits())), None, "{rate}");
    }
    for bits in [MINUS_ZERO | 1, MINUS_ZERO - 1, 0xfff8_0000_0000_0000, u64::MAX, 3 << 62] {
        assert_eq!(leaf(Scalar::Rate(bits)), None, "{bits:016x}");
    }
    assert_eq!(leaf(Scalar::Count(MINUS_ZERO)), None, "a count of 2^63");
    assert_eq!(table_number(&scalar(2, Scalar::Rate(MINUS_ZERO))), Some(14), "on a row with children");
}

#[test]
fn that_rate_is_tried_behind_12_and_13_and_before_15_16_and_17() {
    let rate = |row| scalar(row, Scalar::Rate(MINUS_ZERO));
    let with = |other| table_number(&[rate(0), vec![other]].concat());
    assert_eq!(with((3, 0, 3)), Some(12));
    assert_eq!(with((2, 3, 0)), Some(13));
    assert_eq!(with((0, 1, 0)), Some(13), "in the same row");
    assert_eq!(with((2, 2, 0)), Some(14), "row 1 is used no more");
    let twice = |bits| [0, 1].map(|row| scalar(row, Scalar::Rate(bits))).concat();
    assert_eq!(table_number(&twice(MINUS_ZERO)), Some(14));
    assert_eq!(table_number(&twice(MINUS_ZERO | 1)), Some(15));
    let mut high = generate::documents::chain(&set_g(), 257).expect("G has a leaf");
    high.rows[0].scalar = Scalar::Rate(MINUS_ZERO);
    assert_eq!(check_document(&set_g().encode(), &high.cells()), Err(Refusal::plain(14)));
}

#[test]
fn that_rate_is_14_wherever_a_table_is_lent() {
    let set = set_e().encode();
    let mut table = document(&set_e(), "s0(s1~0000000000000000,s1~0000000000000000)");
    let judgement = membership(&set, &table.cells(), 64, 12).expect("there is room");
    let run = run_cells(&judgement.run.expect("the leaves are equal"));
    table.rows[0].scalar = Scalar::Rate(MINUS_ZERO);
    let rows = table.cells();
    assert_eq!(check_document(&set, &rows), Err(Refusal::plain(14)));
    assert_eq!(check_run(&set, &rows, &run), Err(Refusal::plain(14)));
    assert_eq!(check_run(&set, &rows, &[]), Err(Refusal::plain(14)), "before 21");
    assert_eq!(membership(&set, &rows, 64, 12), Err(Refusal::plain(14)));
    assert_eq!(membership(&set, &rows, 64, 0), Err(Refusal::plain(14)), "before 32");
    assert_eq!(write_term(&set, b"", b"", &rows, 100), Err(Refusal::plain(14)));
    assert_eq!(write_term(&set, b"", b"", &rows, 0), Err(Refusal::plain(14)), "before 68");
}

#[test]
fn two_equal_rows_are_15() {
    assert_eq!(table_number(&[(1, 6, 1)]), Some(15));
}

#[test]
fn an_unused_row_is_16() {
    assert_eq!(table_number(&[(2, 2, 0)]), Some(16), "row 1 is used no more");
    assert_eq!(table_number(&[(3, 2, 0)]), Some(16), "row 2 is used no more");
}

#[test]
fn a_height_over_256_is_17() {
    let height = |levels| generate::documents::chain(&set_g(), levels).expect("G has a leaf").cells();
    assert!(check_document(&set_g().encode(), &height(256)).is_ok());
    assert_eq!(check_document(&set_g().encode(), &height(257)), Err(Refusal::plain(17)));
}

/// The number that a run of set G on g(g(a)) is refused with. Rules: g(q) to r is 0, g(r) to q is 1, a to q is 2.
fn run_number(steps: &[(usize, usize, &[usize])]) -> Option<u8> {
    let rows = document(&set_g(), "s0(s0(s1))").cells();
    let step =
        |&(rule, row, children): &(usize, usize, &[usize])| Step { rule, row, children: children.to_vec() };
    let run: Vec<Step> = steps.iter().map(step).collect();
    check_run(&set_g().encode(), &rows, &run_cells(&run)).err().map(|refusal| refusal.number)
}

#[test]
fn a_sound_run_passes() {
    assert_eq!(run_number(&[(2, 0, &[]), (0, 1, &[0]), (1, 2, &[1])]), None);
}

#[test]
fn no_steps_or_too_many_or_a_step_cut_short_is_21() {
    let rows = document(&set_g(), "s1").cells();
    for cells in [0, 5, 7, STEP_CELLS * 4097] {
        let refused = check_run(&set_g().encode(), &rows, &vec![0; cells]);
        assert_eq!(refused, Err(Refusal::plain(21)), "{cells} cells");
    }
    let refused = check_run(&set_g().encode(), &rows, &vec![0; STEP_CELLS * 4096]);
    assert_eq!(refused, Err(Refusal::plain(23)), "4,096 steps are not too many");
}

#[test]
fn an_unknown_rule_or_row_is_22() {
    assert_eq!(run_number(&[(3, 0, &[])]), Some(22));
    assert_eq!(run_number(&[(2, 3, &[])]), Some(22));
}

#[test]
fn unlike_symbols_or_a_wrong_step_place_is_23() {
    assert_eq!(run_number(&[(2, 1, &[])]), Some(23), "a leaf's rule on g");
    assert_eq!(run_number(&[(2, 0, &[]), (0, 1, &[])]), Some(23), "no step where one is due");
    assert_eq!(run_number(&[(2, 0, &[]), (0, 1, &[1])]), Some(23), "the step itself");
    assert_eq!(run_number(&[(2, 0, &[]), (0, 1, &[0, 0])]), Some(23), "a step too many");
    assert_eq!(run_number(&[(2, 0, &[]), (0, 2, &[0])]), Some(23), "a step on another row");
    assert_eq!(run_number(&[(2, 0, &[]), (1, 1, &[0])]), Some(23), "a step in another state");
}

#[test]
fn a_tag_with_two_rows_is_24() {
    let rows = document(&set_e(), "s0(s1,s2)").cells();
    let leaf = |rule, row| Step { rule, row, children: vec![] };
    let run = [leaf(1, 0), leaf(2, 1), Step { rule: 0, row: 2, children: vec![0, 1] }];
    assert_eq!(check_run(&set_e().encode(), &rows, &run_cells(&run)), Err(Refusal::plain(24)));
    let unfinished = run_cells(&run[..2]);
    let answer = check_run(&set_e().encode(), &rows, &unfinished);
    assert_eq!(answer, Err(Refusal::plain(25)), "no step sees the two together");
}

#[test]
fn a_last_step_not_on_the_last_row_or_not_final_is_25() {
    assert_eq!(run_number(&[(2, 0, &[])]), Some(25), "final, but on row 0");
    assert_eq!(run_number(&[(2, 0, &[]), (0, 1, &[0])]), Some(25), "not final");
}

#[test]
fn an_unused_step_is_26() {
    assert_eq!(run_number(&[(2, 0, &[]), (2, 0, &[]), (0, 1, &[0]), (1, 2, &[2])]), Some(26));
    assert_eq!(run_number(&[(2, 0, &[]), (0, 1, &[0]), (2, 0, &[]), (1, 2, &[1])]), Some(26));
}

#[test]
fn run_space_below_the_room_is_32_before_too_many_annotations_is_31() {
    let (set, rows) = (set_e().encode(), document(&set_e(), "s0(s1,s1)").cells());
    assert_eq!(membership(&set, &rows, 32, 5), Err(Refusal::plain(32)));
    assert_eq!(membership(&set, &rows, 32, 6), Err(Refusal::plain(31)));
    assert!(membership(&set, &rows, 64, 12).is_ok());
}

#[test]
fn space_for_fewer_rows_than_states_is_42_before_a_shared_tag_is_41() {
    let mut set = set_e();
    set.states[1].tags = 1;
    assert_eq!(witness(&set.encode(), 19), Err(Refusal::plain(42)));
    assert_eq!(witness(&set.encode(), 20), Err(Refusal::plain(41)));
    assert!(witness(&set_e().encode(), 20).is_ok());
}

#[test]
fn unlike_symbols_are_51_and_too_large_a_result_52_and_too_little_space_53() {
    let (e, g) = (set_e().encode(), set_g().encode());
    assert_eq!(union(&e, &g, 1000), Err(Refusal::plain(51)));
    assert_eq!(product(&e, &g, 1000), Err(Refusal::plain(51)));
    let states = |count| Automaton { states: vec![state(true, 0); count], ..set_d() }.encode();
    assert_eq!(union(&states(129), &states(128), 0), Err(Refusal::plain(52)));
    assert_eq!(product(&states(86), &states(3), 0), Err(Refusal::plain(52)));
    let tags = |tag_count| Automaton { tag_count, ..set_d() }.encode();
    assert_eq!(union(&tags(9), &tags(8), 0), Err(Refusal::plain(52)));
    assert_eq!(union(&tags(8), &tags(8), 0), Err(Refusal::plain(53)));
    let rules = |count: usize| Automaton {
        rules: (0..count).map(|number| rule(0, &[number / 64, number % 64], 0)).collect(),
        states: vec![state(true, 0); 64],
        ..set_d()
    };
    assert_eq!(union(&rules(1000).encode(), &rules(25).encode(), 0), Err(Refusal::plain(52)));
    assert_eq!(union(&rules(1000).encode(), &rules(24).encode(), 0), Err(Refusal::plain(53)));
    let length = union(&e, &set_b().encode(), 1000).expect("a union").len();
    assert_eq!(union(&e, &set_b().encode(), length - 1), Err(Refusal::plain(53)));
}

#[test]
fn a_wrong_list_is_61_before_two_symbols_shown_alike_are_62() {
    assert_eq!(check_names(b"a\na", b"A", 2), Err(Refusal::plain(61)));
    assert_eq!(check_names(b"a\na", b"", 2), Err(Refusal::plain(62)));
    assert_eq!(check_names(b"a\na", b"", 1), Ok(vec![b"a".to_vec()]));
}

#[test]
fn lines_are_judged_by_61_and_62_without_spaces_and_bytes_13_at_their_ends() {
    let number = |site: &[u8], built_in: &[u8], symbols| {
        check_names(site, built_in, symbols).err().map(|refusal| refusal.number)
    };
    assert_eq!(number(b"a\r\nb \n", b"", 2), None);
    assert_eq!(number(b"a\r\nb b\n", b"", 2), Some(61));
    assert_eq!(number(b"a\na\r\n", b"", 2), Some(62), "alike in one list");
    assert_eq!(number(b"a\na\r\n", b"", 1), None);
    assert_eq!(number(b"a ", b"\r\na", 2), Some(62), "alike in the two lists");
    assert_eq!(number(b"a ", b"a\r\n", 2), None, "the same symbol's");
    assert_eq!(number(b"s1\r\n", b"", 2), Some(62), "what symbol 1 is shown by without a name");
    assert_eq!(number(b"s1\r\n \r\n", b"", 2), Some(62), "the same with an empty line for symbol 1");
    assert_eq!(number(b"s1\r\nb\r\n", b"", 2), None);
    assert_eq!(number(b"a\r\na\r\n", b" b", 2), Some(61), "before 62");
}

#[test]
fn refusals_of_text_63_to_67() {
    let read = |text: &[u8], rows| read_term(&set_e().encode(), b"", b"", text, ROW_CELLS * rows);
    assert_eq!(read(b"s0(s1,", 9), Err(Refusal::at(63, 6)));
    assert_eq!(read("s0(".repeat(257).as_bytes(), 9), Err(Refusal::at(64, 768)));
    assert_eq!(read(b"s0(s1,s3)", 9), Err(Refusal::at(65, 6)));
    assert_eq!(read(b"s0(s1,s0)", 9), Err(Refusal::at(66, 6)));
    assert_eq!(read(b"s0(s1,s2)", 1), Err(Refusal::at(67, 6)));
}

#[test]
fn text_longer_than_the_space_is_68() {
    let rows = document(&set_e(), "s0(s1,s1)").cells();
    let write = |space| write_term(&set_e().encode(), b"", b"", &rows, space);
    assert_eq!(write(8), Err(Refusal::plain(68)));
    assert_eq!(write(9), Ok(b"s0(s1,s1)".to_vec()));
}

#[test]
fn input_over_32768_bytes_is_69_before_all_others() {
    let mut input = [set_e().encode(), b"s1=".to_vec()].concat();
    input.resize(32_768, b'1');
    assert_eq!(judge_program(&input), b"refused 63 at 23\n");
    input.push(b'1');
    assert_eq!(judge_program(&input), b"refused 69\n");
}

#[test]
fn places_are_tried_in_the_order_of_the_table() {
    let set = set_e().encode();
    assert_eq!(read_term(&set[..3], b"A", b"", b"", 0), Err(Refusal::plain(1)));
    assert_eq!(read_term(&set, b"A", b"", b"", 0), Err(Refusal::plain(61)));
    assert_eq!(read_term(&set, b"a", b"", b"", ROW_SPACE), Err(Refusal::at(63, 0)));
    assert_eq!(write_term(&set, b"A", b"", &[], 0), Err(Refusal::plain(61)));
    assert_eq!(write_term(&set, b"a", b"", &[], 0), Err(Refusal::plain(11)));
    assert_eq!(check_run(&set, &[], &[]), Err(Refusal::plain(11)));
    assert_eq!(membership(&set, &[], 32, 0), Err(Refusal::plain(11)));
}
