//! The settled readings of documents 01 and 02: texts, lists, spaces and programs where a sentence needed one.

mod common;

use common::{document, ROW_SPACE};
use reference::examples::{rule, set_d, set_e, state};
use reference::limits::ROW_CELLS;
use reference::{
    check_automaton, check_names, judge_program, membership, read_term, witness, write_term, Automaton,
    Refusal, MINUS_ZERO,
};

/// The number of rows, or a refusal's number and place.
type Reading = Result<usize, (u8, usize)>;

/// What a text gives against set E without name lists.
fn read(text: &str, row_space: usize) -> Reading {
    read_term(&set_e().encode(), b"", b"", text.as_bytes(), row_space * ROW_CELLS)
        .map(|document| document.rows.len())
        .map_err(|refusal| (refusal.number, refusal.place.expect("a place")))
}

#[test]
fn texts_against_e() {
    let cases: [(&str, usize, Reading); 22] = [
        ("", 1024, Err((63, 0))),
        ("s1 ", 1024, Err((63, 2))),
        ("s9(", 1024, Err((65, 0))),
        ("s0(s1,s1", 1024, Err((63, 8))),
        ("s0(s1,s1))", 1024, Err((63, 9))),
        ("s0()", 1024, Err((63, 3))),
        ("s0(s1)x", 1024, Err((66, 0))),
        ("s0(s1,s2,s1,s1,s1,s1)", 1024, Err((66, 0))),
        ("s0=1x", 1024, Err((66, 0))),
        ("s1(s1)", 1024, Err((66, 0))),
        ("s0(s1,s2)", 2, Err((67, 0))),
        ("s1=00", 1024, Err((63, 4))),
        ("s1=18446744073709551615", 1024, Ok(1)),
        ("s1=18446744073709551616", 1024, Err((63, 22))),
        ("s1=tru", 1024, Err((63, 6))),
        ("s1=truex", 1024, Err((63, 7))),
        ("s1#4294967296", 1024, Err((63, 12))),
        ("s1~0123456789abcdeF", 1024, Err((63, 18))),
        ("s1~0123456789abcdef0", 1024, Err((63, 19))),
        ("aaaaaaaaaaaaaaaa", 1024, Err((65, 0))),
        ("aaaaaaaaaaaaaaaaa", 1024, Err((63, 16))),
        ("s0(s1,s2=1x", 1, Err((67, 6))),
    ];
    for (text, row_space, answer) in cases {
        assert_eq!(read(text, row_space), answer, "{text:?} with space for {row_space} rows");
    }
}

#[test]
fn texts_around_the_end_of_a_term() {
    assert_eq!(read("s0~0123456789abcdef0", 1024), Err((66, 0)));
    assert_eq!(read("s0=truex", 1024), Err((66, 0)));
    assert_eq!(read("s0=00", 1024), Err((63, 4)));
    assert_eq!(read("s0", 1024), Err((66, 0)));
    assert_eq!(read("s0 ", 1024), Err((66, 0)));
    assert_eq!(read("s0(s1,s9x", 1024), Err((65, 6)));
    assert_eq!(read("s1=", 1024), Err((63, 3)));
    assert_eq!(read("s1#4294967295", 1024), Ok(1));
    assert_eq!(read("s1=0", 1024), Ok(1));
    assert_eq!(read("s1=07", 1024), Err((63, 4)));
    assert_eq!(read("S1", 1024), Err((63, 0)));
    assert_eq!(read("s1,s1", 1024), Err((63, 2)));
}

#[test]
fn a_row_that_is_already_there_never_gives_67() {
    assert_eq!(read("s0(s1,s1)", 2), Ok(2));
    assert_eq!(read("s1", 0), Err((67, 0)));
    assert_eq!(read("s0", 0), Err((66, 0)));
}

/// Zero as rows have it, and as some makers print it.
const ZERO: &str = "s1~0000000000000000";
const MINUS: &str = "s1~8000000000000000";

#[test]
fn zeros_of_either_sign_are_one_row() {
    assert_eq!(read(&format!("s0({ZERO},{MINUS})"), 1024), Ok(2));
    assert_eq!(read(&format!("s0({MINUS},{ZERO})"), 1024), Ok(2));
    assert_eq!(read(&format!("s0(s0({ZERO},{MINUS}),s0({MINUS},{ZERO}))"), 1024), Ok(3));
    assert_eq!(read(&format!("s0({MINUS},s2~8000000000000000)"), 1024), Ok(3), "of two symbols");
    assert_eq!(read(&format!("s0({MINUS},s1~8000000000000001)"), 1024), Ok(3));
    assert_eq!(read("s0(s1=0,s1~8000000000000000)", 1024), Ok(3), "a count and a rate");
    assert_eq!(read("s0(s1=9223372036854775808,s1=0)", 1024), Ok(3), "counts have no sign");
    assert_eq!(read("s0(s1=9223372036854775808,s1~8000000000000000)", 1024), Ok(3));
}

#[test]
fn a_zero_that_is_already_there_gives_no_67_and_faults_keep_their_places() {
    assert_eq!(read(&format!("s0({ZERO},{MINUS})"), 2), Ok(2));
    assert_eq!(read(&format!("s0({MINUS},{ZERO})"), 1), Err((67, 0)));
    assert_eq!(read(MINUS, 0), Err((67, 0)));
    assert_eq!(read("s0~8000000000000000", 1024), Err((66, 0)));
    assert_eq!(read("s1~800000000000000", 1024), Err((63, 18)));
    assert_eq!(read("s1~80000000000000000", 1024), Err((63, 19)));
    assert_eq!(read("s1~-000000000000000", 1024), Err((63, 3)));
}

/// The text of a text's rows.
fn written_back(text: &str) -> String {
    let rows = document(&set_e(), text).cells();
    let back = write_term(&set_e().encode(), b"", b"", &rows, 100).expect("there is space");
    String::from_utf8(back).expect("letters and digits")
}

#[test]
fn only_the_rate_with_its_sign_bit_alone_is_written_back_in_other_digits() {
    assert_eq!(written_back(&format!("s0({MINUS},{ZERO})")), format!("s0({ZERO},{ZERO})"));
    let bits = (0..64).map(|place| 1 << place).flat_map(|bit: u64| [bit, MINUS_ZERO | bit]);
    for bits in bits.flat_map(|bits| [bits, !bits]) {
        let text = format!("s1~{bits:016x}");
        let expected = if bits == MINUS_ZERO { ZERO } else { &text };
        assert_eq!(written_back(&text), expected);
    }
    assert_eq!(written_back("s1=9223372036854775808"), "s1=9223372036854775808");
}

/// Set of g/1 and a/0.
fn unary_set() -> Automaton {
    Automaton { arities: vec![1, 0], states: vec![state(true, 0)], tag_count: 0, rules: vec![] }
}

#[test]
fn level_257_gives_64_for_a_letter_and_63_for_anything_else() {
    let read = |text: String| {
        read_term(&unary_set().encode(), b"", b"", text.as_bytes(), ROW_SPACE)
            .map(|document| document.levels())
    };
    let open = |levels: usize| "s0(".repeat(levels);
    assert_eq!(read(open(255) + "s1" + &")".repeat(255)), Ok(256));
    assert_eq!(read(open(256) + "s1"), Err(Refusal::at(64, 768)));
    assert_eq!(read(open(256) + "zzz"), Err(Refusal::at(64, 768)));
    assert_eq!(read(open(256) + "1"), Err(Refusal::at(63, 768)));
    assert_eq!(read(open(256)), Err(Refusal::at(63, 768)));
}

/// The names shown for E's three symbols, or the number.
fn shown(site: &[u8], built_in: &[u8]) -> Result<Vec<String>, u8> {
    let names = check_names(site, built_in, 3).map_err(|refusal| refusal.number)?;
    Ok(names.into_iter().map(|name| String::from_utf8(name).expect("letters")).collect())
}

/// Three names, as `shown` has them.
fn names(three: [&str; 3]) -> Result<Vec<String>, u8> {
    Ok(three.map(String::from).to_vec())
}

#[test]
fn lists_against_e() {
    assert_eq!(shown(b"s1", b""), Err(62));
    assert_eq!(shown(b"s1", b"\nt"), names(["s1", "t", "s2"]));
}

#[test]
fn lines_of_a_list() {
    use reference::names::lines;
    assert_eq!(lines(b"").len(), 0);
    assert_eq!(lines(b"a").len(), 1);
    assert_eq!(lines(b"a\n").len(), 1);
    assert_eq!(lines(b"a\nb").len(), 2);
    assert_eq!(lines(b" "), [b""]);
    assert_eq!(lines(b" \n"), [b""]);
    assert_eq!(lines(b"\n\r"), [b"", b""]);
    assert_eq!(lines(&[10; 64]).len(), 64);
    assert_eq!(shown(&[10; 64], b""), names(["s0", "s1", "s2"]));
    assert_eq!(shown(&[10; 65], b""), Err(61));
    assert_eq!(shown(b"", &[&[10; 64][..], b"a"].concat()), Err(61));
}

#[test]
fn lines_past_the_last_symbol_must_be_names_but_are_not_shown() {
    assert_eq!(shown(b"\n\n\nA", b""), Err(61));
    assert_eq!(shown(b"\n\n\ns0", b""), names(["s0", "s1", "s2"]));
    assert_eq!(shown(b"thisnamehas16byt", b"x"), names(["thisnamehas16byt", "s1", "s2"]));
    assert_eq!(shown(b"thisnamehas17byte", b""), Err(61));
    assert_eq!(shown(b"9a", b""), Err(61));
    assert_eq!(shown(b"p", b"q\nq\n"), names(["p", "q", "s2"]));
    assert_eq!(shown(b"p\np", b""), Err(62));
}

/// What editors may leave at the end of a line: nothing, spaces, bytes 13, and both in any mix.
const LINE_ENDS: [&str; 8] = ["", " ", "\r", "  ", "\r\r", " \r", "\r ", "\r  \r\r "];

#[test]
fn spaces_and_bytes_13_at_the_end_of_a_line_are_no_part_of_it() {
    for end in LINE_ENDS {
        let list = format!("pair{end}\n{end}\nb{end}");
        let past = format!("{list}\nx{end}\n{end}");
        for list in [list.as_bytes(), past.as_bytes()] {
            assert_eq!(shown(list, b""), names(["pair", "s1", "b"]), "{end:?}");
            assert_eq!(shown(b"", list), names(["pair", "s1", "b"]), "{end:?}");
            assert_eq!(shown(b"p\r\n \r\n", list), names(["p", "s1", "b"]), "{end:?}");
            assert_eq!(shown(list, b"p\r\na \r\n"), names(["pair", "a", "b"]), "{end:?}");
        }
    }
}

#[test]
fn a_name_of_16_bytes_stays_one_with_spaces_and_bytes_13_behind_it() {
    for end in LINE_ENDS {
        let list = |name: &str| format!("{name}{end}\n").into_bytes();
        assert_eq!(shown(&list("thisnamehas16byt"), b""), names(["thisnamehas16byt", "s1", "s2"]), "{end:?}");
        assert_eq!(shown(&list("thisnamehas17byte"), b""), Err(61), "{end:?}");
    }
}

#[test]
fn other_bytes_at_the_end_and_these_bytes_elsewhere_are_61() {
    for end in LINE_ENDS {
        for line in ["a b", "a\rb", " a", "\ra", "a\t", "a \t", "a\x0b", "a\x0c", "a\0", "\t", " \t"] {
            for before in ["", "\n", "\n\n\n"] {
                let list = format!("{before}{line}{end}\n");
                assert_eq!(shown(list.as_bytes(), b""), Err(61), "{list:?}");
                assert_eq!(shown(b"", list.as_bytes()), Err(61), "{list:?}");
            }
        }
    }
}

#[test]
fn a_line_of_spaces_and_bytes_13_alone_is_empty_but_is_a_line() {
    let shown_after = |line_ends: usize, rest: &str| {
        let list = "\n".repeat(line_ends) + rest;
        shown(list.as_bytes(), b"p\r")
    };
    assert_eq!(shown_after(64, ""), names(["p", "s1", "s2"]));
    for blank in &LINE_ENDS[1..] {
        assert_eq!(shown_after(0, blank), names(["p", "s1", "s2"]), "{blank:?}");
        assert_eq!(shown_after(63, blank), names(["p", "s1", "s2"]), "{blank:?}");
        assert_eq!(shown_after(64, blank), Err(61), "{blank:?}");
        let lines = |count: usize| format!("{blank}\n").repeat(count);
        assert_eq!(shown_after(0, &lines(64)), names(["p", "s1", "s2"]), "{blank:?}");
        assert_eq!(shown_after(0, &lines(65)), Err(61), "{blank:?}");
    }
}

#[test]
fn a_lower_number_counts_wherever_it_stands() {
    let mut bytes = set_e().encode();
    bytes[58] = 0;
    assert_eq!(check_automaton(&bytes), Err(Refusal::plain(6)));
    bytes[21] = 2;
    assert_eq!(check_automaton(&bytes), Err(Refusal::plain(5)));
    bytes[18] = 5;
    assert_eq!(check_automaton(&bytes), Err(Refusal::plain(4)));
    bytes.push(0);
    assert_eq!(check_automaton(&bytes), Err(Refusal::plain(3)));
    bytes[4] = 17;
    assert_eq!(check_automaton(&bytes), Err(Refusal::plain(2)));
}

#[test]
fn spaces_hold_what_fits_whole() {
    let set = set_e().encode();
    let rows = document(&set_e(), "s0(s1,s1)").cells();
    assert!(membership(&set, &rows, 95, 12).is_ok());
    assert_eq!(membership(&set, &rows, 96, 12), Err(Refusal::plain(32)));
    assert_eq!(membership(&set, &rows, 63, 11), Err(Refusal::plain(31)));
    assert_eq!(membership(&set, &rows, 64, 11), Err(Refusal::plain(32)));
    assert_eq!(membership(&set, &rows, usize::MAX, 6 * 4096 - 1), Err(Refusal::plain(32)));
    assert!(membership(&set, &rows, usize::MAX, 6 * 4096).is_ok());
    assert_eq!(witness(&set, 19), Err(Refusal::plain(42)));
    assert!(witness(&set, 20).is_ok());
}

#[test]
fn a_room_of_0_can_still_answer_no() {
    let rows = document(&set_d(), "s1").cells();
    let judgement = membership(&set_d().encode(), &rows, 31, 0).expect("no annotation, no refusal");
    assert!(!judgement.is_yes());
    assert_eq!(judgement.annotations, 0);
    let rows = document(&set_e(), "s1").cells();
    assert_eq!(membership(&set_e().encode(), &rows, 31, 0), Err(Refusal::plain(31)));
}

#[test]
fn sample_space_comes_before_shared_tags() {
    let sharing = Automaton {
        arities: vec![0],
        states: vec![state(true, 1), state(true, 1)],
        tag_count: 1,
        rules: vec![rule(0, &[], 0)],
    };
    assert_eq!(witness(&sharing.encode(), 19), Err(Refusal::plain(42)));
    assert_eq!(witness(&sharing.encode(), 20), Err(Refusal::plain(41)));
}

#[test]
fn the_judging_program_cuts_at_the_total_that_bytes_14_and_15_state() {
    let mut input = set_e().encode();
    input.extend(b"s0(s1,s1)");
    assert_eq!(judge_program(&input), b"yes\n");
    input[14] = 15;
    assert_eq!(judge_program(&input), b"refused 1\n");
    input[14] = 60;
    assert_eq!(judge_program(&input), b"refused 3\n");
    input[15] = 255;
    assert_eq!(judge_program(&input), b"refused 3\n");
    assert_eq!(judge_program(&[255; 15]), b"refused 1\n");
}
