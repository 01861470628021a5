//! The library's writer of term text against the reference's.

use compare::answer::Answer;
use compare::calls::{write_term as compare, write_term_saved as compare_saved};
use compare::lists::NamedExport;
use compare::tally::{Tally, NAMES, SET, TABLE};
use generate::{documents, lists, rows, set_bytes, sets, Random};
use reference::examples::{set_e, set_g};
use reference::{Document, Row, Scalar, MINUS_ZERO};

/// The text's length where it is at most 3,000 bytes.
fn text_length(set: &[u8], site: &[u8], built_in: &[u8], rows: &[u16]) -> usize {
    reference::write_term(set, site, built_in, rows, 3000).map_or(3000, |text| text.len())
}

/// What a call is lent.
struct Call {
    set: Vec<u8>,
    site: Vec<u8>,
    built_in: Vec<u8>,
    rows: Vec<u16>,
    space: usize,
}

fn seeded(random: &mut Random) -> Call {
    let sizes = sets::any_sizes(random);
    let automaton = sets::any_automaton(random, &sizes);
    let (site, built_in) = lists::both(random, automaton.arities.len(), 15);
    let most = random.pick(&[1, 4, 12, 12, 60]);
    let rows = rows::lent(random, &automaton, most, 35);
    let set = set_bytes::stored(random, &automaton, 15);
    let length = text_length(&set, &site, &built_in, &rows);
    let space = random.pick(&[length, length, length + 1, length + 50, length.saturating_sub(1)]);
    let space = if random.percent(5) { random.below(length + 1) } else { space };
    Call { set, site, built_in, rows, space }
}

#[test]
fn seeded_documents() {
    let mut tally = Tally::of("write_term");
    for seed in 0..25_000 {
        let Call { set, site, built_in, rows, space } = seeded(&mut Random::new(seed));
        tally.count(compare(&set, &site, &built_in, &rows, space), |_| "written");
    }
    let numbers = [&SET[..], &NAMES, &TABLE, &[68]].concat();
    tally.must_reach(20_000, 200, &numbers, &["written"]);
}

#[test]
fn spaces_and_bytes_13_at_the_ends_of_lines_change_no_answer_and_no_text() {
    let mut tally = Tally::of("write_term, lists saved in two ways");
    for seed in 0..12_500 {
        let random = &mut Random::new(seed);
        let Call { set, site, built_in, rows, space } = seeded(random);
        for saved in lists::saved_in_two_ways(random, &site, &built_in) {
            let answer = compare_saved(&set, (&saved.0, &saved.1), (&site, &built_in), &rows, space);
            tally.count(answer, |_| "written");
        }
    }
    let numbers = [&SET[..], &NAMES, &TABLE, &[68]].concat();
    tally.must_reach(20_000, 200, &numbers, &["written"]);
}

#[test]
fn with_the_windows_list_of_the_examples_the_same_text_is_written() {
    let NamedExport { set, rows, text, plain, windows } = NamedExport::of_the_examples();
    for (space, expected) in [(text.len(), None), (text.len() - 1, Some(68))] {
        let site = compare_saved(&set, (&windows, b""), (&plain, b""), &rows, space);
        let built_in = compare_saved(&set, (b"", &windows), (b"", &plain), &rows, space);
        assert_eq!((site.number(), built_in.number()), (expected, expected));
    }
}

#[test]
fn every_scalar_at_its_limits_with_every_space() {
    let powers = (0..20).map(|power| 10u64.pow(power));
    let counts = powers.flat_map(|power| [power - 1, power]).chain([u64::MAX]).map(Scalar::Count);
    let names = (0..10).map(|power| 10u32.pow(power)).flat_map(|power| [power - 1, power]);
    let names = names.chain([u32::MAX]).map(Scalar::Name);
    let rates = (0..16).map(|digit| Scalar::Rate(0x1111_1111_1111_1111 * digit));
    let rates = rates.chain([0x0123_4567_89ab_cdef, MINUS_ZERO, MINUS_ZERO | 1].map(Scalar::Rate));
    let others = [Scalar::Bare, Scalar::Flag(false), Scalar::Flag(true), Scalar::Count(MINUS_ZERO)];
    for scalar in counts.chain(names).chain(rates).chain(others) {
        let row = Row { symbol: 2, children: vec![], scalar };
        let answers = (0..=26).map(|space| compare(&set_e().encode(), b"", b"\n\nb", &row.cells(), space));
        let refusals: Vec<Option<u8>> = answers.map(Answer::number).collect();
        if scalar == Scalar::Rate(MINUS_ZERO) {
            assert_eq!(refusals, [Some(14); 27], "with every space, and before 68");
        } else {
            assert_eq!((refusals[0], refusals[26]), (Some(68), None), "{scalar:?}");
        }
    }
}

/// Each hex digit alone at each of the 16 places, and among all the others there; then the smallest rate, bits
/// around the infinities, and those of NaNs, each with either sign, which are written as any others. Only an 8 alone at
/// the front is not: its sign bit is all that is set.
#[test]
fn every_hex_digit_at_every_place_of_a_rate() {
    let alone = (0..16).flat_map(|digit| (0..16).map(move |place| digit << (4 * place)));
    let all_digits = (0..16).map(|turn| 0x0123_4567_89ab_cdef_u64.rotate_left(4 * turn));
    let infinity = f64::INFINITY.to_bits();
    let edges = [1, infinity - 1, infinity, infinity + 1, f64::NAN.to_bits(), u64::MAX >> 1];
    let edges = edges.into_iter().flat_map(|bits| [bits, bits | 1 << 63]);
    for bits in alone.chain(all_digits).chain(edges) {
        let row = Row { symbol: 1, children: vec![], scalar: Scalar::Rate(bits) };
        let answer = compare(&set_e().encode(), b"\na", b"", &row.cells(), 18);
        let expected = match bits {
            MINUS_ZERO => Answer::Refused { number: 14, place: 0 },
            _ => Answer::Value(18),
        };
        assert_eq!(answer, expected, "{bits:016x}");
    }
}

#[test]
fn texts_too_long_for_any_space() {
    for set in [set_e(), set_g()] {
        for levels in [2, 10, 63, 64, 65, 66, 128, 255, 256] {
            let document = documents::chain(&set, levels).expect("there is a leaf");
            compare(&set.encode(), b"", b"", &document.cells(), 5000);
        }
    }
    let doubling = documents::chain(&set_e(), 256).expect("there is a leaf");
    assert_eq!(compare(&set_e().encode(), b"", b"", &doubling.cells(), 5000).number(), Some(68));
}

/// Lengths that a sum of 16, 32 or 64 bits would take for small ones: pairs of pairs of a leaf have
/// 7 * 2^n - 5 bytes, and each g around them adds 4.
#[test]
fn texts_whose_length_would_wrap_around() {
    let set = reference::Automaton { arities: vec![2, 0, 0, 1], rules: vec![], ..set_e() };
    for levels in [17, 18, 33, 34, 64, 65, 66, 67, 130, 240] {
        let mut document = documents::chain(&set, levels).expect("there is a leaf");
        for _ in 0..6 {
            let children = vec![document.last()];
            document.rows.push(Row { symbol: 3, children, scalar: Scalar::Bare });
            let answer = compare(&set.encode(), b"", b"", &document.cells(), 400);
            assert_eq!(answer.number(), Some(68), "{levels} levels of pairs");
        }
    }
}

/// Rows over a leaf with two, three or four children that are all the row below.
#[test]
fn every_space_around_the_length_of_a_text_with_shared_rows() {
    for arity in 1..=4 {
        let set = reference::Automaton { arities: vec![arity, 0, 0], rules: vec![], ..set_e() };
        let document = documents::chain(&set, 5).expect("there is a leaf");
        let bytes = set.encode();
        let length = reference::write_term(&bytes, b"", b"", &document.cells(), 5000).expect("fits").len();
        for space in [0, 1, length - 1, length, length + 1, 5000] {
            let expected = if space < length { Some(68) } else { None };
            let answer = compare(&bytes, b"", b"", &document.cells(), space);
            assert_eq!(answer.number(), expected, "{arity} children, space {space}");
        }
    }
}

#[test]
fn a_table_of_1024_rows() {
    let set = set_e();
    let document = documents::broad(&mut Random::new(8), &set, 1024).expect("E has leaves");
    let answer = compare(&set.encode(), b"pair", b"", &document.cells(), 60_000);
    assert!(matches!(answer, Answer::Value(length) if length > 10_000));
}

#[test]
fn names_come_before_the_table_and_the_table_before_68() {
    let set = set_e().encode();
    let leaf = Document { rows: vec![Row { symbol: 1, children: vec![], scalar: Scalar::Bare }] }.cells();
    assert_eq!(compare(&set, b"A", b"", &[], 0).number(), Some(61));
    assert_eq!(compare(&set, b"s1", b"", &[], 0).number(), Some(62));
    assert_eq!(compare(&set, b"", b"", &[], 0).number(), Some(11));
    assert_eq!(compare(&set, b"", b"", &leaf, 0).number(), Some(68));
    assert_eq!(compare(&set, b"", b"", &leaf, 2), Answer::Value(2));
    assert_eq!(compare(&set[..15], b"A", b"", &leaf, 2).number(), Some(1));
}

#[test]
fn spaces_and_bytes_13_behind_a_name_take_no_space() {
    let set = set_e().encode();
    let leaf = Row { symbol: 1, children: vec![], scalar: Scalar::Bare }.cells();
    for list in ["\na", "\r\na\r\n", " \na \r  \r"].map(str::as_bytes) {
        assert_eq!(compare(&set, list, b"", &leaf, 1), Answer::Value(1));
        assert_eq!(compare(&set, b" \r\n\r", list, &leaf, 0).number(), Some(68));
    }
    assert_eq!(compare(&set, b"\n\r\n", b"\n \n", &leaf, 2), Answer::Value(2), "s1, with no name");
}
