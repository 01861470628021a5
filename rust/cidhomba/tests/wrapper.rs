//! The wrapper on set E and its documents: what comes back is the part that was written, or a refusal.

use std::fs;
use std::path::Path;

use cidhomba::*;

fn example(name: &str) -> Vec<u8> {
    let path = Path::new(env!("CARGO_MANIFEST_DIR")).join("../../examples").join(name);
    fs::read(&path).unwrap_or_else(|error| panic!("{}: {error}", path.display()))
}

/// Set E: it lets in a pair of two equal leaves.
fn set_e() -> Vec<u8> {
    example("e.set")
}

/// The cells of a table that stands in a file.
fn rows(name: &str) -> Vec<u16> {
    example(name).chunks_exact(2).map(|pair| u16::from_le_bytes([pair[0], pair[1]])).collect()
}

fn refused(reason: Reason) -> Refusal {
    Refusal { reason, place: None }
}

/// The run of pair(a=7,a=7): the leaf by rule 1, then the pair by rule 0.
const RUN: [u16; 12] = [1, 0, 65_535, 65_535, 65_535, 65_535, 0, 1, 0, 0, 65_535, 65_535];

#[test]
fn checks() {
    let (set, equal) = (set_e(), rows("pair-7-7.rows"));
    assert_eq!(check_automaton(&set), Ok(()));
    assert_eq!(check_automaton(&set[..58]), Err(refused(Reason::SetLengths)));
    assert_eq!(check_automaton(&[]), Err(refused(Reason::SetTooShort)));
    assert_eq!(check_document(&set, &equal), Ok(()));
    assert_eq!(check_document(&set, &equal[..19]), Err(refused(Reason::TableLength)));
    assert_eq!(check_document(&set, &[]), Err(refused(Reason::TableLength)));
}

#[test]
fn runs() {
    let (set, equal) = (set_e(), rows("pair-7-7.rows"));
    assert_eq!(check_run(&set, &equal, &RUN), Ok(()));
    assert_eq!(check_run(&set, &equal, &RUN[..6]), Err(refused(Reason::RunEnd)));
    assert_eq!(check_run(&set, &equal, &[]), Err(refused(Reason::RunLength)));
}

#[test]
fn judging() {
    let (mut work, mut run) = ([9; 2 * ANNOTATION_CELLS], [9; 3 * STEP_CELLS]);
    let equal = rows("pair-7-7.rows");
    assert_eq!(membership(&set_e(), &equal, &mut work, &mut run), Ok(Judgement::Yes(&RUN)));
    assert_eq!(work, [0; 2 * ANNOTATION_CELLS]);
    assert_eq!(run[12..], [9; 6]);
    let unequal = rows("pair-7-8.rows");
    assert_eq!(membership(&set_e(), &unequal, &mut work, &mut run), Ok(Judgement::No));
    assert_eq!(membership(&set_e(), &equal, &mut work[..32], &mut run), Err(refused(Reason::NoRoom)));
    assert_eq!(membership(&set_e(), &equal, &mut work, &mut run[..11]), Err(refused(Reason::RunSpace)));
}

#[test]
fn two_sets() {
    let set = set_e();
    let mut out = [0; MAX_SET_BYTES];
    // 16 + 3 + 3 * 4 + 12 * 6 bytes; of the product's rules each symbol has one.
    assert_eq!(union(&set, &set, &mut out).map(<[u8]>::len), Ok(103));
    assert_eq!(product(&set, &set, &mut out).map(<[u8]>::len), Ok(67));
    assert_eq!(union(&set, &set, &mut out[..102]), Err(refused(Reason::ResultSpace)));
    assert_eq!(product(&set, &set[..58], &mut out), Err(refused(Reason::SetLengths)));
}

#[test]
fn states_of_both_widths() {
    let set = set_e();
    let (mut out, mut back) = ([9; 70], [9; 70]);
    let expected = [&set[..12], &[25, 0, 61, 0, 2, 0, 0, 0, 1, 0, 1, 0, 0], &set[23..]].concat();
    let wide = widen_states(&set, &mut out).expect("E is narrow");
    assert_eq!(wide, expected);
    assert_eq!(narrow_states(wide, &mut back), Ok(&set[..]));
    assert_eq!(back[59..], [9; 11]);
    assert_eq!(widen_states(wide, &mut back), Err(refused(Reason::SetForm)));
    assert_eq!(narrow_states(&set, &mut back), Err(refused(Reason::SetForm)));
    assert_eq!(narrow_states(wide, &mut back[..58]), Err(refused(Reason::ResultSpace)));
    assert_eq!(narrow_states(&wide[..60], &mut back), Err(refused(Reason::SetLengths)));
    let mut many = wide.to_vec();
    many[4] = 9;
    assert_eq!(narrow_states(&many, &mut back), Err(refused(Reason::SetTags)));
    assert_eq!(widen_states(&set, &mut out[..60]), Err(refused(Reason::ResultSpace)));
    assert_eq!(out[61..], [9; 9]);
}

#[test]
fn rules_of_both_widths() {
    let wide = example("e-wide.set");
    let (mut out, mut back) = ([9; 75], [9; 75]);
    let rule = |number: usize| [&wide[25 + 12 * number..][..12], &[0, 0]].concat();
    let expected = [&wide[..14], &[67, 0], &wide[16..25], &rule(0), &rule(1), &rule(2)].concat();
    let long = widen_rules(&wide, &mut out).expect("the rules have 12 bytes");
    assert_eq!(long, expected);
    assert_eq!(narrow_rules(long, &mut back), Ok(&wide[..]));
    assert_eq!(back[61..], [9; 14]);
    assert_eq!(widen_rules(long, &mut back), Err(refused(Reason::SetForm)));
    assert_eq!(narrow_rules(&wide, &mut back), Err(refused(Reason::SetForm)));
    assert_eq!(narrow_rules(long, &mut back[..60]), Err(refused(Reason::ResultSpace)));
    assert_eq!(narrow_rules(&long[..66], &mut back), Err(refused(Reason::SetLengths)));
    let mut forgetting = long.to_vec();
    forgetting[65] = 1; // the last rule forgets tag 0
    assert_eq!(narrow_rules(&forgetting, &mut back[..0]), Err(refused(Reason::RuleForgets)));
    forgetting[37] = 2; // and the first one a tag that the set does not have
    assert_eq!(narrow_rules(&forgetting, &mut back), Err(refused(Reason::SetForgets)));
    assert_eq!(widen_rules(&wide, &mut out[..66]), Err(refused(Reason::ResultSpace)));
    assert_eq!(out[67..], [9; 8]);
    assert_eq!(widen_rules(&set_e(), &mut out), Err(refused(Reason::SetForm)));
    assert_eq!(narrow_rules(&set_e(), &mut out), Err(refused(Reason::SetForm)));
}

/// The wide form of E without its rules: 25 bytes, which every move but one takes.
#[test]
fn a_set_without_rules() {
    let wide = example("e-wide.set");
    let empty = [&wide[..6], &[0, 0], &wide[8..14], &[25, 0], &wide[16..25]].concat();
    let mut out = [9; 26];
    assert_eq!(widen_rules(&empty, &mut out), Ok(&empty[..]));
    assert_eq!(narrow_rules(&empty, &mut out), Ok(&empty[..]));
    assert_eq!(out[25], 9);
    assert_eq!(narrow_rules(&empty, &mut out[..24]), Err(refused(Reason::ResultSpace)));
    assert_eq!(narrow_states(&empty, &mut out).map(<[u8]>::len), Ok(23));
    assert_eq!(widen_states(&empty, &mut out), Err(refused(Reason::SetForm)));
}

/// Lists of pairs, each of two equal parts: the rule for a pair forgets the tag that holds them together.
#[test]
fn a_set_that_forgets() {
    let pairs = example("pairs.set");
    let (mut space, mut out) = ([0; 9 * ROW_CELLS], [0; MAX_SET_BYTES]);
    let (mut work, mut run) = ([0; 9 * ANNOTATION_CELLS], [0; 9 * STEP_CELLS]);
    for (text, is_let_in) in
        [("s1(s0(s3=1,s3=1),s1(s0(s3=2,s3=2),s2))", true), ("s1(s0(s3=1,s3=1),s1(s0(s3=2,s3=3),s2))", false)]
    {
        let rows = read_term(&pairs, Names::default(), text.as_bytes(), &mut space).expect("a sound text");
        let judgement = membership(&pairs, rows, &mut work, &mut run).expect("there is room");
        assert_eq!(matches!(judgement, Judgement::Yes(_)), is_let_in, "{text}");
        if let Judgement::Yes(steps) = judgement {
            assert_eq!(check_run(&pairs, rows, steps), Ok(()));
        }
    }
    assert_eq!(narrow_states(&pairs, &mut out), Err(refused(Reason::SetForm)));
    assert_eq!(widen_states(&pairs, &mut out), Err(refused(Reason::SetForm)));
    assert_eq!(narrow_rules(&pairs, &mut out), Err(refused(Reason::RuleForgets)));
    assert_eq!(widen_rules(&pairs, &mut out), Err(refused(Reason::SetForm)));
    // 16 + 4 + 3 * 6 + 14 * 8 bytes.
    assert_eq!(union(&pairs, &pairs, &mut out).map(<[u8]>::len), Ok(150));
    let mut strange = pairs.clone();
    strange[41] = 2;
    assert_eq!(check_automaton(&strange), Err(refused(Reason::SetForgets)));
    assert_eq!(product(&pairs, &strange, &mut out), Err(refused(Reason::SetForgets)));
}

#[test]
fn dead_or_live() {
    let mut space = [0; 2 * ROW_CELLS];
    let leaf = [1, 65_535, 65_535, 65_535, 65_535, 0, 0, 0, 0, 0];
    let pair = [0, 0, 0, 65_535, 65_535, 0, 0, 0, 0, 0];
    let sample = [leaf, pair].concat();
    assert_eq!(witness(&set_e(), &mut space), Ok(Witness::Live { rows: &sample, levels: 2 }));
    assert_eq!(witness(&set_e(), &mut space[..19]), Err(refused(Reason::RowSpace)));
}

#[test]
fn reading_text() {
    let names = Names { site: b"pair\na", built_in: b"" };
    let mut space = [0; 4 * ROW_CELLS];
    let equal = rows("pair-7-7.rows");
    assert_eq!(read_term(&set_e(), names, b"pair(a=7,a=7)", &mut space), Ok(&equal[..]));
    let at_the_second_child = Refusal { reason: Reason::NameUnknown, place: Some(9) };
    assert_eq!(read_term(&set_e(), names, b"pair(a=7,c=7)", &mut space), Err(at_the_second_child));
}

#[test]
fn a_list_saved_on_windows() {
    let names = Names { site: b"pair \r\na\r\n", built_in: b"" };
    let (mut space, mut text) = ([0; 2 * ROW_CELLS], [0; 13]);
    let equal = rows("pair-7-7.rows");
    assert_eq!(read_term(&set_e(), names, b"pair(a=7,a=7)", &mut space), Ok(&equal[..]));
    assert_eq!(write_term(&set_e(), names, &equal, &mut text), Ok(&b"pair(a=7,a=7)"[..]));
    let in_the_middle = Names { site: b"pa ir\r\n", built_in: b"" };
    assert_eq!(write_term(&set_e(), in_the_middle, &equal, &mut text), Err(refused(Reason::ListLine)));
}

/// An idle server's load as two makers print it.
#[test]
fn two_zeros_are_one_load() {
    let text = b"s0(s1~8000000000000000,s1~0000000000000000)";
    let (mut space, mut work, mut run) = ([0; 3 * ROW_CELLS], [0; 2 * ANNOTATION_CELLS], [0; 2 * STEP_CELLS]);
    let rows = read_term(&set_e(), Names::default(), text, &mut space).expect("the text is sound");
    assert_eq!(rows.len(), 2 * ROW_CELLS);
    assert_eq!(membership(&set_e(), rows, &mut work, &mut run), Ok(Judgement::Yes(&RUN)));
    let mut back = [0; 43];
    let zeros = b"s0(s1~0000000000000000,s1~0000000000000000)";
    assert_eq!(write_term(&set_e(), Names::default(), rows, &mut back), Ok(&zeros[..]));
    let mut given = rows.to_vec();
    assert_eq!(given[5..10], [3, 0, 0, 0, 0]);
    given[9] = 0x8000;
    assert_eq!(check_document(&set_e(), &given), Err(refused(Reason::RowScalar)));
}

#[test]
fn writing_text() {
    let names = Names { site: b"pair\na", built_in: b"" };
    let mut text = [0; 40];
    let equal = rows("pair-7-7.rows");
    assert_eq!(write_term(&set_e(), names, &equal, &mut text), Ok(&b"pair(a=7,a=7)"[..]));
    assert_eq!(write_term(&set_e(), Names::default(), &equal, &mut text), Ok(&b"s0(s1=7,s1=7)"[..]));
    assert_eq!(write_term(&set_e(), names, &equal, &mut text[..12]), Err(refused(Reason::TextSpace)));
}

#[test]
fn reading_json() {
    const U: u16 = 65_535;
    let mut space = [9; 5 * ROW_CELLS];
    let one = [6, U, U, U, U, 2, 1, 0, 0, 0];
    let stop = [1, U, U, U, U, 0, 0, 0, 0, 0];
    let item = [3, 0, 1, U, U, 0, 0, 0, 0, 0];
    let end = [0, U, U, U, U, 0, 0, 0, 0, 0];
    let member = [8, 2, 3, U, U, 0, 0, 0, 0, 0];
    let expected = [one, stop, item, end, member].concat();
    assert_eq!(read_json(b"k", br#" {"k": [1]}"#, &mut space), Ok(&expected[..]));
    let refused_at = |reason, place| Err(Refusal { reason, place: Some(place) });
    assert_eq!(read_json(b"k", br#"{"k":[1]}"#, &mut space[..49]), refused_at(Reason::TextRows, 8));
    assert_eq!(read_json(b"k", br#"{"k":[1]"#, &mut space), refused_at(Reason::JsonFault, 8));
    assert_eq!(read_json(b"k", br#"{"k":0,"k":0}"#, &mut space), refused_at(Reason::KeyRepeated, 7));
    assert_eq!(read_json(b"k", b"[1e9]", &mut space), refused_at(Reason::NumberForm, 1));
    assert_eq!(read_json(b"", "[".repeat(300).as_bytes(), &mut space), refused_at(Reason::TextLevel, 256));
    assert_eq!(read_json(b"k\nk", b"", &mut space), Err(refused(Reason::KeyList)));
}

/// Whether the set of an export in `examples/json` lets in an export.
fn let_in(set: &str, export: &str) -> bool {
    let_in_with_keys(set, set, export)
}

/// The same where the list of keys has a name of its own.
fn let_in_with_keys(set: &str, keys: &str, export: &str) -> bool {
    let [set, keys] = [format!("json/{set}.set"), format!("json/{keys}.keys")].map(|name| example(&name));
    let mut space = vec![0; ROW_CELLS * MAX_ROWS];
    let (mut work, mut run) = (vec![0; ANNOTATION_CELLS * MAX_ROOM], vec![0; STEP_CELLS * MAX_ROOM]);
    let rows =
        read_json(&keys, &example(&format!("json/{export}.json")), &mut space).expect("the export is read");
    matches!(membership(&set, rows, &mut work, &mut run), Ok(Judgement::Yes(_)))
}

#[test]
fn the_bad_evening_in_json() {
    assert!(let_in("evening", "evening"));
    assert!(!let_in("evening", "evening-queue"));
    assert!(!let_in("evening", "evening-swapped"));
    assert!(let_in("uwsgi", "uwsgi"));
}

#[test]
fn paired_servers() {
    assert!(let_in("paired", "paired"));
    assert!(!let_in("paired", "paired-mixed"));
    assert!(!let_in("paired", "paired-odd"));
    assert!(!let_in_with_keys("paired-strict", "paired", "paired"));
}
