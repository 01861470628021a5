//! The settled readings of document 02 on JSON: every example that they give, and what lies next to it.

mod common;

use common::{json, json_refusal, json_refusal_with, leaf, over, ROW_SPACE};
use reference::json_keys::{END, FIRST_KEY, ITEM, NUMBER, OTHER, STOP, TEXT};
use reference::limits::ROW_CELLS;
use reference::Scalar::{Count, Name, Rate};
use reference::{read_json, Refusal, Scalar};

/// What a text gives with no keys and space for so many rows: the number of rows, or a refusal's number and place.
fn with_rows(text: &str, rows: usize) -> Result<usize, (u8, usize)> {
    read_json(b"", text.as_bytes(), ROW_CELLS * rows)
        .map(|document| document.rows.len())
        .map_err(|refusal| (refusal.number, refusal.place.expect("a place")))
}

/// The scalars of the number rows of a text, in order.
fn numbers(text: &str) -> Vec<Scalar> {
    let rows = json("", text).rows;
    rows.into_iter().filter(|row| row.symbol == NUMBER).map(|row| row.scalar).collect()
}

#[test]
fn the_key_list_comes_first_and_has_no_place() {
    for list in [&b"\n"[..], b"a\n\nb", &[b'k'; 65], b"a\nb\na", b"a\na"] {
        assert_eq!(read_json(list, b"?", 0), Err(Refusal::plain(74)), "{}", list.escape_ascii());
    }
    assert_eq!(read_json(b"", b"?", 0), Err(Refusal::at(71, 0)));
}

#[test]
fn lines_are_not_trimmed_and_may_hold_any_bytes() {
    for (list, key) in
        [("a \n", "a "), ("a\r\n", r"a\r"), (" a", " a"), ("\t", r"\t"), ("\0", r"\u0000"), ("{", "{")]
    {
        let document = json(list, &format!("{{\"{key}\":1}}"));
        assert_eq!(document.rows.last(), Some(&over(FIRST_KEY, &[0, 1])), "{list:?}");
    }
    let document = json("a \n", r#"{"a":1}"#);
    assert_eq!(document.rows.last(), Some(&over(OTHER, &[0, 1, 2])));
}

#[test]
fn a_line_that_is_not_utf_8_matches_nothing() {
    for line in [&b"\xff"[..], b"\xc3", b"\xed\xa0\x80", b"a\x80"] {
        let read = read_json(line, br#"{"a":1,"\u00c3":2}"#, ROW_SPACE).expect("the list is sound");
        assert!(read.rows.iter().all(|row| row.symbol < FIRST_KEY), "{}", line.escape_ascii());
    }
}

#[test]
fn texts_are_numbered_where_they_first_become_a_leaf() {
    let document = json("a", r#"{"a":"b","c":"a"}"#);
    let expected = [
        leaf(TEXT, Name(0)),
        leaf(TEXT, Name(1)),
        leaf(TEXT, Name(2)),
        leaf(END, Scalar::Bare),
        over(OTHER, &[1, 2, 3]),
        over(FIRST_KEY, &[0, 4]),
    ];
    assert_eq!(document.rows, expected);
}

#[test]
fn no_legal_continuation_is_71_at_the_byte_or_at_the_end() {
    let cases: [(&[u8], usize); 16] = [
        (b"\"\xe0\x80", 2),
        (b"\"\xc3\"", 2),
        (br#""\uDC00""#, 4),
        (br#""\ud800""#, 7),
        (br#""\ud800\n""#, 8),
        (br#""\ud800\u0041""#, 9),
        (br#""\ud800\ud800""#, 10),
        (b"\xef\xbb\xbf1", 0),
        (b"\x0b1", 0),
        (b"\xc2\xa01", 0),
        (b"1\x0c", 1),
        (b"", 0),
        (b" \t\r\n", 4),
        (b"[", 1),
        (b"\"", 1),
        (b"1e+", 3),
    ];
    for (text, place) in cases {
        assert_eq!(json_refusal(text), (71, place), "{}", text.escape_ascii());
    }
    assert_eq!(with_rows("\t\n\r 1\t\n\r ", 1), Ok(1), "the four bytes of white space");
}

#[test]
fn a_number_is_the_longest_one() {
    assert_eq!(json_refusal("[1e5x"), (73, 1));
    assert_eq!(json_refusal("[1e5"), (73, 1));
    assert_eq!(json_refusal("[1e"), (71, 3));
    assert_eq!(with_rows("1x", 0), Err((67, 0)));
    assert_eq!(with_rows("1x", 1), Err((71, 1)));
    assert_eq!(with_rows("01", 0), Err((71, 1)));
    assert_eq!(with_rows("-01", 0), Err((71, 2)));
    assert_eq!(with_rows("-", 0), Err((71, 1)));
    assert_eq!(with_rows("1.", 0), Err((71, 2)));
    assert_eq!(with_rows("1.x", 0), Err((71, 2)));
    assert_eq!(with_rows("1-2", 9), Err((71, 1)));
    assert_eq!(with_rows("12.5,", 0), Err((67, 3)));
}

#[test]
fn all_digits_count_toward_15() {
    assert_eq!(json_refusal("0.123456789012345"), (73, 0));
    assert_eq!(numbers("0.12345678901234"), [Rate((12345678901234.0 / 1e14_f64).to_bits())]);
    assert_eq!(json_refusal("0.000000000000000"), (73, 0));
    assert_eq!(json_refusal("100000000000000.0"), (73, 0));
}

#[test]
fn counts_end_at_2_to_the_64() {
    assert_eq!(numbers("18446744073709551615"), [Count(u64::MAX)]);
    assert_eq!(json_refusal("18446744073709551616"), (73, 0));
    assert_eq!(numbers("-0"), [Rate(0)]);
}

#[test]
fn at_level_257_a_values_first_byte_is_enough() {
    let at_257 = |rest: &str| json_refusal("[".repeat(256) + rest);
    assert_eq!(at_257("tru"), (64, 256));
    for rest in ["t", "f", "n", "-", "0", "9", "\"", "{", "["] {
        assert_eq!(at_257(rest), (64, 256), "{rest}");
    }
    assert_eq!(at_257(" \n1"), (64, 258));
    for rest in ["", "x", ",", "}", "+", ".", ":"] {
        assert_eq!(at_257(rest), (71, 256), "{rest}");
    }
}

#[test]
fn at_level_257_a_key_that_is_not_listed_is_64_once_its_string_is_whole() {
    let open = "[".repeat(255) + "{";
    assert_eq!(json_refusal(format!("{open}\"a\"")), (64, 256));
    assert_eq!(json_refusal(format!("{open} \"\"?")), (64, 257));
    assert_eq!(json_refusal(format!("{open}\"a")), (71, 258));
    assert_eq!(json_refusal(format!("{open}\"\\x")), (71, 258));
    assert_eq!(json_refusal_with("a", format!("{open}\"a\"")), (71, 259));
    assert_eq!(json_refusal_with("a", format!("{open}\"a\":?")), (71, 260));
    assert_eq!(json_refusal_with("a", format!("{open}\"a\":1")), (64, 260));
}

#[test]
fn at_one_quote_64_counts_before_72() {
    // The object stands at level 255, so that its second member has what it holds at level 257.
    let text = "[".repeat(254) + r#"{"a":1,"a""#;
    assert_eq!(json_refusal(&text), (64, 261));
    assert_eq!(json_refusal_with("a", &text), (72, 261));
    assert_eq!(json_refusal(&text[1..]), (72, 260), "a level higher");
}

#[test]
fn levels_of_members_and_elements() {
    // An array at level 250: element k has its value at level 251 + k.
    let elements = |count: usize| "[".repeat(249) + "[" + &vec!["1"; count].join(",");
    assert_eq!(json_refusal(elements(6)), (71, 261), "the sixth stands at level 256, and the text goes on");
    assert_eq!(json_refusal(elements(7)), (64, 262));
    let members = |count: usize| {
        let members: Vec<String> = (0..count).map(|k| format!("\"{k}\":1")).collect();
        "[".repeat(249) + "{" + &members.join(",")
    };
    assert_eq!(json_refusal(members(6)), (71, 285));
    assert_eq!(json_refusal(members(7)), (64, 286));
}

#[test]
fn a_row_too_many_is_67_at_the_byte_that_finishes_it() {
    for (rows, place) in [(0, 4), (1, 6), (2, 7), (3, 7)] {
        assert_eq!(with_rows(r#"{"ab":7}"#, rows), Err((67, place)), "space for {rows} rows");
    }
    assert_eq!(with_rows(r#"{"ab":7}"#, 4), Ok(4));
    for (text, place) in
        [("true", 3), ("false", 4), ("null", 3), ("\"a\"", 2), ("-1.50", 4), ("[ ]", 2), ("{ }", 2)]
    {
        assert_eq!(with_rows(text, 0), Err((67, place)), "{text}");
    }
    assert_eq!(with_rows("[1,1,1]", 2), Err((67, 6)));
    assert_eq!(with_rows("[1,1,1]", 5), Ok(5));
}

#[test]
fn rows_are_in_the_order_of_first_finishing() {
    let document = json("k", r#"[{"k":1},{"k":2},{"k":1}]"#);
    let expected = [
        leaf(NUMBER, Count(1)),
        leaf(END, Scalar::Bare),
        over(FIRST_KEY, &[0, 1]),
        leaf(NUMBER, Count(2)),
        over(FIRST_KEY, &[3, 1]),
        leaf(STOP, Scalar::Bare),
        over(ITEM, &[2, 5]),
        over(ITEM, &[4, 6]),
        over(ITEM, &[2, 7]),
    ];
    assert_eq!(document.rows, expected);
}

/// Document 02, Wish 6.
#[test]
fn the_two_zeros_are_one_load() {
    assert_eq!(numbers("[-0,0.0]"), [Rate(0)]);
    assert_eq!(numbers("[0,-0]"), [Count(0), Rate(0)]);
    assert_eq!(numbers("[-0.0,-0,0.00,-0.000]"), [Rate(0)]);
    assert_eq!(with_rows("[-0,0.0]", 4), Ok(4), "one number, the end, and two elements");
    assert_eq!(with_rows("[0,-0]", 4), Err((67, 5)));
}
