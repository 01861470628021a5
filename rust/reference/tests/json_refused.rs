//! The sentences of document 02, Wish 1, on what is turned away, one by one.

mod common;

use common::{json_refusal, json_refusal_with, ROW_SPACE};
use reference::limits::ROW_CELLS;
use reference::{read_json, Refusal};

#[test]
fn a_key_list_not_as_said_or_with_two_equal_lines_is_74_first() {
    for list in ["a\na", "\n", "a\n\n"] {
        assert_eq!(read_json(list.as_bytes(), b"", 0), Err(Refusal::plain(74)), "{list:?}");
    }
}

/// Stops unless each text is refused with 71 at its place.
fn faults(cases: &[(&str, usize)]) {
    for &(text, place) in cases {
        assert_eq!(json_refusal(text), (71, place), "{text:?}");
    }
}

#[test]
fn values_and_marks_that_are_not_rfc_8259_are_71() {
    faults(&[
        ("nul", 3),
        ("nule", 3),
        ("True", 0),
        ("NaN", 0),
        ("Infinity", 0),
        ("-Infinity", 1),
        ("'a'", 0),
        ("+1", 0),
        (".5", 0),
        ("0x10", 1),
        ("1_000", 1),
        ("[1,]", 3),
        ("[,1]", 1),
        ("[1 2]", 3),
        ("[1", 2),
        ("]", 0),
        ("[1}", 2),
        ("{\"a\":1]", 6),
        ("{\"a\":1,}", 7),
        ("{,}", 1),
        ("{\"a\" 1}", 5),
        ("{\"a\":}", 5),
        ("{a:1}", 1),
        ("{1:1}", 1),
        ("{\"a\":1 \"b\":2}", 7),
        ("1 2", 2),
        ("[]]", 2),
        ("// no comment\n1", 0),
    ]);
}

#[test]
fn strings_that_are_not_rfc_8259_are_71() {
    faults(&[
        ("\"a\nb\"", 2),
        ("\"\t\"", 1),
        ("\"\0\"", 1),
        ("\"\x1f\"", 1),
        ("\"\\a\"", 2),
        ("\"\\u12g4\"", 5),
        ("\"\\u123", 6),
        ("\"\\U0041\"", 2),
        ("\"\\'\"", 2),
    ]);
    assert!(read_json(b"", b"\"\x7f\"", ROW_SPACE).is_ok(), "byte 127 may stand in a string");
}

#[test]
fn text_that_is_not_utf_8_is_71() {
    let cases: [(&[u8], usize); 18] = [
        (b"\x80", 1),
        (b"\xbf", 1),
        (b"\xc0\x80", 1),
        (b"\xc1\xbf", 1),
        (b"\xc2\x41", 2),
        (b"\xc2\xc2", 2),
        (b"\xe0\x9f\xbf", 2),
        (b"\xe0\xa0\x41", 3),
        (b"\xe1\x80\xc0", 3),
        (b"\xed\xa0\x80", 2),
        (b"\xed\x9f\x7f", 3),
        (b"\xf0\x8f\xbf\xbf", 2),
        (b"\xf0\x90\x80\x41", 4),
        (b"\xf3\xbf\xbf\xff", 4),
        (b"\xf4\x90\x80\x80", 2),
        (b"\xf5\x80\x80\x80", 1),
        (b"\xfe", 1),
        (b"\xff", 1),
    ];
    for (bytes, place) in cases {
        assert_eq!(json_refusal([b"\"", bytes, b"\""].concat()), (71, place), "{}", bytes.escape_ascii());
    }
    for text in
        ["\u{80}", "\u{7ff}", "\u{800}", "\u{d7ff}", "\u{e000}", "\u{ffff}", "\u{10000}", "\u{10ffff}"]
    {
        assert!(read_json(b"", format!("\"{text}\"").as_bytes(), ROW_SPACE).is_ok());
    }
}

#[test]
fn half_a_surrogate_pair_is_71() {
    for (text, place) in [
        (r#""\uD800""#, 7),
        (r#""\udbff""#, 7),
        (r#""\udc00""#, 4),
        (r#""\uDFFF""#, 4),
        (r#""\ud800x""#, 7),
        (r#""\ud800\"""#, 8),
        (r#""\ud800\uD7ff""#, 10),
        (r#""\ud800\ue000""#, 9),
        (r#""\udc00\ud800""#, 4),
        (r#""\ud800\udc0""#, 12),
        (r#"{"\ud800":1}"#, 8),
    ] {
        assert_eq!(json_refusal(text), (71, place), "{text}");
    }
    for text in [r#""\ud7ff""#, r#""\ue000""#, r#""\ud800\udc00""#, r#""\uDBFF\uDFFF""#] {
        assert!(read_json(b"", text.as_bytes(), ROW_SPACE).is_ok(), "{text}");
    }
}

#[test]
fn a_key_repeated_in_one_object_after_decoding_is_72_at_its_opening_quote() {
    for keys in ["", "a", "b", "a\nb"] {
        assert_eq!(json_refusal_with(keys, r#"{"a":1,"a":1}"#), (72, 7));
        assert_eq!(json_refusal_with(keys, r#"{"a":1,"b":2, "\u0061":1}"#), (72, 14));
        assert_eq!(json_refusal_with(keys, r#"{"a":1,"a"?"#), (72, 7), "the key is whole");
        assert_eq!(json_refusal_with(keys, r#"{"a":1,"a"#), (71, 9), "it is not");
        assert!(read_json(keys.as_bytes(), br#"{"a":{"a":1},"b":{"a":1}}"#, ROW_SPACE).is_ok());
        assert!(read_json(keys.as_bytes(), br#"[{"a":1},{"a":1}]"#, ROW_SPACE).is_ok());
        assert!(read_json(keys.as_bytes(), br#"{"a":1,"A":1}"#, ROW_SPACE).is_ok());
    }
    assert_eq!(json_refusal(r#"{"":1,"":1}"#), (72, 6));
}

#[test]
fn a_number_outside_those_forms_is_73_at_its_first_byte_once_whole() {
    assert_eq!(json_refusal("[0, -1e5]"), (73, 4));
    assert_eq!(json_refusal("[1234567890.123456, 1e5]"), (73, 1));
    assert_eq!(json_refusal("[1234567890.123456."), (73, 1), "whole before its second point");
    assert_eq!(json_refusal("[1234567890123456."), (71, 18), "not whole");
    assert_eq!(json_refusal("[1234567890123456.5e"), (71, 20), "not whole");
}

#[test]
fn the_leftmost_place_counts() {
    assert_eq!(json_refusal(r#"{"a":1e5,"a":2}"#), (73, 5));
    assert_eq!(json_refusal(r#"{"a":1,"a":1e5}"#), (72, 7));
    assert_eq!(json_refusal(r#"{"a":1,"a":1e5"#), (72, 7));
    assert_eq!(json_refusal("[1e5,\"\\x"), (73, 1));
    assert_eq!(json_refusal("[\"\\x,1e5"), (71, 3));
    let with_one_row = |text: &str| read_json(b"", text.as_bytes(), ROW_CELLS).unwrap_err();
    assert_eq!(with_one_row("[1,1e5,2]"), Refusal::at(73, 3));
    assert_eq!(with_one_row("[1,2,1e5]"), Refusal::at(67, 3));
    assert_eq!(with_one_row("[1,22222"), Refusal::at(67, 7));
    assert_eq!(with_one_row(r#"{"a":"a","a":0}"#), Refusal::at(72, 9));
    assert_eq!(with_one_row(r#"{"a":"a","b":0}"#), Refusal::at(67, 11));
}

#[test]
fn a_refusal_of_a_value_at_level_257_comes_before_what_it_holds() {
    let at_257 = |rest: &str| json_refusal("[".repeat(256) + rest);
    for value in ["1e5", "01", "\"\\x", "tru", "{\"a\":1,\"a\":1}"] {
        assert_eq!(at_257(value), (64, 256), "{value}");
    }
}
