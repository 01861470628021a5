//! Each refusal of the reader of JSON at its limit: the last input that passes, and the first that does not.

mod common;

use common::{json_refusal, json_refusal_with, ROW_SPACE};
use reference::json_keys::FIRST_KEY;
use reference::limits::ROW_CELLS;
use reference::{read_json, Document, Refusal};

fn read(keys: &str, text: &str) -> Result<Document, Refusal> {
    read_json(keys.as_bytes(), text.as_bytes(), ROW_SPACE)
}

/// The levels of the document that a text is read to.
fn levels(keys: &str, text: &str) -> usize {
    read(keys, text).unwrap_or_else(|refusal| panic!("{refusal:?}")).levels()
}

/// So many keys, line by line.
fn key_list(keys: usize) -> String {
    (0..keys).map(|key| format!("k{key}\n")).collect()
}

#[test]
fn a_list_of_56_keys_passes_and_57_give_74() {
    assert!(read(&key_list(56), "1").is_ok());
    assert!(read(key_list(56).trim_end(), "1").is_ok());
    assert_eq!(read(&key_list(57), "1"), Err(Refusal::plain(74)));
    assert_eq!(read(key_list(57).trim_end(), "1"), Err(Refusal::plain(74)));
    assert_eq!(read(&(key_list(56) + "\n"), "1"), Err(Refusal::plain(74)));
}

#[test]
fn a_key_of_64_bytes_passes_and_65_give_74() {
    for (list, passes) in [("k".repeat(64), true), ("k".repeat(65), false), ("é".repeat(32), true)] {
        for list in [list.clone(), list.clone() + "\n", "a\n".to_string() + &list] {
            assert_eq!(read(&list, "1").is_ok(), passes, "{list}");
        }
    }
    let long = "k".repeat(64);
    let last =
        |key: &str| read(&long, &format!("{{\"{key}\":1}}")).expect("sound").rows.pop().expect("a row");
    assert_eq!(last(&long).symbol, FIRST_KEY);
    assert!(last(&(long.clone() + "k")).symbol < FIRST_KEY, "a key of a text may be longer");
}

#[test]
fn two_equal_lines_give_74_wherever_they_stand() {
    for (first, second) in [(0, 1), (0, 55), (27, 28), (54, 55)] {
        let mut lines: Vec<String> = (0..56).map(|key| format!("k{key}")).collect();
        lines[second] = lines[first].clone();
        assert_eq!(read(&lines.join("\n"), "1"), Err(Refusal::plain(74)), "{first} and {second}");
    }
}

#[test]
fn levels_by_nested_arrays() {
    let around = |arrays: usize, value: &str| "[".repeat(arrays) + value + &"]".repeat(arrays);
    assert_eq!(levels("", &around(254, "1")), 255);
    assert_eq!(levels("", &around(255, "1")), 256);
    assert_eq!(json_refusal(around(256, "1")), (64, 256));
    assert_eq!(levels("", &around(256, "")), 256);
    assert_eq!(levels("", &around(255, "{}")), 256);
    assert_eq!(json_refusal(around(257, "")), (64, 256));
    assert_eq!(json_refusal("[".repeat(1_000_000)), (64, 256));
}

#[test]
fn levels_by_the_length_of_an_array() {
    let array = |elements: usize| format!("[{}]", vec!["1"; elements].join(","));
    assert_eq!(levels("", &array(254)), 255);
    assert_eq!(levels("", &array(255)), 256);
    assert_eq!(json_refusal(array(256)), (64, 511));
    assert_eq!(json_refusal(array(257)), (64, 511));
    assert_eq!(json_refusal(array(1_000_000)), (64, 511));
    assert_eq!(levels("", &format!("[[],{}", &array(254)[1..])), 256);
}

#[test]
fn levels_by_the_members_of_an_object() {
    let object = |members: usize| {
        let members: Vec<String> = (0..members).map(|member| format!("\"{member:03}\":1")).collect();
        format!("{{{}}}", members.join(","))
    };
    assert_eq!(levels("", &object(254)), 255);
    assert_eq!(levels("", &object(255)), 256);
    assert_eq!(json_refusal(object(256)), (64, 1 + 8 * 255));
    assert_eq!(json_refusal_with("255", object(256)), (64, 1 + 8 * 255 + 6), "a listed key: its value");
    assert_eq!(json_refusal(object(1_000)), (64, 1 + 8 * 255));
}

#[test]
fn levels_by_the_text_of_a_key() {
    let around = |arrays: usize, value: &str| "[".repeat(arrays) + value + &"]".repeat(arrays);
    assert_eq!(levels("", &around(253, r#"{"a":1}"#)), 255);
    assert_eq!(levels("", &around(254, r#"{"a":1}"#)), 256);
    assert_eq!(json_refusal(around(255, r#"{"a":1}"#)), (64, 256), "the key's text");
    assert_eq!(levels("a", &around(254, r#"{"a":1}"#)), 256);
    assert_eq!(json_refusal_with("a", around(255, r#"{"a":1}"#)), (64, 260), "the value");
    assert_eq!(levels("", &around(255, "{}")), 256);
}

/// Eleven arrays of 46 counts, no two counts alike: a row for each count and each element, and one that closes.
fn of_1024_rows() -> Vec<Vec<usize>> {
    (0..11).map(|array| (46 * array..46 * array + 46).collect()).collect()
}

#[test]
fn a_text_of_1024_rows_passes_and_1025_give_67() {
    let text = |arrays: &[Vec<usize>]| format!("{arrays:?}");
    let mut arrays = of_1024_rows();
    assert_eq!(read("", &text(&arrays)).map(|document| document.rows.len()), Ok(1024));
    // A count that is there already makes one row more, which a bracket finishes, as it does the eleven over it.
    arrays[10].push(0);
    let longer = text(&arrays);
    assert_eq!(json_refusal(&longer), (67, longer.len() - 1));
    arrays[10].push(1);
    assert_eq!(json_refusal(text(&arrays)).0, 67);
    let more_space = read_json(b"", longer.as_bytes(), ROW_SPACE + 100);
    assert_eq!(more_space, Err(Refusal::at(67, longer.len() - 1)), "more space is of no use");
}

#[test]
fn the_row_space_holds_whole_rows() {
    let text = br#"{"ab":7}"#;
    for cells in 0..4 * ROW_CELLS {
        let place = [4, 6, 7, 7][cells / ROW_CELLS];
        assert_eq!(read_json(b"", text, cells), Err(Refusal::at(67, place)), "{cells} cells");
    }
    for cells in 4 * ROW_CELLS..5 * ROW_CELLS {
        assert!(read_json(b"", text, cells).is_ok(), "{cells} cells");
    }
}

#[test]
fn fifteen_digits_pass_and_16_give_73() {
    for point in 1..15 {
        let digits = "123456789012345";
        let number = |digits: &str| format!("{}.{}", &digits[..point], &digits[point..]);
        for sign in ["", "-"] {
            assert!(read("", &(sign.to_string() + &number(digits))).is_ok());
            let longer = sign.to_string() + &number(&format!("{digits}6"));
            assert_eq!(json_refusal(&longer), (73, 0), "{longer}");
        }
    }
    assert!(read("", "-999999999999999").is_ok());
    assert_eq!(json_refusal("-1000000000000000"), (73, 0));
    assert!(read("", "9999999999999999").is_ok(), "a count may have more");
}

#[test]
fn counts_end_before_2_to_the_64() {
    assert!(read("", "18446744073709551615").is_ok());
    for text in
        ["18446744073709551616", "18446744073709551620", "20000000000000000000", "184467440737095516150"]
    {
        assert_eq!(json_refusal(text), (73, 0), "{text}");
    }
    assert_eq!(json_refusal("-18446744073709551615"), (73, 0));
}

#[test]
fn long_strings_and_long_white_space_are_read() {
    let long = "é\\n".repeat(500_000);
    assert_eq!(read("", &format!("\"{long}\"")).map(|document| document.rows.len()), Ok(1));
    assert_eq!(json_refusal(format!("\"{long}")), (71, 2_000_001));
    assert!(read("", &format!("{}1{}", " ".repeat(1_000_000), "\n".repeat(1_000_000))).is_ok());
    assert_eq!(json_refusal("1".repeat(1_000_000)), (73, 0));
    assert_eq!(json_refusal(" ".repeat(1_000_000)), (71, 1_000_000));
}

#[test]
fn a_deep_and_broad_text_of_equal_parts_has_few_rows() {
    // 100 equal arrays of 100 equal arrays of 20 equal elements each: each level is a row for each element.
    let array = |part: &str, count: usize| format!("[{}]", vec![part; count].join(","));
    let text = array(&array(&array("0", 20), 100), 100);
    let document = read("", &text).expect("sound");
    assert_eq!(document.rows.len(), 2 + 20 + 100 + 100);
    assert_eq!(document.levels(), 100 + 100 + 20 + 1);
}
