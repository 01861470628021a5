//! The sentences of document 02, Wish 1, one by one: what a text is read to. `json_refused.rs` has those on refusals.

mod common;

use common::{json, json_refusal, leaf, over, ROW_SPACE};
use reference::brute_force::Tree;
use reference::examples::rule;
use reference::json_keys::{arities, END, FIRST_KEY, FLAG, ITEM, NULL, NUMBER, OTHER, STOP, TEXT};
use reference::limits::MAX_KEYS;
use reference::Scalar::{Bare, Count, Flag, Name, Rate};
use reference::{check_document, witness, Automaton, Row, State};

/// The rows of a text without keys.
fn rows(text: &str) -> Vec<Row> {
    json("", text).rows
}

/// The tree of a text with keys.
fn tree(keys: &str, text: &str) -> Tree {
    let document = json(keys, text);
    Tree::of_row(&document, document.last())
}

#[test]
fn a_fixed_signature_numbered_from_0_in_this_order() {
    assert_eq!([END, STOP, OTHER, ITEM, NULL, FLAG, NUMBER, TEXT, FIRST_KEY], [0, 1, 2, 3, 4, 5, 6, 7, 8]);
    assert_eq!(arities(2), [0, 0, 3, 2, 0, 0, 0, 0, 2, 2]);
    assert_eq!(arities(MAX_KEYS).len(), 64, "as many symbols as a set can have");
}

#[test]
fn end_closes_an_object_and_stop_an_array() {
    assert_eq!(rows("{}"), [leaf(END, Bare)]);
    assert_eq!(rows("[]"), [leaf(STOP, Bare)]);
    assert_eq!(rows("[{}]"), [leaf(END, Bare), leaf(STOP, Bare), over(ITEM, &[0, 1])]);
}

#[test]
fn other_is_an_unlisted_key_with_text_value_and_rest() {
    let expected = [leaf(TEXT, Name(0)), leaf(NULL, Bare), leaf(END, Bare), over(OTHER, &[0, 1, 2])];
    assert_eq!(rows(r#"{"k":null}"#), expected);
}

#[test]
fn item_is_an_element_and_the_rest() {
    let expected = [
        leaf(NULL, Bare),
        leaf(FLAG, Flag(true)),
        leaf(STOP, Bare),
        over(ITEM, &[1, 2]),
        over(ITEM, &[0, 3]),
    ];
    assert_eq!(rows("[null,true]"), expected);
}

#[test]
fn null_flag_number_and_text_are_leaves() {
    assert_eq!(rows("null"), [leaf(NULL, Bare)]);
    assert_eq!(rows("true"), [leaf(FLAG, Flag(true))]);
    assert_eq!(rows("false"), [leaf(FLAG, Flag(false))]);
    assert_eq!(rows("7"), [leaf(NUMBER, Count(7))]);
    assert_eq!(rows("7.5"), [leaf(NUMBER, Rate(7.5_f64.to_bits()))]);
    assert_eq!(rows("\"seven\""), [leaf(TEXT, Name(0))]);
}

#[test]
fn each_listed_key_has_a_symbol_of_its_own_over_value_and_rest() {
    let keys: String = (0..MAX_KEYS).map(|line| format!("key {line}\n")).collect();
    for line in 0..MAX_KEYS {
        let text = format!("{{\"key {line}\":true}}");
        let expected = [leaf(FLAG, Flag(true)), leaf(END, Bare), over(FIRST_KEY + line, &[0, 1])];
        assert_eq!(json(&keys, &text).rows, expected);
    }
}

#[test]
fn lines_are_compared_with_the_decoded_key() {
    let listed = over(FIRST_KEY, &[0, 1]);
    for key in [r#"é\\\""#, r#"\u00e9\\\""#, r#"\u00E9\u005c\u0022"#] {
        assert_eq!(json(r#"é\""#, &format!("{{\"{key}\":0}}")).rows.last(), Some(&listed), "{key}");
    }
    for key in ["😀", r"\ud83d\ude00", r"\uD83D\uDE00"] {
        assert_eq!(json("😀", &format!("{{\"{key}\":0}}")).rows.last(), Some(&listed), "{key}");
    }
    for key in [r"a\/b", "a/b", r"\u0061/b"] {
        assert_eq!(json("a/b", &format!("{{\"{key}\":0}}")).rows.last(), Some(&listed), "{key}");
    }
    assert_eq!(json(r"a\/b", r#"{"a\/b":0}"#).rows.last(), Some(&over(OTHER, &[0, 1, 2])));
    assert_eq!(json("A", r#"{"a":0}"#).rows.last(), Some(&over(OTHER, &[0, 1, 2])), "case tells");
}

/// The numbers of the text leaves of a tree, from the left.
fn text_numbers(tree: &Tree) -> Vec<u32> {
    let own = if let Name(number) = tree.scalar { vec![number] } else { Vec::new() };
    tree.children.iter().fold(own, |numbers, child| [numbers, text_numbers(child)].concat())
}

#[test]
fn texts_are_numbered_from_0_by_first_appearance_after_escapes_are_decoded() {
    let numbers = |keys: &str, text: &str| text_numbers(&tree(keys, text));
    assert_eq!(numbers("", r#"["a","b","a","c","b"]"#), [0, 1, 0, 2, 1]);
    assert_eq!(numbers("", r#"["\n","\u000a","\u000A","n"]"#), [0, 0, 0, 1]);
    assert_eq!(
        numbers("", r#"["\b\f\n\r\t\"\\\/","\u0008\u000c\u000a\u000d\u0009\u0022\u005c\u002f"]"#),
        [0, 0]
    );
    assert_eq!(numbers("", r#"["é","\u00e9","e\u0301"]"#), [0, 0, 1], "nothing is normalised");
    assert_eq!(numbers("", r#"["𝄞","\ud834\udd1e","\uD834\uDD1E"]"#), [0, 0, 0]);
    assert_eq!(numbers("", r#"["","\u0000",""]"#), [0, 1, 0]);
    assert_eq!(numbers("", r#"{"a":"b","b":"a","c":{"a":"c"}}"#), [0, 1, 1, 0, 2, 0, 2]);
    assert_eq!(
        numbers("a", r#"{"a":"b","b":"a","c":{"a":"c"}}"#),
        [0, 0, 1, 2, 2],
        "a listed key takes none"
    );
}

#[test]
fn equal_numbers_mean_equal_texts_and_so_one_row() {
    let leaves = |text: &str| rows(text).iter().filter(|row| row.symbol == TEXT).count();
    assert_eq!(leaves(r#"["x","\u0078",{"x":"x"}]"#), 1);
    assert_eq!(leaves(r#"["x","X"]"#), 2);
}

/// The rate that a number is.
fn rate(text: &str) -> f64 {
    match rows(text)[..] {
        [Row { symbol: NUMBER, scalar: Rate(bits), .. }] => f64::from_bits(bits),
        ref rows => panic!("{text}: {rows:?}"),
    }
}

#[test]
fn a_whole_number_below_2_to_the_64_without_sign_fraction_or_exponent_is_a_count() {
    for (text, count) in
        [("0", 0), ("7", 7), ("1000000000000000", 10_u64.pow(15)), ("18446744073709551615", u64::MAX)]
    {
        assert_eq!(rows(text), [leaf(NUMBER, Count(count))]);
    }
    assert_eq!(rate("7.0"), 7.0, "a fraction makes it a rate");
    assert_eq!(rate("-7"), -7.0, "a sign makes it a rate");
    assert_eq!(json_refusal("7e0"), (73, 0), "an exponent makes it neither");
}

#[test]
fn any_other_number_has_no_exponent_and_at_most_15_digits_in_all() {
    for text in ["0e0", "1E5", "1e-5", "1.5e+3", "-1e1", "0.0e0"] {
        assert_eq!(json_refusal(text), (73, 0), "{text}");
    }
    for (fits, too_long) in [
        ("-123456789012345", "-1234567890123456"),
        ("12345678901234.5", "123456789012345.6"),
        ("0.00000000000001", "0.000000000000001"),
        ("-0.00000000000000", "-0.000000000000000"),
        ("99999999999999.9", "999999999999999.9"),
    ] {
        assert_eq!(rate(fits).to_bits(), (fits.parse::<f64>().expect("a decimal") + 0.0).to_bits(), "{fits}");
        assert_eq!(json_refusal(too_long), (73, 0), "{too_long}");
    }
    for text in ["18446744073709551616", "99999999999999999999", "100000000000000000000000"] {
        assert_eq!(json_refusal(text), (73, 0), "{text}");
    }
}

#[test]
fn a_rate_is_the_digits_divided_once_by_the_power_of_ten_with_the_sign_put_on_afterwards() {
    for (text, rate_of) in [
        ("0.1", 1.0 / 10.0),
        ("0.3", 3.0 / 10.0),
        ("-2.50", -(250.0 / 100.0)),
        ("1.005", 1005.0 / 1000.0),
        ("-0.00000000000007", -(7.0 / 1e14)),
        ("99999999999999.9", 999_999_999_999_999.0 / 10.0),
    ] {
        assert_eq!(rate(text).to_bits(), f64::to_bits(rate_of), "{text}");
    }
    assert_eq!(rows("[0.1,0.10,0.100]").iter().filter(|row| row.symbol == NUMBER).count(), 1);
    assert_eq!(rows("[1,1.0]").iter().filter(|row| row.symbol == NUMBER).count(), 2);
    assert_eq!(rate("-0.0").to_bits(), 0);
}

#[test]
fn the_tree_of_a_text_does_not_hang_on_how_it_is_spelled() {
    let plain = r#"{"a":[1,"b",null],"c":{"d":false}}"#;
    let spelled = "\r\n{ \"\\u0061\" :\t[ 1 , \"\\u0062\" , null ] , \"c\" : { \"d\" : false } }\n ";
    for keys in ["", "a", "a\nc\nd\n"] {
        assert_eq!(tree(keys, plain), tree(keys, spelled));
        assert_eq!(json(keys, plain), json(keys, spelled));
    }
}

#[test]
fn what_is_read_is_a_sound_table_over_the_signature() {
    let keys = "name\nweight\n";
    let document =
        json(keys, r#"[{"name":"a","weight":10,"up":true},{"name":"b","weight":10,"up":true},-0.0]"#);
    let state = State { is_final: true, tags: 0 };
    let set = Automaton { arities: arities(2), states: vec![state], tag_count: 0, rules: vec![] };
    assert_eq!(check_document(&set.encode(), &document.cells()).map(|(_, document)| document), Ok(document));
}

#[test]
fn a_sample_need_not_be_the_tree_of_any_json_text() {
    let states = vec![State { is_final: false, tags: 0 }, State { is_final: true, tags: 0 }];
    let rules = vec![rule(ITEM, &[0, 0], 1), rule(NUMBER, &[], 0)];
    let set = Automaton { arities: arities(0), states, tag_count: 0, rules };
    let sample = witness(&set.encode(), ROW_SPACE).expect("not refused").expect("live");
    assert_eq!(sample.rows, [leaf(NUMBER, Bare), over(ITEM, &[0, 0])], "an array that a number closes");
}
