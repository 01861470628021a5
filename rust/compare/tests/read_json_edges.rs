//! The library's reader of JSON against the reference's, at the edges: bytes, UTF-8, escapes, numbers, levels and lists.

use compare::answer::Answer;
use compare::calls::{read_json as compare, read_json_plain as compare_plain};
use compare::tally::Tally;
use generate::Random;
use reference::limits::{MAX_ROWS, ROW_CELLS};

/// Row space for every text.
const SPACE: usize = ROW_CELLS * MAX_ROWS;

fn refused(number: u8, place: usize) -> Answer {
    Answer::Refused { number, place: place as u64 }
}

/// Texts with every kind of value, mark and escape.
const TELLING_TEXTS: [&[u8]; 12] = [
    br#"{"ab":[1,-0.5],"c":{"d":null}}"#,
    br#"[true,false,"\u00e9\ud83d\ude00\n"]"#,
    b"[\"\xc3\xa9\xe2\x82\xac\xf0\x9f\x98\x80\"]",
    br#" { "k" : "" , "k2" : [ ] } "#,
    b"-12.50",
    b"[0,-0,10,18446744073709551615]",
    br#"{"a":1,"b":1,"\u0061":1}"#,
    b"[1e5,1E-5,1.5e+5]",
    b"[[],{},[[]],[{}]]",
    b"\"\\\"\\\\\\/\\b\\f\\n\\r\\t\"",
    b"0.12345678901234",
    b"\"\xe0\xa0\x80\xed\x9f\xbf\xf4\x8f\xbf\xbf\"",
];

#[test]
fn every_byte_and_every_length_of_telling_texts() {
    let mut tally = Tally::of("read_json, byte by byte");
    for text in TELLING_TEXTS {
        for at in 0..=text.len() {
            tally.count(compare(b"ab\nk", &text[..at], SPACE), |_| "read");
            for value in 0..=255 {
                let longer = [&text[..at], &[value], &text[at..]].concat();
                tally.count(compare(b"ab\nk", &longer, SPACE), |_| "read");
                if at < text.len() {
                    let changed = [&text[..at], &[value], &text[at + 1..]].concat();
                    tally.count(compare(b"ab\nk", &changed, SPACE), |_| "read");
                }
            }
        }
    }
    tally.must_reach(20_000, 20, &[71, 72, 73], &["read"]);
}

#[test]
fn every_row_space_for_telling_texts() {
    for text in TELLING_TEXTS {
        for row_cells in 0..=151 {
            compare(b"ab\nk", text, row_cells);
        }
    }
}

#[test]
fn every_two_bytes_at_the_start_of_a_string() {
    let mut tally = Tally::of("read_json, two bytes");
    for (first, second) in (0..=255).flat_map(|first| (0..=255).map(move |second| (first, second))) {
        tally.count(compare_plain([b'"', first, second, b'"']), |_| "read");
        tally.count(compare_plain([b'"', first, second]), |_| "read");
    }
    tally.must_reach(100_000, 1000, &[71], &["read"]);
}

/// Bytes at the edges of the table of well-formed UTF-8.
const EDGES: [u8; 20] = [
    0x22, 0x7f, 0x80, 0x8f, 0x90, 0x9f, 0xa0, 0xbf, 0xc0, 0xc2, 0xdf, 0xe0, 0xe1, 0xec, 0xed, 0xee, 0xf0,
    0xf1, 0xf4, 0xf5,
];

/// Words of eight bytes are read where that many stand behind a place, so that a string's end and the text's end matter.
#[test]
fn short_strings_by_length_and_distance_from_the_end() {
    let mut tally = Tally::of("read_json, short strings");
    for length in 0..=18 {
        let plain: Vec<u8> = (0..length).map(|k| b'a' + k as u8).collect();
        let mut others = vec![plain.clone(), [&plain[..], b"z"].concat(), [b"z", &plain[..]].concat()];
        for at in 0..length {
            for byte in [&b"!"[..], b"", b"\\n", b"\xc3\xa9", b"\x7f", b"\x1f"] {
                others.push([&plain[..at], byte, &plain[at + 1..]].concat());
            }
        }
        for other in &others {
            let strings = [b"[\"", &plain[..], b"\",\"", &other[..], b"\",\"", &plain[..], b"\"]"].concat();
            for behind in 0..=28 {
                let text = [&strings[..], &vec![b' '; behind][..]].concat();
                tally.count(compare(b"ab\nabc", &text, SPACE), |_| "read");
            }
        }
    }
    tally.must_reach(20_000, 20, &[71], &["read"]);
}

/// Some of so many texts are looked for first where another stands.
#[test]
fn many_short_strings_stand_twice() {
    let strings: Vec<String> = (0..400).map(|number| format!("\"s{number}\"")).collect();
    let arrays: Vec<String> = strings.chunks(40).map(|chunk| format!("[{}]", chunk.join(","))).collect();
    let once = format!("[{}]", arrays.join(","));
    let twice = format!("[{0},{0}]", arrays.join(","));
    let backwards = format!(
        "[{},[{}]]",
        arrays.join(","),
        strings.iter().rev().take(200).cloned().collect::<Vec<_>>().join(",")
    );
    for text in [once, twice, backwards] {
        assert!(matches!(compare(b"", text.as_bytes(), SPACE), Answer::Value(_)));
    }
}

#[test]
fn every_four_bytes_at_the_edges_of_utf_8() {
    let mut tally = Tally::of("read_json, UTF-8");
    for number in 0..EDGES.len().pow(4) {
        let byte = |place: u32| EDGES[number / EDGES.len().pow(place) % EDGES.len()];
        tally.count(compare_plain([b'"', byte(3), byte(2), byte(1), byte(0), b'"']), |_| "read");
    }
    tally.must_reach(100_000, 100, &[71], &["read"]);
}

/// The escape of each unit is the character itself, so that both are one text; or a half, which is none.
#[test]
fn every_escape_of_four_digits() {
    for unit in 0..=0xffff_u32 {
        let escape = format!("\\u{unit:04x}");
        let itself =
            char::from_u32(unit).filter(|character| *character >= ' ' && !"\"\\".contains(*character));
        let answer = compare_plain(format!("[\"{escape}\",\"{}\"]", itself.unwrap_or('x')));
        let rows = match itself {
            Some(_) => Answer::Value(4),
            None if (0xd800..0xdc00).contains(&unit) => refused(71, 8),
            None if (0xdc00..0xe000).contains(&unit) => refused(71, 5),
            None => Answer::Value(5),
        };
        assert_eq!(answer, rows, "{escape}");
        compare_plain(format!("\"{}\"", escape.to_uppercase().replace('U', "u")));
        compare_plain(format!("\"{escape}\\udc00\""));
        compare_plain(format!("\"\\uD800{escape}\""));
    }
}

#[test]
fn numbers_of_every_form() {
    let mut tally = Tally::of("read_json, numbers");
    for seed in 0..60_000 {
        let random = &mut Random::new(seed);
        let digits = |random: &mut Random, most: usize| -> String {
            (0..random.between(1, most)).map(|_| random.pick(b"0123456789") as char).collect()
        };
        let mut text = random.pick(&["", "", "-"]).to_string() + &digits(random, 21);
        if random.percent(70) {
            text += &format!(".{}", digits(random, 16));
        }
        if random.percent(10) {
            text += &format!("{}{}", random.pick(&["e", "E", "e+", "E-"]), digits(random, 3));
        }
        let trimmed = text.trim_start_matches('0');
        let text = if random.percent(80) && trimmed.starts_with(|c: char| c.is_ascii_digit()) {
            trimmed
        } else {
            &text
        };
        tally.count(compare_plain(text), |_| "read");
    }
    tally.must_reach(60_000, 1000, &[71, 73], &["read"]);
}

#[test]
fn rates_of_up_to_15_digits() {
    for seed in 0..60_000 {
        let random = &mut Random::new(seed);
        let digits = random.between(2, 15);
        let number = format!("{:0>digits$}", random.word() % 10_u64.pow(digits as u32));
        let point = random.between(1, digits - 1);
        let whole = number[..point].trim_start_matches('0');
        let whole = if whole.is_empty() { "0" } else { whole };
        let text = format!("{}{whole}.{}", random.pick(&["", "-"]), &number[point..]);
        assert_eq!(compare_plain(text), Answer::Value(1));
    }
}

#[test]
fn numbers_at_their_limits() {
    for (text, answer) in [
        ("18446744073709551615", Answer::Value(1)),
        ("18446744073709551616", refused(73, 0)),
        ("-0", Answer::Value(1)),
        ("-1000000000000000", refused(73, 0)),
        ("-999999999999999", Answer::Value(1)),
        ("0.12345678901234", Answer::Value(1)),
        ("0.123456789012345", refused(73, 0)),
        ("[-0,0.0]", Answer::Value(4)),
        ("[0,-0]", Answer::Value(5)),
        ("[1e5x", refused(73, 1)),
        ("1e+", refused(71, 3)),
        ("01", refused(71, 1)),
    ] {
        assert_eq!(compare_plain(text), answer, "{text}");
    }
    assert_eq!(compare(b"", b"1x", 0), refused(67, 0));
    assert_eq!(compare(b"", b"01", 0), refused(71, 1));
}

#[test]
fn levels_around_257() {
    let mut tally = Tally::of("read_json, levels");
    for (open, close) in [("[", "]"), ("{\"a\":", "}"), ("[0,", "]"), ("{\"a\":0,\"b\":", "}")] {
        for levels in 120..260 {
            for innermost in ["1", "tru", "[]", "{}", "{\"a\":1}", "{\"b\":1,\"b\"", "{\"a", "x", ""] {
                let text = open.repeat(levels) + innermost + &close.repeat(levels);
                for keys in [&b""[..], b"a", b"a\nb"] {
                    tally.count(compare(keys, text.as_bytes(), SPACE), |_| "read");
                }
            }
        }
    }
    tally.must_reach(15_000, 100, &[64, 71, 72], &["read"]);
}

#[test]
fn arrays_and_objects_by_length() {
    for count in [0, 1, 2, 254, 255, 256, 257, 300] {
        let elements = format!("[{}]", vec!["1"; count].join(","));
        let members: Vec<String> = (0..count).map(|member| format!("\"k{member}\":1")).collect();
        let members = format!("{{{}}}", members.join(","));
        let keys: String = (200..256).map(|key| format!("k{key}\n")).collect();
        for text in [elements, members] {
            for keys in [&b""[..], keys.as_bytes()] {
                let number = compare(keys, text.as_bytes(), SPACE).number();
                assert_eq!(number, (count > 255).then_some(64), "{count}");
            }
        }
    }
}

#[test]
fn key_lists_at_their_limits() {
    let number = |list: &[u8]| compare(list, br#"{"a":1,"k0":2}"#, SPACE).number();
    let lines = |count: usize| (0..count).map(|line| format!("k{line}\n")).collect::<String>();
    assert_eq!(number(b""), None);
    assert_eq!(number(lines(56).as_bytes()), None);
    assert_eq!(number(lines(57).as_bytes()), Some(74));
    assert_eq!(number(lines(57).trim_end().as_bytes()), Some(74));
    assert_eq!(number(lines(1000).as_bytes()), Some(74));
    assert_eq!(number(&[b'a'; 64]), None);
    assert_eq!(number(&[b'a'; 65]), Some(74));
    assert_eq!(number(&[&[b'a'; 64][..], b"\n", &[b'b'; 65]].concat()), Some(74));
    assert_eq!(number(b"\n"), Some(74));
    assert_eq!(number(b"a\n\n"), Some(74));
    assert_eq!(number(b"\na"), Some(74));
    assert_eq!(number(b"a\na"), Some(74));
    assert_eq!(number((lines(56) + "\n").as_bytes()), Some(74));
    for (first, second) in (0..56).flat_map(|first| (0..first).map(move |second| (first, second))) {
        let mut lines: Vec<String> = (0..56).map(|line| format!("k{line}")).collect();
        lines[first] = lines[second].clone();
        assert_eq!(number(lines.join("\n").as_bytes()), Some(74), "{first} and {second}");
    }
}

#[test]
fn every_byte_in_a_key_list_and_in_a_key() {
    for byte in 0..=255u8 {
        for list in
            [vec![byte], vec![b'q', byte], vec![byte, b'q'], vec![b'q', byte, b'r'], vec![b'q', 10, byte]]
        {
            compare(&list, b"{\"q\":1}", SPACE);
            compare(&list, &[b"{\"", &list[..], b"\":1}"].concat(), SPACE);
            compare(
                &list,
                format!("{{\"q\":1,\"\\u00{byte:02x}\":2,\"q\\u00{byte:02X}\":3}}").as_bytes(),
                SPACE,
            );
        }
    }
}

#[test]
fn each_of_56_keys_is_found() {
    let names: Vec<String> = (0..56).map(|line| format!("{line:0>64}")).collect();
    let list = names.join("\n");
    for name in &names {
        for key in [name.clone(), name[1..].to_string(), format!("{name}0"), name.replace('0', "\\u0030")] {
            compare(list.as_bytes(), format!("{{\"{key}\":[{{\"{key}\":0}}]}}").as_bytes(), SPACE);
        }
    }
}
