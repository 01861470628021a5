//! The library's reader of JSON against the reference's.

use std::fs;
use std::path::Path;

use compare::answer::Answer;
use compare::calls::{read_json as compare, read_json_plain as compare_plain};
use compare::tally::{Tally, JSON};
use generate::{json_export, json_lists, json_texts, Random};
use reference::limits::{MAX_ROWS, ROW_CELLS};

/// Row space for every text.
const SPACE: usize = ROW_CELLS * MAX_ROWS;

fn refused(number: u8, place: usize) -> Answer {
    Answer::Refused { number, place: place as u64 }
}

#[test]
fn seeded_texts() {
    let mut tally = Tally::of("read_json");
    for seed in 0..40_000 {
        let random = &mut Random::new(seed);
        let keys = json_lists::key_list(random, 5);
        let text = json_texts::text(random, &keys, 60);
        let plenty = ROW_CELLS * random.pick(&[MAX_ROWS, MAX_ROWS, MAX_ROWS + 5, 200]);
        let row_cells = if random.percent(15) { random.below(200) } else { plenty + random.below(ROW_CELLS) };
        tally.count(compare(&keys, &text, row_cells), |_| "read");
    }
    tally.must_reach(20_000, 200, &JSON, &["read"]);
}

/// Each text in every row space around the rows that it needs.
#[test]
fn seeded_texts_in_row_spaces_that_are_just_too_short() {
    let mut tally = Tally::of("read_json, row spaces");
    for seed in 0..3000 {
        let random = &mut Random::new(seed);
        let keys = json_lists::key_list(random, 0);
        let text = json_texts::text(random, &keys, 20);
        let Ok(document) = reference::read_json(&keys, &text, SPACE) else { continue };
        let needed = ROW_CELLS * document.rows.len();
        for row_cells in
            [0, needed / 2, needed - ROW_CELLS, needed - 1, needed, needed + 1, needed + ROW_CELLS]
        {
            tally.count(compare(&keys, &text, row_cells), |_| "read");
        }
    }
    tally.must_reach(5000, 200, &[67], &["read"]);
}

#[test]
fn long_texts_are_answered() {
    let million = 1_000_000;
    let array = format!("[{}1]", "1,".repeat(million));
    assert_eq!(compare_plain(&array), refused(64, 511));
    let brackets = "[".repeat(million);
    assert_eq!(compare_plain(&brackets), refused(64, 256));
    let open = format!("\"{}", "a".repeat(million));
    assert_eq!(compare_plain(&open), refused(71, million + 1));
    let escapes = format!("\"{}\"", "\\ud83d\\ude00".repeat(million));
    assert_eq!(compare_plain(&escapes), Answer::Value(1));
    assert_eq!(compare_plain(" ".repeat(million)), refused(71, million));
    assert_eq!(compare_plain("1".repeat(million)), refused(73, 0));
    assert_eq!(compare_plain(format!("0.{}", "0".repeat(million))), refused(73, 0));
    let after = format!("1{}", "]".repeat(million));
    assert_eq!(compare_plain(&after), refused(71, 1));
    let key = format!("{{\"{0}\":1,\"{0}\":2}}", "k".repeat(million));
    assert_eq!(compare_plain(&key), refused(72, million + 6));
}

#[test]
fn a_text_of_many_megabytes_and_few_rows_is_read() {
    let array = |part: &str, count: usize| format!("[{}]", vec![part; count].join(","));
    let text = array(&array(&array("{\"k\":true}", 60), 60), 60);
    assert_eq!(compare(b"k", text.as_bytes(), SPACE), Answer::Value(4 + 180));
    let texts: Vec<String> = (0..250).map(|number| format!("\"{}{number}\"", "x".repeat(40_000))).collect();
    assert_eq!(compare(b"", array("", 0).as_bytes(), SPACE), Answer::Value(1));
    let text = format!("[{}]", texts.join(","));
    assert_eq!(compare(b"", text.as_bytes(), SPACE), Answer::Value(501));
}

/// Texts of one length with the same bytes at both ends, each also spelled with escapes.
#[test]
fn texts_that_differ_only_in_the_middle() {
    let text = |middle: String| format!("\"the beginning {middle} and the end\"");
    let plain = |number: usize| text(format!("{number:02}"));
    let escaped = |number: usize| text(format!("\\u003{}\\u003{}", number / 10, number % 10));
    let texts: Vec<String> = (0..100).map(plain).chain((0..100).map(escaped)).collect();
    let array = format!("[{}]", texts.join(","));
    assert_eq!(compare(b"", array.as_bytes(), SPACE), Answer::Value(100 + 200 + 1));
    let object = |keys: &[String]| {
        let members: Vec<String> = keys.iter().map(|key| format!("{key}:0")).collect();
        format!("{{{}}}", members.join(","))
    };
    let listed = (0..50).map(plain).collect::<String>().replace("\"\"", "\n").replace('"', "");
    let distinct = object(&texts[50..150]);
    assert_eq!(compare(b"", distinct.as_bytes(), SPACE), Answer::Value(100 + 1 + 100 + 1));
    assert_eq!(compare(listed.as_bytes(), distinct.as_bytes(), SPACE), Answer::Value(50 + 1 + 100 + 1));
    for repeated in 100..150 {
        let keys = [&texts[..100], &texts[repeated..=repeated]].concat();
        let text = object(&keys);
        let place = text.len() - object(&keys[100..]).len() + 1;
        assert_eq!(compare(b"", text.as_bytes(), SPACE), refused(72, place));
        assert_eq!(compare(listed.as_bytes(), text.as_bytes(), SPACE), refused(72, place));
    }
}

#[test]
fn exports_that_are_measured() {
    let keys = json_export::key_list(&json_export::KEYS);
    for (name, text) in json_export::measured() {
        assert_eq!(compare(&keys, text.as_bytes(), SPACE).number(), None, "{name}");
        compare(b"", text.as_bytes(), SPACE);
        for row_cells in (0..SPACE).step_by(997) {
            compare(&keys, text.as_bytes(), row_cells);
        }
    }
}

/// A file of the repository.
fn file(name: &str) -> Vec<u8> {
    let path = Path::new(env!("CARGO_MANIFEST_DIR")).join("../..").join(name);
    fs::read(&path).unwrap_or_else(|error| panic!("{}: {error}", path.display()))
}

#[test]
fn exports_of_the_examples() {
    for (export, keys) in [
        ("uwsgi", "uwsgi"),
        ("bind", "bind"),
        ("lighttpd", "lighttpd"),
        ("caddy", "caddy"),
        ("haproxy", "haproxy"),
        ("dnsdist", "dnsdist"),
        ("evening", "evening"),
        ("evening-queue", "evening"),
        ("evening-swapped", "evening"),
        ("paired", "paired"),
        ("paired-mixed", "paired"),
        ("paired-odd", "paired"),
    ] {
        let (text, keys) =
            (file(&format!("examples/json/{export}.json")), file(&format!("examples/json/{keys}.keys")));
        let answer = compare(&keys, &text, SPACE);
        assert_eq!(answer.number(), (export == "dnsdist").then_some(73), "{export}");
        compare(b"", &text, SPACE);
        for length in 0..text.len() {
            compare(&keys, &text[..length], SPACE);
        }
    }
}

/// The bytes of a field in which backslash, x and two hex digits stand for one byte.
fn unescaped(field: &str) -> Vec<u8> {
    let mut parts = field.split("\\x");
    let mut bytes = parts.next().unwrap_or_default().as_bytes().to_vec();
    for part in parts {
        bytes.push(u8::from_str_radix(&part[..2], 16).expect("hex digits"));
        bytes.extend(&part.as_bytes()[2..]);
    }
    bytes
}

/// The texts that Python has answered, which the reference is held to.
#[test]
fn texts_from_outside() {
    let mut tally = Tally::of("read_json, texts from outside");
    for (name, field) in [("json_verdicts.txt", 1), ("json_suites.txt", 2)] {
        let file = String::from_utf8(file(&format!("rust/reference/tests/data/{name}"))).expect("ASCII");
        for line in file.lines().filter(|line| !line.starts_with('#')) {
            let text = unescaped(line.split('\t').nth(field).expect("a text"));
            tally.count(compare(b"", &text, SPACE), |_| "read");
            compare(b"a\nb", &text, SPACE);
        }
    }
    tally.must_reach(3000, 40, &[71, 72, 73], &["read"]);
}
