//! The reader of JSON against Python's, by files of texts with Python's answers: texts that `data/make_json_verdicts.py`
//! made up, and those of two test suites of others, which `data/make_json_suites.py` put together.

mod common;

use std::collections::BTreeMap;

use common::ROW_SPACE;
use reference::brute_force::Tree;
use reference::json_keys::{arities, ITEM, TEXT};
use reference::{json_tree, read_json, write_term, Automaton, Document, Scalar, State};

const VERDICTS: &str = include_str!("data/json_verdicts.txt");
const SUITES: &str = include_str!("data/json_suites.txt");

/// The lines of a file, cut into fields.
fn lines(file: &'static str) -> impl Iterator<Item = Vec<&'static str>> {
    file.lines().filter(|line| !line.starts_with('#')).map(|line| line.split('\t').collect())
}

/// The bytes of a field: backslash, x and two hex digits stand for one byte.
fn unescaped(field: &str) -> Vec<u8> {
    let mut parts = field.split("\\x");
    let first = parts.next().unwrap_or_default().as_bytes().to_vec();
    let byte_and_rest = |part: &str| [unhex(&part[..2]), part.as_bytes()[2..].to_vec()].concat();
    parts.fold(first, |bytes, part| [bytes, byte_and_rest(part)].concat())
}

fn unhex(digits: &str) -> Vec<u8> {
    let pairs = (0..digits.len()).step_by(2).map(|at| &digits[at..at + 2]);
    pairs.map(|pair| u8::from_str_radix(pair, 16).expect("hex digits")).collect()
}

/// The tree of a table as term text, without names.
fn term(document: &Document) -> String {
    let states = vec![State { is_final: true, tags: 0 }];
    let set = Automaton { arities: arities(0), states, tag_count: 0, rules: Vec::new() };
    let text = write_term(&set.encode(), b"", b"", &document.cells(), usize::MAX).expect("a sound table");
    String::from_utf8(text).expect("letters, digits and marks")
}

/// A string as JSON has it, with as few escapes as it can.
fn spelled(text: &[u8]) -> String {
    let text = String::from_utf8(text.to_vec()).expect("Python decodes to UTF-8");
    let character = |character: char| match character {
        '"' | '\\' | '\0'..='\u{1f}' => format!("\\u{:04x}", u32::from(character)),
        other => other.to_string(),
    };
    format!("\"{}\"", text.chars().map(character).collect::<String>())
}

/// The texts that Python decoded, in the order of their numbers.
fn decoded(field: &str) -> Vec<Vec<u8>> {
    let word = |word: &str| if word == "-" { Vec::new() } else { unhex(word) };
    field.split(' ').filter(|word| !word.is_empty()).map(word).collect()
}

/// Puts a text in an array with the texts that Python decoded behind it: these are then no new texts, so that each has
/// the number that it had.
fn decodes_alike(text: &[u8], decoded: &[Vec<u8>]) {
    let mut longer = [b"[", text].concat();
    decoded.iter().for_each(|text| longer.extend(format!(",{}", spelled(text)).bytes()));
    longer.push(b']');
    let document = read_json(b"", &longer, ROW_SPACE).expect("an array of sound parts");
    let mut rest = &Tree::of_row(&document, document.last()).children[1];
    for number in 0..decoded.len() as u32 {
        let leaf = Tree { symbol: TEXT, scalar: Scalar::Name(number), children: Vec::new() };
        assert_eq!((rest.symbol, &rest.children[0]), (ITEM, &leaf), "{}", text.escape_ascii());
        rest = &rest.children[1];
    }
}

/// Holds a text against Python's answer and what belongs to it; answers the document where Python reads the text.
fn agree(text: &[u8], answer: &str, place: Option<&str>) -> Option<Document> {
    let shown = || format!("{answer} {place:?}: {}", text.escape_ascii());
    let read = read_json(b"", text, ROW_SPACE);
    assert_eq!(json_tree(b"", text).err(), read.as_ref().err().copied(), "{}", shown());
    let refusal = match (answer, read) {
        ("read", Ok(document)) => return Some(document),
        ("read", Err(refusal)) => panic!("{}: {refusal:?}", shown()),
        (_, Ok(_)) => panic!("{}: read", shown()),
        (_, Err(refusal)) => refusal,
    };
    let at = refusal.place.expect("a place");
    if answer == "71" {
        let place = place.and_then(|place| place.parse().ok()).expect("Python's place");
        // 72 and 73 are found before a fault further on.
        let is_earlier = matches!(refusal.number, 72 | 73) && at < place;
        assert!((refusal.number, at) == (71, place) || is_earlier, "{}: {refusal:?}", shown());
    } else {
        let is_one = answer.split(',').any(|number| number == refusal.number.to_string());
        assert!(is_one, "{}: {refusal:?}", shown());
    }
    None
}

/// Stops unless answers came at least so often.
fn must_reach(answers: &BTreeMap<&str, usize>, wanted: &[(&str, usize)]) {
    println!("{answers:?}");
    for (answer, least) in wanted {
        assert!(answers.get(answer).is_some_and(|count| count >= least), "{answer}: {answers:?}");
    }
}

#[test]
fn the_reader_answers_as_python_does() {
    let mut answers: BTreeMap<&str, usize> = BTreeMap::new();
    for fields in lines(VERDICTS) {
        let text = unescaped(fields[1]);
        if let Some(document) = agree(&text, fields[0], fields.get(2).copied()) {
            assert_eq!(term(&document), fields[2], "{}", fields[1]);
            decodes_alike(&text, &decoded(fields[3]));
        }
        *answers.entry(fields[0]).or_default() += 1;
    }
    must_reach(&answers, &[("read", 500), ("71", 2000), ("72", 40), ("73", 200), ("72,73", 10)]);
}

/// The 64-bit FNV-1a hash.
fn fnv_1a(bytes: &[u8]) -> u64 {
    bytes.iter().fold(14_695_981_039_346_656_037, |hash, &byte| {
        (hash ^ u64::from(byte)).wrapping_mul(1_099_511_628_211)
    })
}

#[test]
fn the_reader_answers_as_python_does_on_two_suites_of_others() {
    let mut answers: BTreeMap<&str, usize> = BTreeMap::new();
    for fields in lines(SUITES) {
        let name = fields[0];
        if let Some(document) = agree(&unescaped(fields[2]), fields[1], fields.get(3).copied()) {
            assert_eq!(document.rows.len().to_string(), fields[3], "{name}");
            assert_eq!(document.levels().to_string(), fields[4], "{name}");
            assert_eq!(format!("{:016x}", fnv_1a(term(&document).as_bytes())), fields[5], "{name}");
        }
        *answers.entry(fields[1]).or_default() += 1;
    }
    must_reach(&answers, &[("read", 80), ("71", 60), ("73", 14)]);
}
