//! JSON texts read in two unlike ways that must agree.

mod common;

use std::collections::BTreeMap;

use common::ROW_SPACE;
use generate::{json_export, json_lists, json_texts, Random};
use reference::brute_force::Tree;
use reference::limits::{MAX_LEVELS, MAX_ROWS, ROW_CELLS};
use reference::table::TableBuilder;
use reference::{json_tree, read_json, Document, Refusal, Row};

/// The table of a tree, its rows numbered by first finishing, with room for so many rows.
fn table_of(tree: &Tree, most: usize) -> Option<Document> {
    fn add(tree: &Tree, table: &mut TableBuilder) -> Option<usize> {
        let children = tree.children.iter().map(|child| add(child, table)).collect::<Option<_>>()?;
        table.place(Row { symbol: tree.symbol, children, scalar: tree.scalar })
    }
    let mut table = TableBuilder::with_limit(most);
    add(tree, &mut table)?;
    Some(table.finish())
}

/// Holds the reader against the tree; answers what the reader answered.
fn agree(keys: &[u8], text: &[u8], row_cells: usize) -> Result<Document, Refusal> {
    let shown = || format!("keys {}, text {}", keys.escape_ascii(), text.escape_ascii());
    let (read, tree) = (read_json(keys, text, row_cells), json_tree(keys, text));
    match (&read, &tree) {
        (Ok(document), Ok(tree)) => {
            assert!(Tree::of_row(document, document.last()) == *tree, "{}", shown());
            assert_eq!(table_of(tree, MAX_ROWS).as_ref(), Some(document), "{}", shown());
            assert!(tree.height() <= MAX_LEVELS, "{}", shown());
        }
        (Ok(_), Err(refusal)) => panic!("read, though the tree says {refusal:?}: {}", shown()),
        (Err(Refusal { number: 64, .. }), Ok(tree)) => assert!(tree.height() > MAX_LEVELS, "{}", shown()),
        (Err(Refusal { number: 67, .. }), Ok(tree)) => {
            assert_eq!(table_of(tree, MAX_ROWS.min(row_cells / ROW_CELLS)), None, "{}", shown());
        }
        (Err(refusal), Ok(_)) => panic!("{refusal:?}, though there is a tree: {}", shown()),
        (Err(found), Err(expected)) => {
            let is_earlier = matches!(found.number, 64 | 67) && found.place <= expected.place;
            assert!(found == expected || is_earlier, "{found:?}, tree {expected:?}: {}", shown());
        }
    }
    read
}

#[test]
fn seeded_texts_are_read_as_the_second_way_has_them() {
    let mut answers: BTreeMap<u8, usize> = BTreeMap::new();
    for seed in 0..30_000 {
        let random = &mut Random::new(seed);
        let keys = json_lists::key_list(random, 5);
        let text = json_texts::text(random, &keys, 60);
        let row_cells = if random.percent(15) { random.below(150) } else { ROW_SPACE };
        let number = agree(&keys, &text, row_cells).map_or_else(|refusal| refusal.number, |_| 0);
        *answers.entry(number).or_default() += 1;
    }
    println!("{answers:?}");
    for number in [0, 64, 67, 71, 72, 73, 74] {
        assert!(answers.get(&number).is_some_and(|&count| count > 300), "{number}: {answers:?}");
    }
    assert_eq!(answers.len(), 7, "{answers:?}");
}

/// Texts with every kind of value, mark and escape.
const TELLING: [&[u8]; 8] = [
    br#"{"ab":[1,-0.5],"c":{"d":null}}"#,
    br#"[true,false,"\u00e9\ud83d\ude00\n"]"#,
    b"[\"\xc3\xa9\xe2\x82\xac\xf0\x9f\x98\x80\"]",
    br#" { "k" : "" , "k2" : [ ] } "#,
    b"-12.50",
    b"[0,-0,10,18446744073709551615]",
    br#"{"a":1,"b":1,"\u0061":1}"#,
    b"[1e5,1E-5,1.5e+5]",
];

#[test]
fn every_byte_and_every_length_of_telling_texts() {
    for text in TELLING {
        for at in 0..=text.len() {
            let _ = agree(b"ab\nk", &text[..at], ROW_SPACE);
            for value in 0..=255 {
                let _ = agree(b"ab\nk", &[&text[..at], &[value], &text[at..]].concat(), ROW_SPACE);
                if at < text.len() {
                    let _ = agree(b"ab\nk", &[&text[..at], &[value], &text[at + 1..]].concat(), ROW_SPACE);
                }
            }
        }
    }
}

#[test]
fn every_row_space_of_telling_texts() {
    for text in TELLING {
        for row_cells in 0..=200 {
            let _ = agree(b"ab\nk", text, row_cells);
        }
    }
}

/// A byte with which the text cannot go on stays at fault whatever comes behind it, and all before it is not at fault.
#[test]
fn a_fault_hangs_on_the_bytes_before_it_alone() {
    let mut faults = 0;
    for seed in 0..4000 {
        let random = &mut Random::new(seed);
        let text = json_texts::text(random, b"", 90);
        let Err(Refusal { number: 71, place: Some(place) }) = read_json(b"", &text, ROW_SPACE) else {
            continue;
        };
        let front = &text[..place];
        assert_eq!(read_json(b"", front, ROW_SPACE).err(), early_end(front), "{}", text.escape_ascii());
        if place < text.len() {
            let cut = read_json(b"", &text[..=place], ROW_SPACE);
            assert_eq!(cut, Err(Refusal::at(71, place)), "{}", text.escape_ascii());
        }
        faults += 1;
    }
    assert!(faults > 1000, "only {faults} faults");
}

/// What a front that is not at fault gives where the text ends there: 71 at the end, or what is found only at the end
/// of a number; nothing where it is a whole text.
fn early_end(front: &[u8]) -> Option<Refusal> {
    match json_tree(b"", front) {
        Ok(_) => None,
        Err(refusal) => {
            assert!(
                refusal.number == 73 || refusal == Refusal::at(71, front.len()),
                "{}",
                front.escape_ascii()
            );
            Some(refusal)
        }
    }
}

#[test]
fn exports_are_read_as_the_second_way_has_them() {
    let keys = json_export::key_list(&json_export::KEYS);
    for (name, text) in json_export::measured() {
        for keys in [&keys[..], b"", b"servers\nweight"] {
            let read = agree(keys, text.as_bytes(), ROW_SPACE);
            assert!(read.is_ok() || keys.len() < 20, "{name}: {read:?}");
        }
    }
}
