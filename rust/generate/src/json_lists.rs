//! Key lists for the reader of JSON, sound ones and wrong ones (74).

use std::collections::BTreeSet;

use reference::limits::{MAX_KEYS, MAX_KEY_BYTES};
use reference::names::plain_lines;

use crate::Random;

/// Keys that recur in lists and texts, so that texts have listed keys and others. Some need escapes in a text.
pub const KEYS: [&str; 16] = [
    "a",
    "b",
    "name",
    "weight",
    "queue",
    "load",
    "A",
    "a ",
    " ",
    "\"",
    "\\",
    "a/b",
    "\t",
    "é",
    "😀",
    "\u{1}\u{7f}",
];

/// Lines that no key of a text is equal to, since they are not UTF-8.
const NOT_UTF_8: [&[u8]; 4] = [b"\xff", b"a\x80", b"\xc3", b"\xed\xa0\x80"];

/// A key list, often short, wrong in so many of a hundred cases.
pub fn key_list(random: &mut Random, damaged_percent: usize) -> Vec<u8> {
    let wanted = random.pick(&[0, 1, 2, 3, 5, 8, 16, MAX_KEYS]);
    let mut chosen = BTreeSet::new();
    let mut lines: Vec<Vec<u8>> = Vec::new();
    while lines.len() < wanted {
        let key = key(random, lines.len());
        if chosen.insert(key.clone()) {
            lines.push(key);
        }
    }
    if random.percent(damaged_percent) {
        damage(random, &mut lines);
    }
    let mut list = lines.join(&10);
    if !lines.is_empty() && random.percent(70) {
        list.push(10);
    }
    list
}

/// A key that recurs, or one with a number of its own, up to the greatest length.
fn key(random: &mut Random, number: usize) -> Vec<u8> {
    match random.below(20) {
        0..=9 => random.pick(&KEYS).as_bytes().to_vec(),
        10 => random.pick(&NOT_UTF_8).to_vec(),
        11 => format!("{number:0>width$}", width = MAX_KEY_BYTES).into_bytes(),
        _ => format!("key{number}").into_bytes(),
    }
}

/// Puts a fault in, or takes the list to a limit.
fn damage(random: &mut Random, lines: &mut Vec<Vec<u8>>) {
    let at = random.below(lines.len() + 1);
    match random.below(6) {
        0 => lines.insert(at, Vec::new()),
        1 => lines.insert(at, vec![b'k'; MAX_KEY_BYTES + 1]),
        2 => lines.insert(at, vec![b'k'; MAX_KEY_BYTES]),
        3 | 4 => {
            let again =
                if lines.is_empty() { b"a".to_vec() } else { lines[random.below(lines.len())].clone() };
            lines.insert(at, again.clone());
            lines.push(again);
        }
        _ => {
            let first = lines.len();
            let count = MAX_KEYS + random.pick(&[1, 1, 2, 10]);
            lines.extend((first..count).map(|number| format!("more{number}").into_bytes()));
        }
    }
}

/// The lines of a list that a text can have as keys.
pub fn texts_of(list: &[u8]) -> Vec<String> {
    plain_lines(list).into_iter().filter_map(|line| String::from_utf8(line.to_vec()).ok()).collect()
}
