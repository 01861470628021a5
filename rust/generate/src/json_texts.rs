//! JSON texts, sound ones and faulty ones, for refusals 64, 67 and 71 to 73.

use reference::limits::MAX_LEVELS;

use crate::json_lists::texts_of;
use crate::json_values::{number, replace_somewhere, value, Speller, Value};
use crate::Random;

/// A text for a list of keys, faulty in so many of a hundred cases.
pub fn text(random: &mut Random, list: &[u8], damaged_percent: usize) -> Vec<u8> {
    let keys = texts_of(list);
    let speller = Speller::any(random);
    let mut value = sound_value(random, &keys);
    if !random.percent(damaged_percent) {
        return speller.spell(random, &value);
    }
    match random.below(10) {
        0 | 1 => return around_level_257(random, &keys),
        2 => repeat_a_key(random, &mut value),
        3 => replace_somewhere(random, &mut value, |random, _| {
            Value::Spelled(random.pick(&WRONG_NUMBERS).to_vec())
        }),
        4 => replace_somewhere(random, &mut value, |random, _| Value::Spelled(random.pick(&FAULTS).to_vec())),
        5 => return soup(random),
        _ => {}
    }
    let mut text = speller.spell(random, &value);
    if random.percent(50) {
        damage(random, &mut text);
    }
    text
}

/// A value of any shape; rarely one of about as many rows as a table can have.
fn sound_value(random: &mut Random, keys: &[String]) -> Value {
    match random.below(40) {
        0 => of_about_1024_rows(random),
        1..=4 => of_equal_parts(random, keys),
        5..=8 => of_records(random, keys),
        _ => {
            let levels = random.pick(&[0, 1, 2, 3, 3]);
            value(random, keys, levels)
        }
    }
}

/// Eleven arrays of 46 counts, no two alike, which are 1,024 rows; and none, one or two counts more, each a row more.
fn of_about_1024_rows(random: &mut Random) -> Value {
    let first = random.word() >> 1;
    let count = |number: u64| Value::Spelled((first + number).to_string().into_bytes());
    let mut arrays: Vec<Vec<Value>> =
        (0..11).map(|array| (46 * array..46 * array + 46).map(count).collect()).collect();
    let at = random.below(11);
    let more = random.pick(&[0, 1, 2]);
    arrays[at].extend((0..more).map(|_| count(0)));
    if random.percent(30) {
        arrays[random.below(11)].pop();
    }
    Value::Array(arrays.into_iter().map(Value::Array).collect())
}

/// An array of a value again and again, in which some parts may differ from the others.
fn of_equal_parts(random: &mut Random, keys: &[String]) -> Value {
    let part = value(random, keys, 3);
    let mut parts = vec![part; random.pick(&[2, 3, 10, 100])];
    for _ in 0..random.below(3) {
        let at = random.below(parts.len());
        replace_somewhere(random, &mut parts[at], |random, _| number(random));
    }
    Value::Array(parts)
}

/// An array of objects with the same keys: many members, few of them alike.
fn of_records(random: &mut Random, keys: &[String]) -> Value {
    let others = (0..random.pick(&[0, 1, 4, 20])).map(|number| format!("field {number}"));
    let names: Vec<String> = keys.iter().take(random.below(12)).cloned().chain(others).collect();
    let record = |random: &mut Random| {
        let member = |name: &String| (name.clone(), value(random, keys, 0));
        Value::Object(names.iter().map(member).collect())
    };
    Value::Array((0..random.pick(&[1, 2, 5, 12])).map(|_| record(random)).collect())
}

/// Makes an object of some value, or takes one, and puts a key in that it has already.
fn repeat_a_key(random: &mut Random, value: &mut Value) {
    replace_somewhere(random, value, |random, old| {
        let mut members = match old {
            Value::Object(members) if !members.is_empty() => members.clone(),
            other => vec![("a".to_string(), other.clone()), ("b".to_string(), Value::Null)],
        };
        let again = members[random.below(members.len())].0.clone();
        let at = random.below(members.len() + 1);
        members.insert(at, (again, number(random)));
        Value::Object(members)
    });
}

/// Numbers of RFC 8259 that have neither form.
const WRONG_NUMBERS: [&[u8]; 14] = [
    b"1e5",
    b"1E+5",
    b"-1.5e-3",
    b"0e0",
    b"0.0E0",
    b"18446744073709551616",
    b"18446744073709551620",
    b"99999999999999999999",
    b"-18446744073709551615",
    b"-1000000000000000",
    b"0.123456789012345",
    b"0.000000000000000",
    b"123456789012345.0",
    b"1234567890123456789012345678901234567890",
];

/// Values with a fault in them, and some that are at the edge of one.
const FAULTS: [&[u8]; 52] = [
    b"",
    b"tru",
    b"truE",
    b"truex",
    b"nul",
    b"falsy",
    b"NaN",
    b"-",
    b"-a",
    b"+1",
    b".5",
    b"1.",
    b"1.e5",
    b"1e",
    b"1e+",
    b"1e5.",
    b"01",
    b"-01",
    b"00",
    b"1 1",
    b"'a'",
    b"\"",
    b"\"a",
    b"\"\\\"",
    b"\"\\a\"",
    b"\"\\u\"",
    b"\"\\u12\"",
    b"\"\\u12g4\"",
    b"\"\\ud800\"",
    b"\"\\uD8",
    b"\"\\ud800x\"",
    b"\"\\ud800\\n\"",
    b"\"\\ud800\\u0041\"",
    b"\"\\ud800\\ud800\"",
    b"\"\\ud800\\udbff\"",
    b"\"\\ud800\\ud",
    b"\"\\uDBFF\\uDFFF\"",
    b"\"\\udc00\"",
    b"\"\\uDfff\"",
    b"\"\x1f\"",
    b"\"\x80\"",
    b"\"\xc0\x80\"",
    b"\"\xc3\"",
    b"\"\xe0\x9f\xbf\"",
    b"\"\xed\xa0\x80\"",
    b"\"\xf0\x8f\xbf\xbf\"",
    b"\"\xf4\x90\x80\x80\"",
    b"\"\xf5\"",
    b"{\"a\"}",
    b"{\"a\":1,}",
    b"{\"\\ud800\":1}",
    b"[1,]",
];

/// Changes one to three places of a text.
fn damage(random: &mut Random, text: &mut Vec<u8>) {
    for _ in 0..random.pick(&[1, 1, 1, 2, 3]) {
        let at = random.below(text.len() + 1);
        match random.below(7) {
            0 => text.truncate(at),
            1 if at < text.len() => drop(text.remove(at)),
            2 | 3 if at < text.len() => text[at] = byte(random),
            4 => text.splice(at..at, piece(random)).for_each(drop),
            5 if at < text.len() => text[at] ^= 1 << random.below(8),
            _ => text.insert(at, byte(random)),
        }
    }
}

/// A byte that JSON gives a meaning, or one at an edge of UTF-8.
fn byte(random: &mut Random) -> u8 {
    let telling =
        b"{}[]:,\"\\/-+.eE0123456789abfnrtu \t\n\r\0\x0b\x1f\x7f\x80\x8f\x90\x9f\xa0\xbf\xc0\xc2\xdf\
        \xe0\xed\xef\xf0\xf4\xf5\xff";
    random.pick(telling)
}

/// A piece of text: a value, sound or not, or marks.
fn piece(random: &mut Random) -> Vec<u8> {
    const MARKS: [&[u8]; 14] = [
        b"[",
        b"]",
        b"{",
        b"}",
        b",",
        b":",
        b"[]",
        b"{}",
        b"\"a\":",
        b",\"a\":0",
        b"true",
        b"null",
        b"\\u0041",
        b"\xef\xbb\xbf",
    ];
    match random.below(4) {
        0 => random.pick(&FAULTS).to_vec(),
        1 => random.pick(&WRONG_NUMBERS).to_vec(),
        _ => random.pick(&MARKS).to_vec(),
    }
}

/// Pieces after pieces.
fn soup(random: &mut Random) -> Vec<u8> {
    (0..random.below(8)).flat_map(|_| piece(random)).collect()
}

/// Arrays and objects down to about level 257, with something there; not always is everything closed again.
fn around_level_257(random: &mut Random, keys: &[String]) -> Vec<u8> {
    let wanted = MAX_LEVELS - 3 + random.below(6);
    let longest = random.pick(&[0, 1, 4, 200]);
    let (mut level, mut opened, mut closing) = (1, Vec::new(), Vec::new());
    while level < wanted {
        let before = random.below(longest + 1).min(wanted - level - 1);
        let (front, bracket) = opening(random, keys, before);
        opened.extend(front);
        closing.insert(0, bracket);
        level += before + 1;
    }
    let innermost = innermost(random, keys);
    if random.percent(20) {
        closing.clear();
    }
    [opened, innermost, closing].concat()
}

/// An array or object up to its part of this number, which is still to come, and the bracket that closes it.
fn opening(random: &mut Random, keys: &[String], number: usize) -> (Vec<u8>, u8) {
    if random.percent(60) {
        return ([b"[".to_vec(), b"0,".repeat(number)].concat(), b']');
    }
    let mut text = vec![b'{'];
    let speller = Speller { white_space_percent: 0, escape_percent: 0 };
    let listed_percent = random.pick(&[0, 50, 100]);
    for place in 0..=number {
        let listed = keys.get(place).filter(|_| random.percent(listed_percent));
        let key = listed.cloned().unwrap_or(format!("unlisted {place}"));
        speller.string(random, &key, &mut text);
        text.extend(if place < number { &b":0,"[..] } else { b":" });
    }
    (text, b'}')
}

/// What is put at a level where it may stand, or may not.
fn innermost(random: &mut Random, keys: &[String]) -> Vec<u8> {
    let key = keys.first().map_or("a", |key| key);
    let mut string = Vec::new();
    Speller { white_space_percent: 0, escape_percent: 0 }.string(random, key, &mut string);
    match random.below(10) {
        0 => b"[]".to_vec(),
        1 => b"{}".to_vec(),
        2 => b"[0]".to_vec(),
        3 => b"{\"unlisted\":0}".to_vec(),
        4 => [b"{", &string[..], b":0}"].concat(),
        5 => [b"{", &string[..], b":0,", &string, b":0}"].concat(),
        6 => b"{\"unlisted\":0,\"unlisted\":0}".to_vec(),
        7 => b"{\"unlisted".to_vec(),
        _ => piece(random),
    }
}
