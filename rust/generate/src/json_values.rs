//! JSON values, and how a text can spell them: with white space, with escapes, and numbers of all forms.

use crate::json_lists::KEYS;
use crate::Random;

/// A value before it is spelled.
#[derive(Clone, Debug)]
pub enum Value {
    Null,
    Flag(bool),
    Text(String),
    Array(Vec<Value>),
    Object(Vec<(String, Value)>),
    /// What is spelled in one way: numbers, and faults.
    Spelled(Vec<u8>),
}

/// Texts that recur: the shortest, those that need escapes, and those at the edges of UTF-8.
const TEXTS: [&str; 16] = [
    "",
    "a",
    "b",
    "web01",
    "up",
    "null",
    "\0",
    "\n",
    "\u{1f}",
    "\u{7f}",
    "\u{80}",
    "\u{7ff}",
    "\u{800}",
    "\u{d7ff}",
    "\u{ffff}",
    "\u{10ffff}",
];

/// Numbers of the forms that are read, many of them at a limit.
const NUMBERS: [&str; 22] = [
    "0",
    "1",
    "10",
    "18446744073709551615",
    "9999999999999999",
    "-0",
    "-0.0",
    "0.0",
    "0.00",
    "-1",
    "0.5",
    "0.50",
    "0.1",
    "0.3",
    "1.0",
    "-7.25",
    "0.00000000000001",
    "0.12345678901234",
    "12345678901234.5",
    "-123456789012345",
    "99999999999999.9",
    "4.35",
];

/// A number of a form that is read.
pub fn number(random: &mut Random) -> Value {
    let spelled = match random.below(3) {
        0 => random.pick(&NUMBERS).to_string(),
        1 => (random.word() >> random.below(64)).to_string(),
        _ => {
            let behind_point = random.between(1, 14);
            let before_point = random.word() % 10_u64.pow(random.between(1, 15 - behind_point) as u32);
            let sign = random.pick(&["", "-"]);
            format!(
                "{sign}{before_point}.{:0>behind_point$}",
                random.word() % 10_u64.pow(behind_point as u32)
            )
        }
    };
    Value::Spelled(spelled.into_bytes())
}

/// A text that recurs, or some characters.
fn text(random: &mut Random) -> String {
    match random.below(4) {
        0 => random.pick(&KEYS).to_string(),
        1 | 2 => random.pick(&TEXTS).to_string(),
        _ => (0..random.below(6)).map(|_| character(random)).collect(),
    }
}

/// A character of any length in UTF-8.
fn character(random: &mut Random) -> char {
    let most = random.pick(&[0x7f, 0x7f, 0x7ff, 0xffff, 0x10_ffff]);
    char::from_u32(random.below(most + 1) as u32).unwrap_or('\u{fffd}')
}

/// A value of at most so many levels of arrays and objects, with keys of a list and others.
pub fn value(random: &mut Random, keys: &[String], levels: usize) -> Value {
    match random.below(if levels == 0 { 6 } else { 18 }) {
        0 => Value::Null,
        1 => Value::Flag(random.percent(50)),
        2 | 3 => number(random),
        4 | 5 => Value::Text(text(random)),
        6..=11 => Value::Array(some(random, |random| value(random, keys, levels - 1))),
        _ => object(random, keys, levels),
    }
}

/// None, one or a few.
fn some<T>(random: &mut Random, mut one: impl FnMut(&mut Random) -> T) -> Vec<T> {
    let count = random.pick(&[0, 1, 1, 2, 3, 4, 7]);
    (0..count).map(|_| one(random)).collect()
}

fn object(random: &mut Random, keys: &[String], levels: usize) -> Value {
    let mut members: Vec<(String, Value)> = Vec::new();
    for key in some(random, |random| key(random, keys)) {
        if members.iter().all(|(other, _)| *other != key) {
            members.push((key, value(random, keys, levels - 1)));
        }
    }
    Value::Object(members)
}

/// A key of the list, where it has any, or some text.
fn key(random: &mut Random, keys: &[String]) -> String {
    if !keys.is_empty() && random.percent(50) {
        keys[random.below(keys.len())].clone()
    } else {
        text(random)
    }
}

/// Takes some value inside a value, or the value itself, and puts another in its place.
pub fn replace_somewhere(
    random: &mut Random,
    value: &mut Value,
    new: impl FnOnce(&mut Random, &Value) -> Value,
) {
    if random.percent(70) {
        match value {
            Value::Array(values) if !values.is_empty() => {
                let at = random.below(values.len());
                return replace_somewhere(random, &mut values[at], new);
            }
            Value::Object(members) if !members.is_empty() => {
                let at = random.below(members.len());
                return replace_somewhere(random, &mut members[at].1, new);
            }
            _ => {}
        }
    }
    *value = new(random, value);
}

/// How texts are spelled, each in so many of a hundred cases.
pub struct Speller {
    pub white_space_percent: usize,
    pub escape_percent: usize,
}

impl Speller {
    /// One that is spare, one that escapes much, or one that spaces much.
    pub fn any(random: &mut Random) -> Speller {
        let white_space_percent = random.pick(&[0, 0, 10, 60]);
        Speller { white_space_percent, escape_percent: random.pick(&[0, 0, 10, 60]) }
    }

    /// A text of a value.
    pub fn spell(&self, random: &mut Random, value: &Value) -> Vec<u8> {
        let mut text = Vec::new();
        self.white_space(random, &mut text);
        self.value(random, value, &mut text);
        self.white_space(random, &mut text);
        text
    }

    fn white_space(&self, random: &mut Random, text: &mut Vec<u8>) {
        while random.percent(self.white_space_percent) {
            text.push(random.pick(b" \t\n\r"));
        }
    }

    fn value(&self, random: &mut Random, value: &Value, text: &mut Vec<u8>) {
        match value {
            Value::Null => text.extend(b"null"),
            Value::Flag(flag) => text.extend(flag.to_string().bytes()),
            Value::Spelled(bytes) => text.extend(bytes),
            Value::Text(string) => self.string(random, string, text),
            Value::Array(values) => {
                let member = |(random, value): (&mut Random, &Value), text: &mut Vec<u8>| {
                    self.value(random, value, text);
                };
                self.list(random, [b'[', b']'], values, member, text);
            }
            Value::Object(members) => {
                let member = |(random, member): (&mut Random, &(String, Value)), text: &mut Vec<u8>| {
                    self.string(random, &member.0, text);
                    self.white_space(random, text);
                    text.push(b':');
                    self.white_space(random, text);
                    self.value(random, &member.1, text);
                };
                self.list(random, [b'{', b'}'], members, member, text);
            }
        }
    }

    /// Brackets around what is spelled one after the other, with commas.
    fn list<T>(
        &self,
        random: &mut Random,
        brackets: [u8; 2],
        parts: &[T],
        spell: impl Fn((&mut Random, &T), &mut Vec<u8>),
        text: &mut Vec<u8>,
    ) {
        text.push(brackets[0]);
        for (place, part) in parts.iter().enumerate() {
            if place > 0 {
                text.push(b',');
            }
            self.white_space(random, text);
            spell((random, part), text);
            self.white_space(random, text);
        }
        text.push(brackets[1]);
    }

    /// A string with its quotes.
    pub fn string(&self, random: &mut Random, string: &str, text: &mut Vec<u8>) {
        text.push(b'"');
        for character in string.chars() {
            let must = character < ' ' || character == '"' || character == '\\';
            if must || random.percent(self.escape_percent) {
                escape(random, character, text);
            } else {
                text.extend(character.to_string().bytes());
            }
        }
        text.push(b'"');
    }
}

/// An escape: by two bytes where there is such a one, or by hex digits of either case.
fn escape(random: &mut Random, character: char, text: &mut Vec<u8>) {
    let short = match character {
        '"' | '\\' | '/' => Some(character),
        '\u{8}' => Some('b'),
        '\u{c}' => Some('f'),
        '\n' => Some('n'),
        '\r' => Some('r'),
        '\t' => Some('t'),
        _ => None,
    };
    match short {
        Some(mark) if random.percent(60) => text.extend([b'\\', mark as u8]),
        _ => {
            for unit in character.encode_utf16(&mut [0; 2]) {
                let digits = if random.percent(50) { format!("{unit:04x}") } else { format!("{unit:04X}") };
                text.extend([b"\\u", digits.as_bytes()].concat());
            }
        }
    }
}
