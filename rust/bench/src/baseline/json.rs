//! JSON: a reader in one pass, with hash maps for rows, texts and keys (64, 67 and 71 to 74).

use std::borrow::Cow;
use std::collections::hash_map::{Entry, HashMap};
use std::str;

use super::table::Row;
use super::{MINUS_ZERO, UNUSED};

/// A refusal's number, and the place of a refusal of text.
pub type Refusal = (u8, usize);

const END: u16 = 0;
const STOP: u16 = 1;
const OTHER: u16 = 2;
const ITEM: u16 = 3;
const NULL: u16 = 4;
const FLAG: u16 = 5;
const NUMBER: u16 = 6;
const TEXT: u16 = 7;
const FIRST_KEY: u16 = 8;

/// The cells of the rows of a text, for a space of so many cells.
pub fn read(keys: &[u8], text: &[u8], space: usize) -> Result<Vec<u16>, Refusal> {
    let keys = listed(keys)?;
    // Outside of strings no byte above 127 may stand, so that the front that is UTF-8 is all that need be read.
    let (sound, utf_8_fault) = match str::from_utf8(text) {
        Ok(_) => (text, text.len()),
        Err(error) => {
            let sound = error.valid_up_to();
            let starts_a_character = matches!(text[sound], 0xc2..=0xf4);
            let length = error.error_len().unwrap_or(text.len() - sound);
            (&text[..sound], sound + if starts_a_character { length } else { 0 })
        }
    };
    let limit = (space / 10).min(1024);
    let mut reader = Reader {
        text: sound,
        utf_8_fault,
        at: 0,
        keys,
        texts: HashMap::new(),
        rows: Vec::with_capacity(limit),
        numbers: HashMap::with_capacity(limit),
        limit,
        waiting: Vec::new(),
    };
    reader.white_space();
    reader.value(1)?;
    reader.white_space();
    if reader.at < text.len() {
        return reader.fault();
    }
    Ok(reader.rows.iter().flat_map(Row::cells).collect())
}

/// The symbol of each key, or 74.
fn listed(list: &[u8]) -> Result<HashMap<&[u8], u16>, Refusal> {
    let mut lines: Vec<&[u8]> = list.split(|&byte| byte == 10).collect();
    lines.pop_if(|after_last| after_last.is_empty());
    if lines.len() > 56 || !lines.iter().all(|line| (1..=64).contains(&line.len())) {
        return Err((74, 0));
    }
    let keys: HashMap<&[u8], u16> = lines.iter().copied().zip(FIRST_KEY..).collect();
    if keys.len() < lines.len() {
        return Err((74, 0));
    }
    Ok(keys)
}

struct Reader<'a> {
    text: &'a [u8],
    /// Where a string that reaches the end of the text read is at fault.
    utf_8_fault: usize,
    at: usize,
    keys: HashMap<&'a [u8], u16>,
    texts: HashMap<Cow<'a, [u8]>, u64>,
    rows: Vec<Row>,
    numbers: HashMap<Row, u16>,
    limit: usize,
    /// The elements and members that wait for the rest behind them, of all that is open.
    waiting: Vec<Row>,
}

impl<'a> Reader<'a> {
    /// The next byte, and 0 at the end, which no text may hold.
    fn peek(&self) -> u8 {
        self.text.get(self.at).copied().unwrap_or(0)
    }

    /// Refusal 71 here.
    fn fault<T>(&self) -> Result<T, Refusal> {
        Err((71, self.at))
    }

    fn expect(&mut self, byte: u8) -> Result<(), Refusal> {
        if self.peek() != byte {
            return self.fault();
        }
        self.at += 1;
        Ok(())
    }

    fn white_space(&mut self) {
        while matches!(self.peek(), b' ' | b'\t' | b'\n' | b'\r') {
            self.at += 1;
        }
    }

    /// The number of a value's row.
    fn value(&mut self, level: usize) -> Result<u16, Refusal> {
        let first = self.peek();
        if !matches!(first, b'{' | b'[' | b'"' | b'-' | b'0'..=b'9' | b't' | b'f' | b'n') {
            return self.fault();
        }
        if level > 256 {
            return Err((64, self.at));
        }
        match first {
            b'{' => self.object(level),
            b'[' => self.array(level),
            b'"' => {
                let text = self.string()?;
                self.text_leaf(text)
            }
            b't' => self.word(b"true", FLAG, 1, 1),
            b'f' => self.word(b"false", FLAG, 1, 0),
            b'n' => self.word(b"null", NULL, 0, 0),
            _ => self.number(),
        }
    }

    fn word(&mut self, word: &[u8], symbol: u16, kind: u16, payload: u64) -> Result<u16, Refusal> {
        for &byte in word {
            self.expect(byte)?;
        }
        self.leaf(symbol, kind, payload)
    }

    fn array(&mut self, level: usize) -> Result<u16, Refusal> {
        let first = self.waiting.len();
        self.at += 1;
        self.white_space();
        if self.peek() != b']' {
            loop {
                let value = self.value(level + self.waiting.len() - first + 1)?;
                self.waiting.push(over(ITEM, [value, UNUSED, UNUSED, UNUSED]));
                if !self.goes_on() {
                    break;
                }
            }
        }
        self.expect(b']')?;
        self.close(STOP, first)
    }

    fn object(&mut self, level: usize) -> Result<u16, Refusal> {
        let first = self.waiting.len();
        let mut seen: Vec<Cow<[u8]>> = Vec::new();
        self.at += 1;
        self.white_space();
        if self.peek() != b'}' {
            loop {
                let below = level + seen.len() + 1;
                let mut member = self.key(below, &mut seen)?;
                self.white_space();
                self.expect(b':')?;
                self.white_space();
                let value = self.value(below)?;
                member.children[usize::from(member.symbol == OTHER)] = value;
                self.waiting.push(member);
                if !self.goes_on() {
                    break;
                }
            }
        }
        self.expect(b'}')?;
        self.close(END, first)
    }

    /// Whether a comma comes next, which is then taken.
    fn goes_on(&mut self) -> bool {
        self.white_space();
        let comma = self.peek() == b',';
        if comma {
            self.at += 1;
            self.white_space();
        }
        comma
    }

    /// A member up to its value.
    fn key(&mut self, level: usize, seen: &mut Vec<Cow<'a, [u8]>>) -> Result<Row, Refusal> {
        let start = self.at;
        if self.peek() != b'"' {
            return self.fault();
        }
        let key = self.string()?;
        let listed = self.keys.get(&key[..]).copied();
        if listed.is_none() && level > 256 {
            return Err((64, start));
        }
        if seen.contains(&key) {
            return Err((72, start));
        }
        seen.push(key.clone());
        match listed {
            Some(symbol) => Ok(over(symbol, [UNUSED; 4])),
            None => Ok(over(OTHER, [self.text_leaf(key)?, UNUSED, UNUSED, UNUSED])),
        }
    }

    /// Finishes the row that closes, and over it those that wait since then.
    fn close(&mut self, symbol: u16, first: usize) -> Result<u16, Refusal> {
        let mut rest = self.leaf(symbol, 0, 0)?;
        while self.waiting.len() > first {
            let mut row = self.waiting.pop().expect("some wait");
            row.children[if row.symbol == OTHER { 2 } else { 1 }] = rest;
            rest = self.place(row)?;
        }
        Ok(rest)
    }

    fn leaf(&mut self, symbol: u16, kind: u16, payload: u64) -> Result<u16, Refusal> {
        self.place(Row { symbol, children: [UNUSED; 4], kind, payload })
    }

    fn text_leaf(&mut self, text: Cow<'a, [u8]>) -> Result<u16, Refusal> {
        let next = self.texts.len() as u64;
        let number = *self.texts.entry(text).or_insert(next);
        self.leaf(TEXT, 4, number)
    }

    /// The number of an equal row or of a new one, which the byte just taken finishes.
    fn place(&mut self, row: Row) -> Result<u16, Refusal> {
        let number = self.rows.len();
        match self.numbers.entry(row) {
            Entry::Occupied(equal) => Ok(*equal.get()),
            Entry::Vacant(_) if number == self.limit => Err((67, self.at - 1)),
            Entry::Vacant(place) => {
                self.rows.push(row);
                Ok(*place.insert(number as u16))
            }
        }
    }

    /// A string, lent from the text where it has no escapes.
    fn string(&mut self) -> Result<Cow<'a, [u8]>, Refusal> {
        self.at += 1;
        let mut decoded = Cow::Borrowed(&[][..]);
        loop {
            let rest = &self.text[self.at..];
            let Some(length) = rest.iter().position(|byte| matches!(byte, b'"' | b'\\' | 0..=31)) else {
                return Err((71, self.utf_8_fault));
            };
            let plain = &rest[..length];
            self.at += length;
            match &mut decoded {
                Cow::Borrowed(b"") => decoded = Cow::Borrowed(plain),
                text => text.to_mut().extend(plain),
            }
            match rest[length] {
                b'"' => break,
                b'\\' => {
                    let character = self.escape()?;
                    decoded.to_mut().extend(character.encode_utf8(&mut [0; 4]).bytes());
                }
                _ => return self.fault(),
            }
        }
        self.at += 1;
        Ok(decoded)
    }

    fn escape(&mut self) -> Result<char, Refusal> {
        self.at += 1;
        let character = match self.peek() {
            mark @ (b'"' | b'\\' | b'/') => char::from(mark),
            b'b' => '\u{8}',
            b'f' => '\u{c}',
            b'n' => '\n',
            b'r' => '\r',
            b't' => '\t',
            b'u' => return self.unicode(),
            _ => return self.fault(),
        };
        self.at += 1;
        Ok(character)
    }

    /// The character of an escape by hex digits, or of a pair of them.
    fn unicode(&mut self) -> Result<char, Refusal> {
        let high = self.unit(|unit| !(0xdc..=0xdf).contains(&unit))?;
        if !(0xd800..=0xdbff).contains(&high) {
            return Ok(char::from_u32(high).expect("no half"));
        }
        self.expect(b'\\')?;
        if self.peek() != b'u' {
            return self.fault();
        }
        let low =
            self.unit(|front| if front < 16 { front == 0xd } else { (0xdc..=0xdf).contains(&front) })?;
        Ok(char::from_u32(0x1_0000 + ((high - 0xd800) << 10) + (low - 0xdc00)).expect("a pair"))
    }

    /// Four hex digits behind `u`; the first, and the first two, must be such as may come.
    fn unit(&mut self, may_come: impl Fn(u32) -> bool) -> Result<u32, Refusal> {
        self.at += 1;
        let mut unit = 0;
        for place in 0..4 {
            let Some(digit) = char::from(self.peek()).to_digit(16) else { return self.fault() };
            unit = unit << 4 | digit;
            if place < 2 && !may_come(unit) {
                return self.fault();
            }
            self.at += 1;
        }
        Ok(unit)
    }

    /// A number: a count, a rate, or 73.
    fn number(&mut self) -> Result<u16, Refusal> {
        let start = self.at;
        let negative = self.peek() == b'-';
        self.at += usize::from(negative);
        let leading_zero = self.peek() == b'0';
        let (mut digits, whole) = self.digits(0)?;
        if leading_zero && digits > 1 {
            return Err((71, self.at - digits + 1));
        }
        let (mut value, mut fraction) = (whole, 0);
        let has_fraction = self.peek() == b'.';
        if has_fraction {
            self.at += 1;
            (fraction, value) = self.digits(whole.unwrap_or(0))?;
            digits += fraction;
        }
        let has_exponent = matches!(self.peek(), b'e' | b'E');
        if has_exponent {
            self.at += 1;
            self.at += usize::from(matches!(self.peek(), b'+' | b'-'));
            self.digits(0)?;
        }
        match whole {
            Some(count) if !negative && !has_fraction && !has_exponent => self.leaf(NUMBER, 2, count),
            _ if has_exponent || digits > 15 => Err((73, start)),
            _ => {
                let rate = value.unwrap_or(0) as f64 / POWERS[fraction];
                let bits = if negative { -rate } else { rate }.to_bits();
                self.leaf(NUMBER, 3, if bits == MINUS_ZERO { 0 } else { bits })
            }
        }
    }

    /// One digit or more: how many, and the number that they go on to, if it is below 2^64.
    fn digits(&mut self, before: u64) -> Result<(usize, Option<u64>), Refusal> {
        let start = self.at;
        let mut value = Some(before);
        while let digit @ b'0'..=b'9' = self.peek() {
            value = value.and_then(|value| value.checked_mul(10)?.checked_add(u64::from(digit - b'0')));
            self.at += 1;
        }
        if self.at == start {
            return self.fault();
        }
        Ok((self.at - start, value))
    }
}

/// The powers of ten that a rate is divided by.
const POWERS: [f64; 15] = [1e0, 1e1, 1e2, 1e3, 1e4, 1e5, 1e6, 1e7, 1e8, 1e9, 1e10, 1e11, 1e12, 1e13, 1e14];

/// A row with children.
fn over(symbol: u16, children: [u16; 4]) -> Row {
    Row { symbol, children, kind: 0, payload: 0 }
}
