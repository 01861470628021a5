//! Term text: a reader by recursive descent with a hash map for rows (61 to 67), and a writer (68).

use std::collections::HashMap;

use super::set::{self, Set};
use super::table::{self, Row};
use super::{MINUS_ZERO, UNUSED};

/// A refusal's number, and the place of a refusal of text.
pub type Refusal = (u8, usize);

/// The cells of the rows of a text, for a space of so many cells.
pub fn read(
    set: &[u8],
    site: &[u8],
    built_in: &[u8],
    text: &[u8],
    space: usize,
) -> Result<Vec<u16>, Refusal> {
    let set = set::read(set).map_err(|number| (number, 0))?;
    let names = shown_names(site, built_in, set.arities.len())?;
    let symbols = names.iter().zip(0..).map(|(name, symbol)| (&name[..], symbol)).collect();
    let limit = (space / 10).min(1024);
    let mut reader =
        Reader { set: &set, symbols, text, at: 0, rows: Vec::new(), numbers: HashMap::new(), limit };
    reader.term(1)?;
    if reader.at < text.len() {
        return reader.fault();
    }
    Ok(reader.rows.iter().flat_map(Row::cells).collect())
}

/// The names shown for a set's symbols, once both lists are checked.
fn shown_names(site: &[u8], built_in: &[u8], symbols: usize) -> Result<Vec<Vec<u8>>, Refusal> {
    let (site, built_in) = (lines(site)?, lines(built_in)?);
    let listed = |symbol: usize| {
        let line =
            |list: &[&[u8]]| list.get(symbol).filter(|line| !line.is_empty()).map(|line| line.to_vec());
        line(&site).or_else(|| line(&built_in))
    };
    let names: Vec<Vec<u8>> = (0..symbols)
        .map(|symbol| listed(symbol).unwrap_or_else(|| format!("s{symbol}").into_bytes()))
        .collect();
    let mut sorted: Vec<&Vec<u8>> = names.iter().collect();
    sorted.sort_unstable();
    if sorted.windows(2).any(|pair| pair[0] == pair[1]) {
        return Err((62, 0));
    }
    Ok(names)
}

/// The lines of a list without the spaces and bytes 13 at their ends, or 61.
fn lines(list: &[u8]) -> Result<Vec<&[u8]>, Refusal> {
    let mut lines: Vec<&[u8]> = list.split(|&byte| byte == 10).collect();
    lines.pop_if(|after_last| after_last.is_empty());
    for line in &mut lines {
        let last = line.iter().rposition(|byte| !matches!(byte, b' ' | b'\r'));
        *line = &line[..last.map_or(0, |last| last + 1)];
    }
    if lines.len() > 64 || !lines.iter().all(|line| line.is_empty() || is_name(line)) {
        return Err((61, 0));
    }
    Ok(lines)
}

fn is_name(bytes: &[u8]) -> bool {
    bytes.len() <= 16
        && bytes[0].is_ascii_lowercase()
        && bytes.iter().all(|byte| byte.is_ascii_lowercase() || byte.is_ascii_digit())
}

struct Reader<'a> {
    set: &'a Set,
    symbols: HashMap<&'a [u8], u16>,
    text: &'a [u8],
    at: usize,
    rows: Vec<Row>,
    numbers: HashMap<Row, u16>,
    limit: usize,
}

impl Reader<'_> {
    /// The next byte, and 0 at the end, which no text may hold.
    fn peek(&self) -> u8 {
        self.text.get(self.at).copied().unwrap_or(0)
    }

    /// Refusal 63 here.
    fn fault<T>(&self) -> Result<T, Refusal> {
        Err((63, self.at))
    }

    fn expect(&mut self, byte: u8) -> Result<(), Refusal> {
        if self.peek() != byte {
            return self.fault();
        }
        self.at += 1;
        Ok(())
    }

    /// The number of a term's row.
    fn term(&mut self, level: usize) -> Result<u16, Refusal> {
        let start = self.at;
        let symbol = self.name(level)?;
        let mut row = Row { symbol, children: [UNUSED; 4], kind: 0, payload: 0 };
        let mut count = 0;
        match self.peek() {
            b'(' => count = self.arguments(level, &mut row.children)?,
            b'=' | b'#' | b'~' => (row.kind, row.payload) = self.scalar()?,
            _ => {}
        }
        if count != usize::from(self.set.arities[usize::from(symbol)]) {
            return Err((66, start));
        }
        self.place(row).ok_or((67, start))
    }

    /// The number of children in brackets; the first four are kept.
    fn arguments(&mut self, level: usize, children: &mut [u16; 4]) -> Result<usize, Refusal> {
        let mut count = 0;
        loop {
            self.at += 1;
            let child = self.term(level + 1)?;
            if let Some(place) = children.get_mut(count) {
                *place = child;
            }
            count += 1;
            if self.peek() != b',' {
                break;
            }
        }
        self.expect(b')')?;
        Ok(count)
    }

    /// The number of an equal row or of a new one, where there is space.
    fn place(&mut self, row: Row) -> Option<u16> {
        if let Some(&number) = self.numbers.get(&row) {
            return Some(number);
        }
        if self.rows.len() == self.limit {
            return None;
        }
        let number = self.rows.len() as u16;
        self.numbers.insert(row, number);
        self.rows.push(row);
        Some(number)
    }

    /// The symbol of a name.
    fn name(&mut self, level: usize) -> Result<u16, Refusal> {
        let start = self.at;
        if !self.peek().is_ascii_lowercase() {
            return self.fault();
        }
        if level > 256 {
            return Err((64, start));
        }
        let rest = &self.text[start..];
        let ends = |byte: &u8| !byte.is_ascii_lowercase() && !byte.is_ascii_digit();
        let length = rest.iter().position(ends).unwrap_or(rest.len());
        self.at += length.min(16);
        if length > 16 {
            return self.fault();
        }
        self.symbols.get(&rest[..length]).copied().ok_or((65, start))
    }

    /// Kind and payload of a scalar.
    fn scalar(&mut self) -> Result<(u16, u64), Refusal> {
        let mark = self.peek();
        self.at += 1;
        match (mark, self.peek()) {
            (b'=', b't') => self.word(b"true").map(|()| (1, 1)),
            (b'=', b'f') => self.word(b"false").map(|()| (1, 0)),
            (b'=', _) => self.decimal(u64::MAX).map(|count| (2, count)),
            (b'#', _) => self.decimal(u64::from(u32::MAX)).map(|name| (4, name)),
            _ => self.rate().map(|bits| (3, bits)),
        }
    }

    fn word(&mut self, word: &[u8]) -> Result<(), Refusal> {
        word.iter().try_for_each(|&byte| self.expect(byte))
    }

    /// A decimal number up to the largest.
    fn decimal(&mut self, largest: u64) -> Result<u64, Refusal> {
        let first = self.peek();
        if !first.is_ascii_digit() {
            return self.fault();
        }
        self.at += 1;
        let mut value = u64::from(first - b'0');
        while self.peek().is_ascii_digit() {
            let digit = u64::from(self.peek() - b'0');
            match value.checked_mul(10).and_then(|tens| tens.checked_add(digit)) {
                Some(longer) if value > 0 && longer <= largest => value = longer,
                _ => return self.fault(),
            }
            self.at += 1;
        }
        Ok(value)
    }

    /// The bits of a rate of 16 hex digits; the two zeros are one rate.
    fn rate(&mut self) -> Result<u64, Refusal> {
        let mut bits = 0;
        for _ in 0..16 {
            let digit = match self.peek() {
                byte @ b'0'..=b'9' => byte - b'0',
                byte @ b'a'..=b'f' => byte - b'a' + 10,
                _ => return self.fault(),
            };
            bits = bits << 4 | u64::from(digit);
            self.at += 1;
        }
        Ok(if bits == MINUS_ZERO { 0 } else { bits })
    }
}

/// The text of a table, for a space of so many bytes.
pub fn write(
    set: &[u8],
    site: &[u8],
    built_in: &[u8],
    rows: &[u16],
    space: usize,
) -> Result<Vec<u8>, Refusal> {
    let set = set::read(set).map_err(|number| (number, 0))?;
    let names = shown_names(site, built_in, set.arities.len())?;
    let rows = table::read(&set, rows).map_err(|number| (number, 0))?;
    let own: Vec<Vec<u8>> = rows.iter().map(|row| own_part(row, &names)).collect();
    let length = text_length(&rows, &own);
    if length > space {
        return Err((68, 0));
    }
    let mut text = Vec::with_capacity(length);
    write_row(&rows, &own, rows.len() - 1, &mut text);
    Ok(text)
}

/// A row's name and scalar.
fn own_part(row: &Row, names: &[Vec<u8>]) -> Vec<u8> {
    let mut part = names[usize::from(row.symbol)].clone();
    let payload = row.payload;
    match row.kind {
        0 => {}
        1 => part.extend(if payload == 1 { &b"=true"[..] } else { b"=false" }),
        2 => part.extend(format!("={payload}").bytes()),
        3 => part.extend(format!("~{payload:016x}").bytes()),
        _ => part.extend(format!("#{payload}").bytes()),
    }
    part
}

/// The length of the last row's text, which may be far too long to be written.
fn text_length(rows: &[Row], own: &[Vec<u8>]) -> usize {
    let mut lengths: Vec<usize> = Vec::with_capacity(rows.len());
    for (row, own) in rows.iter().zip(own) {
        let children = row.used();
        let brackets = if children.is_empty() { 0 } else { children.len() + 1 };
        let below = children.iter().map(|&child| lengths[usize::from(child)]);
        lengths.push(below.fold(own.len() + brackets, usize::saturating_add));
    }
    lengths[rows.len() - 1]
}

fn write_row(rows: &[Row], own: &[Vec<u8>], number: usize, text: &mut Vec<u8>) {
    text.extend(&own[number]);
    let children = rows[number].used();
    for (place, &child) in children.iter().enumerate() {
        text.push(if place == 0 { b'(' } else { b',' });
        write_row(rows, own, usize::from(child), text);
    }
    if !children.is_empty() {
        text.push(b')');
    }
}
