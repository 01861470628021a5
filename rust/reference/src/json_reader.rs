//! The reader of JSON (RFC 8259) into the row table (document 02, Wish 1), refusals 74, 64, 67 and 71 to 73.
//!
//! The text is read once from the left, and the leftmost place counts. A refusal that stands at the first byte of a key
//! or number is found when that is whole; no other can be found before that but 71 further on, which says that it is
//! not whole. So the first refusal found is the one that counts, where those found together are tried in the order of
//! their places, and at one place the lower number first.

use std::collections::{HashMap, HashSet};

use crate::document::{Document, Row, Scalar};
use crate::json_cursor::Cursor;
use crate::json_keys::{check_keys, END, FIRST_KEY, FLAG, ITEM, NULL, NUMBER, OTHER, STOP, TEXT};
use crate::limits::{MAX_LEVELS, MAX_ROWS, ROW_CELLS};
use crate::refusal::Refusal;
use crate::table::TableBuilder;

/// Reads a text into a table: the key list's number first, then the text's. The row space is given by its length in
/// cells.
pub fn read_json(keys: &[u8], text: &[u8], row_cells: usize) -> Result<Document, Refusal> {
    let keys = check_keys(keys)?;
    let table = TableBuilder::with_limit(MAX_ROWS.min(row_cells / ROW_CELLS));
    let mut reader = Reader { keys, cursor: Cursor { text, at: 0 }, table, numbers: HashMap::new() };
    reader.cursor.white_space();
    reader.value(1)?;
    reader.cursor.white_space();
    reader.cursor.end()?;
    Ok(reader.table.finish())
}

/// A text read up to a byte, with the rows that are finished.
struct Reader<'a> {
    keys: Vec<&'a [u8]>,
    cursor: Cursor<'a>,
    table: TableBuilder,
    /// The numbers of the decoded texts that have become leaves, by first appearance.
    numbers: HashMap<Vec<u8>, u32>,
}

/// An element or a member that waits for the rest behind it: its symbol, and the rows of its other children.
type Waiting = (usize, Vec<usize>);

fn can_start_a_value(byte: u8) -> bool {
    matches!(byte, b'{' | b'[' | b'"' | b'-' | b'0'..=b'9' | b't' | b'f' | b'n')
}

impl Reader<'_> {
    /// A value at a level; answers its row's number. 64 asks for no more than a first byte that a value can have.
    fn value(&mut self, level: usize) -> Result<usize, Refusal> {
        let Some(first) = self.cursor.peek().filter(|&byte| can_start_a_value(byte)) else {
            return self.cursor.no_continuation();
        };
        if level > MAX_LEVELS {
            return Err(Refusal::at(64, self.cursor.at));
        }
        match first {
            b'{' => self.object(level),
            b'[' => self.array(level),
            b'"' => {
                let text = self.cursor.string()?;
                self.text_leaf(text)
            }
            b't' => self.word(b"true", FLAG, Scalar::Flag(true)),
            b'f' => self.word(b"false", FLAG, Scalar::Flag(false)),
            b'n' => self.word(b"null", NULL, Scalar::Bare),
            _ => self.number(),
        }
    }

    fn word(&mut self, word: &[u8], symbol: usize, scalar: Scalar) -> Result<usize, Refusal> {
        self.cursor.word(word)?;
        self.finish(symbol, Vec::new(), scalar)
    }

    /// A number: 73 at its first byte once it is whole, before 67 at its last digit.
    fn number(&mut self) -> Result<usize, Refusal> {
        let start = self.cursor.at;
        let scalar = self.cursor.number()?.scalar().ok_or(Refusal::at(73, start))?;
        self.finish(NUMBER, Vec::new(), scalar)
    }

    /// The leaf of a text whose closing quote has just been taken.
    fn text_leaf(&mut self, text: Vec<u8>) -> Result<usize, Refusal> {
        let next = self.numbers.len() as u32;
        let number = *self.numbers.entry(text).or_insert(next);
        self.finish(TEXT, Vec::new(), Scalar::Name(number))
    }

    /// An array at a level. Element k is a row k levels below, and its value stands one level below that.
    fn array(&mut self, level: usize) -> Result<usize, Refusal> {
        self.cursor.mark(b'[')?;
        let mut elements: Vec<Waiting> = Vec::new();
        if self.cursor.peek() != Some(b']') {
            loop {
                let value = self.value(level + elements.len() + 1)?;
                elements.push((ITEM, vec![value]));
                if !self.goes_on() {
                    break;
                }
            }
        }
        self.close(b']', STOP, elements)
    }

    /// An object at a level. Member k is a row k levels below, and its value, and its key's text where the key is not
    /// listed, stand one level below that.
    fn object(&mut self, level: usize) -> Result<usize, Refusal> {
        self.cursor.mark(b'{')?;
        let mut members: Vec<Waiting> = Vec::new();
        let mut seen = HashSet::new();
        if self.cursor.peek() != Some(b'}') {
            loop {
                let below = level + members.len() + 1;
                let (symbol, mut children) = self.key(below, &mut seen)?;
                self.cursor.mark(b':')?;
                children.push(self.value(below)?);
                members.push((symbol, children));
                if !self.goes_on() {
                    break;
                }
            }
        }
        self.close(b'}', END, members)
    }

    /// Takes a comma, if one comes next, with white space on both sides.
    fn goes_on(&mut self) -> bool {
        self.cursor.mark(b',').is_ok()
    }

    /// A key's symbol and, where it is not listed, the row of its text. 64 and then 72 stand at its opening quote, 67
    /// at its closing one.
    fn key(&mut self, level: usize, seen: &mut HashSet<Vec<u8>>) -> Result<Waiting, Refusal> {
        let start = self.cursor.at;
        let key = self.cursor.string()?;
        let listed = self.keys.iter().position(|line| *line == key);
        if listed.is_none() && level > MAX_LEVELS {
            return Err(Refusal::at(64, start));
        }
        if !seen.insert(key.clone()) {
            return Err(Refusal::at(72, start));
        }
        match listed {
            Some(line) => Ok((FIRST_KEY + line, Vec::new())),
            None => Ok((OTHER, vec![self.text_leaf(key)?])),
        }
    }

    /// The closing bracket, which finishes the row that closes and then all that wait for it, from the last to the
    /// first.
    fn close(&mut self, bracket: u8, symbol: usize, waiting: Vec<Waiting>) -> Result<usize, Refusal> {
        self.cursor.word(&[bracket])?;
        let mut rest = self.finish(symbol, Vec::new(), Scalar::Bare)?;
        for (symbol, mut children) in waiting.into_iter().rev() {
            children.push(rest);
            rest = self.finish(symbol, children, Scalar::Bare)?;
        }
        Ok(rest)
    }

    /// The number of a row that the byte just taken finishes; 67 stands at that byte.
    fn finish(&mut self, symbol: usize, children: Vec<usize>, scalar: Scalar) -> Result<usize, Refusal> {
        let row = Row { symbol, children, scalar };
        self.table.place(row).ok_or(Refusal::at(67, self.cursor.at - 1))
    }
}
