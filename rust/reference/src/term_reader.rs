//! The reader of term text (document 01, "Term text", and document 02, Wish 6), refusals 63 to 67 with their places.

use crate::automaton::Automaton;
use crate::document::{with_one_zero, Document, Row, Scalar};
use crate::limits::{MAX_LEVELS, MAX_NAME_BYTES, MAX_ROWS, ROW_CELLS};
use crate::names::check_names;
use crate::refusal::Refusal;
use crate::stored::check_automaton;
use crate::table::TableBuilder;

/// Reads a text into a table: the set's numbers first, then the names', then the text's. The row
/// space is given by its length in cells.
pub fn read_term(
    set: &[u8],
    site: &[u8],
    built_in: &[u8],
    text: &[u8],
    row_cells: usize,
) -> Result<Document, Refusal> {
    let automaton = check_automaton(set)?;
    let names = check_names(site, built_in, automaton.arities.len())?;
    let limit = MAX_ROWS.min(row_cells / ROW_CELLS);
    let table = TableBuilder::with_limit(limit);
    let mut reader = Reader { automaton: &automaton, names: &names, text, at: 0, table };
    reader.term(1)?;
    reader.end()?;
    Ok(reader.table.finish())
}

/// A text read up to a byte. The first fault from the left counts, so reading stops at it.
struct Reader<'a> {
    automaton: &'a Automaton,
    names: &'a [Vec<u8>],
    text: &'a [u8],
    at: usize,
    table: TableBuilder,
}

impl Reader<'_> {
    fn peek(&self) -> Option<u8> {
        self.text.get(self.at).copied()
    }

    /// Refusal 63 at the byte to be read next, or at the end.
    fn no_continuation<T>(&self) -> Result<T, Refusal> {
        Err(Refusal::at(63, self.at))
    }

    /// Takes one byte that must come next.
    fn expect(&mut self, byte: u8) -> Result<(), Refusal> {
        if self.peek() != Some(byte) {
            return self.no_continuation();
        }
        self.at += 1;
        Ok(())
    }

    fn end(&self) -> Result<(), Refusal> {
        match self.peek() {
            Some(_) => self.no_continuation(),
            None => Ok(()),
        }
    }

    /// A name, then nothing, a scalar or an argument list; answers the row's number.
    fn term(&mut self, level: usize) -> Result<usize, Refusal> {
        let start = self.at;
        let symbol = self.name(level)?;
        let (scalar, children) = match self.peek() {
            Some(b'(') => (Scalar::Bare, self.argument_list(level)?),
            Some(b'=' | b'~' | b'#') => (self.scalar()?, Vec::new()),
            _ => (Scalar::Bare, Vec::new()),
        };
        self.finish(start, Row { symbol, children, scalar })
    }

    /// One or more terms in round brackets, with commas.
    fn argument_list(&mut self, level: usize) -> Result<Vec<usize>, Refusal> {
        self.expect(b'(')?;
        let mut children = vec![self.term(level + 1)?];
        while self.peek() == Some(b',') {
            self.at += 1;
            children.push(self.term(level + 1)?);
        }
        self.expect(b')')?;
        Ok(children)
    }

    /// The end of a term: 66, then 67, both at the term's first byte.
    fn finish(&mut self, start: usize, row: Row) -> Result<usize, Refusal> {
        if row.children.len() != self.automaton.arity(row.symbol) {
            return Err(Refusal::at(66, start));
        }
        self.table.place(row).ok_or(Refusal::at(67, start))
    }

    /// A name that is shown for some symbol. A 17th byte does not end a name, so it is 63, not 65.
    fn name(&mut self, level: usize) -> Result<usize, Refusal> {
        let start = self.at;
        if !self.peek().is_some_and(|byte| byte.is_ascii_lowercase()) {
            return self.no_continuation();
        }
        if level > MAX_LEVELS {
            return Err(Refusal::at(64, start));
        }
        while self.peek().is_some_and(|byte| byte.is_ascii_lowercase() || byte.is_ascii_digit()) {
            if self.at - start == MAX_NAME_BYTES {
                return self.no_continuation();
            }
            self.at += 1;
        }
        let name = &self.text[start..self.at];
        let symbol = self.names.iter().position(|shown| shown == name);
        symbol.ok_or(Refusal::at(65, start))
    }

    /// What follows `=`, `~` or `#`.
    fn scalar(&mut self) -> Result<Scalar, Refusal> {
        let mark = self.peek();
        self.at += 1;
        match (mark, self.peek()) {
            (Some(b'='), Some(b't')) => self.word(b"true").map(|()| Scalar::Flag(true)),
            (Some(b'='), Some(b'f')) => self.word(b"false").map(|()| Scalar::Flag(false)),
            (Some(b'='), _) => self.decimal(u64::MAX).map(Scalar::Count),
            (Some(b'#'), _) => self.decimal(u64::from(u32::MAX)).map(|name| Scalar::Name(name as u32)),
            _ => self.rate().map(|bits| Scalar::Rate(with_one_zero(bits))),
        }
    }

    fn word(&mut self, word: &[u8]) -> Result<(), Refusal> {
        word.iter().try_for_each(|&byte| self.expect(byte))
    }

    /// A decimal number up to the largest; a digit too many or after a leading 0 is 63 at that digit.
    fn decimal(&mut self, largest: u64) -> Result<u64, Refusal> {
        let Some(first) = self.digit(10) else {
            return self.no_continuation();
        };
        let mut value = first;
        self.at += 1;
        while let Some(digit) = self.digit(10) {
            let longer = value.checked_mul(10).and_then(|tens| tens.checked_add(digit));
            value = match longer {
                Some(longer) if first != 0 && longer <= largest => longer,
                _ => return self.no_continuation(),
            };
            self.at += 1;
        }
        Ok(value)
    }

    /// The 16 lowercase hex digits of a rate's bits.
    fn rate(&mut self) -> Result<u64, Refusal> {
        let mut bits = 0;
        for _ in 0..16 {
            match self.digit(16) {
                Some(digit) => bits = bits << 4 | digit,
                None => return self.no_continuation(),
            }
            self.at += 1;
        }
        Ok(bits)
    }

    /// The value of the next byte as a digit of a base; hex digits are lowercase.
    fn digit(&self, base: u32) -> Option<u64> {
        let byte = self.peek().filter(|byte| !byte.is_ascii_uppercase())?;
        char::from(byte).to_digit(base).map(u64::from)
    }
}
