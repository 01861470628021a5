//! A table under construction: equal rows become one, and numbers follow the order of first finishing.

use std::collections::HashMap;

use crate::document::{Document, Row};

/// Rows gathered so far. The paper's index finds what a plain scan finds ("Documents"); here a map does.
pub struct TableBuilder {
    rows: Vec<Row>,
    numbers: HashMap<Row, usize>,
    limit: usize,
}

impl TableBuilder {
    /// An empty table that takes at most `limit` rows.
    pub fn with_limit(limit: usize) -> TableBuilder {
        TableBuilder { rows: Vec::new(), numbers: HashMap::new(), limit }
    }

    /// The number of an equal row, or of this one as a new row; nothing where a new row is one too many.
    pub fn place(&mut self, row: Row) -> Option<usize> {
        if let Some(&number) = self.numbers.get(&row) {
            return Some(number);
        }
        if self.rows.len() == self.limit {
            return None;
        }
        let number = self.rows.len();
        self.numbers.insert(row.clone(), number);
        self.rows.push(row);
        Some(number)
    }

    pub fn finish(self) -> Document {
        Document { rows: self.rows }
    }
}
