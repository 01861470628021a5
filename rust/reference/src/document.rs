//! Row tables (document 01, "Documents", and document 02, Wish 6): the check, refusals 11 to 17, heights, and the lent
//! cells.

use std::collections::HashSet;

use crate::automaton::Automaton;
use crate::limits::{MAX_CHILDREN, MAX_LEVELS, MAX_ROWS, ROW_CELLS, UNUSED};
use crate::refusal::{refuse_if, Refusal};
use crate::stored::check_automaton;

/// A table of rows whose children stand in lower rows; its tree is that of the last row.
#[derive(Clone, Debug, PartialEq, Eq)]
pub struct Document {
    pub rows: Vec<Row>,
}

#[derive(Clone, Debug, PartialEq, Eq, Hash)]
pub struct Row {
    pub symbol: usize,
    /// One lower row number for each child.
    pub children: Vec<usize>,
    /// Bare on a row with children.
    pub scalar: Scalar,
}

/// The bits of the rate with only its sign bit set, which stands in no sound row: the two zeros are one load, and 0 is
/// the one that rows have. All other rates are told apart by their bits.
pub const MINUS_ZERO: u64 = 1 << 63;

/// A scalar. A rate is kept as its bits, since rates are equal only where all bits agree; the bits of `MINUS_ZERO` are
/// those of no scalar that a row may have.
#[derive(Clone, Copy, Debug, PartialEq, Eq, Hash)]
pub enum Scalar {
    Bare,
    Flag(bool),
    Count(u64),
    Rate(u64),
    Name(u32),
}

/// A rate's bits as a row has them: some makers print an idle server's load as -0.0, and it equals 0.0. In the
/// readers of text this comes before an equal row is looked for.
pub fn with_one_zero(bits: u64) -> u64 {
    if bits == MINUS_ZERO {
        0
    } else {
        bits
    }
}

/// Checks a table against a set: the set's numbers first, then the table's.
pub fn check_document(set: &[u8], cells: &[u16]) -> Result<(Automaton, Document), Refusal> {
    let automaton = check_automaton(set)?;
    let document = check_rows(&automaton, cells)?;
    Ok((automaton, document))
}

/// Checks a table's cells. Each number is tried over all rows before the next one is.
pub fn check_rows(automaton: &Automaton, cells: &[u16]) -> Result<Document, Refusal> {
    refuse_if(row_count_is_wrong(cells), 11)?;
    let lent: Vec<LentRow> = cells.chunks_exact(ROW_CELLS).map(LentRow::read).collect();
    refuse_if(lent.iter().any(|row| row.symbol >= automaton.arities.len()), 12)?;
    refuse_if(a_child_place_is_wrong(automaton, &lent), 13)?;
    refuse_if(a_scalar_is_wrong(automaton, &lent), 14)?;
    refuse_if(two_rows_are_equal(cells), 15)?;
    let document = Document { rows: lent.iter().map(|row| row.decode(automaton)).collect() };
    refuse_if(document.has_unused_row(), 16)?;
    refuse_if(document.levels() > MAX_LEVELS, 17)?;
    Ok(document)
}

fn row_count_is_wrong(cells: &[u16]) -> bool {
    let rows = cells.len() / ROW_CELLS;
    !cells.len().is_multiple_of(ROW_CELLS) || rows == 0 || rows > MAX_ROWS
}

fn a_child_place_is_wrong(automaton: &Automaton, lent: &[LentRow]) -> bool {
    lent.iter().enumerate().any(|(number, row)| {
        let (used, unused) = row.places.split_at(automaton.arity(row.symbol));
        used.iter().any(|&child| usize::from(child) >= number) || unused.iter().any(|&place| place != UNUSED)
    })
}

fn a_scalar_is_wrong(automaton: &Automaton, lent: &[LentRow]) -> bool {
    lent.iter().any(|row| match row.scalar() {
        None => true,
        Some(scalar) => automaton.arity(row.symbol) > 0 && scalar != Scalar::Bare,
    })
}

/// Whether two rows agree in every cell; kind and payload give each scalar one form, so cells tell.
fn two_rows_are_equal(cells: &[u16]) -> bool {
    let distinct: HashSet<&[u16]> = cells.chunks_exact(ROW_CELLS).collect();
    distinct.len() < cells.len() / ROW_CELLS
}

/// A row's cells, before it is known that they are sound.
struct LentRow {
    symbol: usize,
    places: [u16; MAX_CHILDREN],
    kind: u16,
    payload: u64,
}

impl LentRow {
    fn read(cells: &[u16]) -> LentRow {
        LentRow {
            symbol: usize::from(cells[0]),
            places: [cells[1], cells[2], cells[3], cells[4]],
            kind: cells[5],
            payload: (0..4).map(|i| u64::from(cells[6 + i]) << (16 * i)).sum(),
        }
    }

    /// The scalar of kind and payload, where they are those of one.
    fn scalar(&self) -> Option<Scalar> {
        match (self.kind, self.payload) {
            (0, 0) => Some(Scalar::Bare),
            (1, 0) => Some(Scalar::Flag(false)),
            (1, 1) => Some(Scalar::Flag(true)),
            (2, count) => Some(Scalar::Count(count)),
            (3, MINUS_ZERO) => None,
            (3, bits) => Some(Scalar::Rate(bits)),
            (4, name) => u32::try_from(name).ok().map(Scalar::Name),
            _ => None,
        }
    }

    /// The row, after 12, 13 and 14 have been tried.
    fn decode(&self, automaton: &Automaton) -> Row {
        let used = &self.places[..automaton.arity(self.symbol)];
        Row {
            symbol: self.symbol,
            children: used.iter().map(|&child| usize::from(child)).collect(),
            scalar: self.scalar().expect("14 has been tried"),
        }
    }
}

impl Scalar {
    /// Kind and payload, as they stand in a lent row.
    pub fn kind_and_payload(self) -> (u16, u64) {
        match self {
            Scalar::Bare => (0, 0),
            Scalar::Flag(flag) => (1, u64::from(flag)),
            Scalar::Count(count) => (2, count),
            Scalar::Rate(bits) => (3, bits),
            Scalar::Name(name) => (4, u64::from(name)),
        }
    }
}

impl Row {
    /// The row's ten cells.
    pub fn cells(&self) -> [u16; ROW_CELLS] {
        let (kind, payload) = self.scalar.kind_and_payload();
        let mut cells = [UNUSED; ROW_CELLS];
        cells[0] = self.symbol as u16;
        for (place, &child) in self.children.iter().enumerate() {
            cells[1 + place] = child as u16;
        }
        cells[5] = kind;
        for part in 0..4 {
            cells[6 + part] = (payload >> (16 * part)) as u16;
        }
        cells
    }
}

impl Document {
    /// The lent cells of all rows.
    pub fn cells(&self) -> Vec<u16> {
        self.rows.iter().flat_map(Row::cells).collect()
    }

    /// The number of the last row, whose tree is the document's.
    pub fn last(&self) -> usize {
        self.rows.len() - 1
    }

    /// The height of each row's tree: 1 for a leaf, else one more than its highest child's.
    pub fn heights(&self) -> Vec<usize> {
        let mut heights: Vec<usize> = Vec::with_capacity(self.rows.len());
        for row in &self.rows {
            let highest_child = row.children.iter().map(|&child| heights[child]).max();
            heights.push(1 + highest_child.unwrap_or(0));
        }
        heights
    }

    /// The height of the document's tree.
    pub fn levels(&self) -> usize {
        self.heights()[self.last()]
    }

    /// Whether a row, not the last, is a child of no later row. Children are lower, so any user is later.
    fn has_unused_row(&self) -> bool {
        let used: HashSet<usize> = self.rows.iter().flat_map(|row| row.children.iter().copied()).collect();
        (0..self.last()).any(|row| !used.contains(&row))
    }
}
