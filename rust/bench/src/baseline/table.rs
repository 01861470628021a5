//! A table of rows: checked (11 to 17) and decoded.

use std::collections::HashSet;

use super::set::Set;
use super::{MINUS_ZERO, UNUSED};

#[derive(Clone, Copy, PartialEq, Eq, Hash)]
pub struct Row {
    pub symbol: u16,
    pub children: [u16; 4],
    pub kind: u16,
    pub payload: u64,
}

impl Row {
    fn read(cells: &[u16]) -> Row {
        Row {
            symbol: cells[0],
            children: [cells[1], cells[2], cells[3], cells[4]],
            kind: cells[5],
            payload: cells[6..10].iter().rev().fold(0, |high, &cell| high << 16 | u64::from(cell)),
        }
    }

    /// The children that are used.
    pub fn used(&self) -> &[u16] {
        let count = self.children.iter().take_while(|&&child| child != UNUSED).count();
        &self.children[..count]
    }

    /// The row's ten cells.
    pub fn cells(&self) -> [u16; 10] {
        let [a, b, c, d] = self.children;
        let part = |place: u32| (self.payload >> (16 * place)) as u16;
        [self.symbol, a, b, c, d, self.kind, part(0), part(1), part(2), part(3)]
    }
}

/// The rows in some cells, or the number of their refusal.
pub fn read(set: &Set, cells: &[u16]) -> Result<Vec<Row>, u8> {
    let count = cells.len() / 10;
    if !cells.len().is_multiple_of(10) || !(1..=1024).contains(&count) {
        return Err(11);
    }
    let rows: Vec<Row> = cells.chunks_exact(10).map(Row::read).collect();
    if rows.iter().any(|row| usize::from(row.symbol) >= set.arities.len()) {
        return Err(12);
    }
    if !rows.iter().enumerate().all(|(number, row)| children_fit(set, number, row)) {
        return Err(13);
    }
    if !rows.iter().all(|row| scalar_fits(set, row)) {
        return Err(14);
    }
    let mut distinct = HashSet::with_capacity(count);
    if !rows.iter().all(|row| distinct.insert(row)) {
        return Err(15);
    }
    let mut used = vec![false; count];
    rows.iter().flat_map(Row::used).for_each(|&child| used[usize::from(child)] = true);
    if used[..count - 1].contains(&false) {
        return Err(16);
    }
    if height(&rows) > 256 {
        return Err(17);
    }
    Ok(rows)
}

/// Whether children are lower rows and unused places are 65535.
fn children_fit(set: &Set, number: usize, row: &Row) -> bool {
    let arity = usize::from(set.arities[usize::from(row.symbol)]);
    let (used, unused) = row.children.split_at(arity);
    used.iter().all(|&child| usize::from(child) < number) && unused.iter().all(|&place| place == UNUSED)
}

/// Whether kind and payload are those of a scalar that the row may have.
fn scalar_fits(set: &Set, row: &Row) -> bool {
    match row.kind {
        0 => row.payload == 0,
        _ if set.arities[usize::from(row.symbol)] > 0 => false,
        1 => row.payload <= 1,
        2 => true,
        3 => row.payload != MINUS_ZERO,
        4 => row.payload <= u64::from(u32::MAX),
        _ => false,
    }
}

/// The height of the last row's tree.
fn height(rows: &[Row]) -> u16 {
    let mut heights: Vec<u16> = Vec::with_capacity(rows.len());
    for row in rows {
        let highest = row.used().iter().map(|&child| heights[usize::from(child)]).max();
        heights.push(1 + highest.unwrap_or(0));
    }
    heights[rows.len() - 1]
}
