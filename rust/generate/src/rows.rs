//! Row tables with something wrong in them, for refusals 11 to 17.

use reference::limits::{MAX_LEVELS, MAX_ROWS, ROW_CELLS, UNUSED};
use reference::{Automaton, Document, Row, Scalar, MINUS_ZERO};

use crate::{documents, Random};

/// The cells of a table that is mostly sound; damaged in so many of a hundred cases. Where the set
/// allows no document, a bare leaf stands in.
pub fn lent(random: &mut Random, automaton: &Automaton, most: usize, damaged_percent: usize) -> Vec<u16> {
    let leaf = Row { symbol: 0, children: Vec::new(), scalar: Scalar::Bare };
    let document = documents::document(random, automaton, most);
    let document = document.unwrap_or(Document { rows: vec![leaf] });
    if random.percent(damaged_percent) {
        damaged(random, automaton, document)
    } else {
        document.cells()
    }
}

/// The cells of a table with one to three things changed; a change may turn out harmless.
pub fn damaged(random: &mut Random, automaton: &Automaton, document: Document) -> Vec<u16> {
    if random.percent(45) {
        return with_wrong_shape(random, automaton, document);
    }
    let mut cells = document.cells();
    for _ in 0..random.pick(&[1, 1, 1, 2, 3]) {
        damage_once(random, &mut cells);
    }
    cells
}

/// The cells of a table whose rows are sound one by one but not together; sometimes a cell is
/// changed as well.
fn with_wrong_shape(random: &mut Random, automaton: &Automaton, document: Document) -> Vec<u16> {
    let mut document = document;
    match random.below(20) {
        0..=4 => split_a_row(random, &mut document),
        5..=9 => add_an_unused_row(random, automaton, &mut document),
        10..=18 => heighten(random, automaton, &mut document),
        _ => pass_the_row_limit(&mut document),
    }
    let mut cells = document.cells();
    if random.percent(15) {
        damage_once(random, &mut cells);
    }
    cells
}

/// Moves child places from a row number on up by one and puts a row there.
fn insert(document: &mut Document, number: usize, row: Row) {
    for later in &mut document.rows[number..] {
        for child in later.children.iter_mut().filter(|child| **child >= number) {
            *child += 1;
        }
    }
    document.rows.insert(number, row);
}

/// Makes two equal rows of one and lets both be used where the row is used twice (15, else 15 and 16).
pub fn split_a_row(random: &mut Random, document: &mut Document) {
    let number = random.below(document.rows.len());
    let copy = document.rows[number].clone();
    insert(document, number + 1, copy);
    let users = document.rows[number + 2..].iter_mut();
    let mut uses: Vec<&mut usize> =
        users.flat_map(|row| row.children.iter_mut()).filter(|child| **child == number).collect();
    if let Some(last_use) = uses.pop() {
        *last_use = number + 1;
    }
}

/// Puts in a leaf with a new scalar that no row uses (16).
pub fn add_an_unused_row(random: &mut Random, automaton: &Automaton, document: &mut Document) {
    let leaf = (0..automaton.arities.len()).find(|&symbol| automaton.arity(symbol) == 0);
    if let Some(symbol) = leaf {
        let number = random.below(document.rows.len());
        let scalar = Scalar::Count(random.word());
        insert(document, number, Row { symbol, children: Vec::new(), scalar });
    }
}

/// Puts rows over the last one until there are about 257 levels (17 from there on).
pub fn heighten(random: &mut Random, automaton: &Automaton, document: &mut Document) {
    let inner = (0..automaton.arities.len()).find(|&symbol| automaton.arity(symbol) > 0);
    let Some(symbol) = inner else { return };
    let wanted = MAX_LEVELS + random.pick(&[0, 1, 1, 1, 1, 2, 2, 40]);
    for _ in document.levels()..wanted {
        if document.rows.len() == MAX_ROWS {
            return;
        }
        let children = vec![document.last(); automaton.arity(symbol)];
        document.rows.push(Row { symbol, children, scalar: Scalar::Bare });
    }
}

/// Repeats the last row until there is one row too many (11).
fn pass_the_row_limit(document: &mut Document) {
    let last = document.rows[document.last()].clone();
    document.rows.resize(MAX_ROWS + 1, last);
}

fn damage_once(random: &mut Random, cells: &mut Vec<u16>) {
    let rows = cells.len() / ROW_CELLS;
    match random.below(21) {
        0 => cells.truncate(random.below(cells.len() + 1)),
        1 => cells.extend([UNUSED, 0, 1].iter().take(random.between(1, 3))),
        2 => cells.clear(),
        _ if rows == 0 => {}
        3 | 4 => change_cell(random, cells, 0, 1),
        5..=8 => change_cell(random, cells, 1, 4),
        9..=12 => change_cell(random, cells, 5, 5),
        13 | 14 => move_a_child_place(random, cells),
        15 => copy_a_row(random, cells),
        16 => give_a_leaf(random, cells, Scalar::Rate(MINUS_ZERO)),
        _ => change_cell(random, cells, 0, ROW_CELLS),
    }
}

/// The cells of a sound table in which one leaf or several have the rate that may stand in no row: 14, which is tried
/// before 15, due too where two of them have one symbol.
pub fn with_minus_zero(random: &mut Random, document: &Document) -> Vec<u16> {
    let mut cells = document.cells();
    for _ in 0..random.pick(&[1, 1, 2, 4]) {
        give_a_leaf(random, &mut cells, Scalar::Rate(MINUS_ZERO));
    }
    cells
}

/// Gives a scalar to one of the rows that use no child place, if there is any; with `MINUS_ZERO` this is 14.
pub fn give_a_leaf(random: &mut Random, cells: &mut [u16], scalar: Scalar) {
    let starts = (0..cells.len() / ROW_CELLS).map(|row| ROW_CELLS * row);
    let leaves: Vec<usize> = starts.filter(|&at| cells[at + 1..at + 5] == [UNUSED; 4]).collect();
    if !leaves.is_empty() {
        let at = random.pick(&leaves);
        let row = Row { symbol: usize::from(cells[at]), children: Vec::new(), scalar };
        cells[at..at + ROW_CELLS].copy_from_slice(&row.cells());
    }
}

/// Changes a cell of some row, one of `count` from cell `from` on.
fn change_cell(random: &mut Random, cells: &mut [u16], from: usize, count: usize) {
    let row = random.below(cells.len() / ROW_CELLS);
    let at = ROW_CELLS * row + from + random.below(count);
    cells[at] = random.telling_number(cells[at]);
}

/// Points a child place at the row itself, a neighbour, or any row.
fn move_a_child_place(random: &mut Random, cells: &mut [u16]) {
    let rows = cells.len() / ROW_CELLS;
    let row = random.below(rows);
    let place = 1 + random.below(4);
    cells[ROW_CELLS * row + place] = random.pick(&[row, row + 1, row.saturating_sub(1), rows]) as u16;
}

/// Writes one row's cells over another's.
fn copy_a_row(random: &mut Random, cells: &mut [u16]) {
    let rows = cells.len() / ROW_CELLS;
    let from = ROW_CELLS * random.below(rows);
    let to = ROW_CELLS * random.below(rows);
    cells.copy_within(from..from + ROW_CELLS, to);
}
