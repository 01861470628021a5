//! The writer of term text (document 01, "Term text"), refusal 68.

use crate::document::{check_rows, Document, Row, Scalar};
use crate::names::check_names;
use crate::refusal::{refuse_if, Refusal};
use crate::stored::check_automaton;

/// Writes a table's tree: set, names, table, then 68. The text space is given by its length in bytes.
pub fn write_term(
    set: &[u8],
    site: &[u8],
    built_in: &[u8],
    rows: &[u16],
    space: usize,
) -> Result<Vec<u8>, Refusal> {
    let automaton = check_automaton(set)?;
    let names = check_names(site, built_in, automaton.arities.len())?;
    let document = check_rows(&automaton, rows)?;
    text_within(&document, &names, space)
}

/// The text of a document, unless it is longer than the space.
pub fn text_within(document: &Document, names: &[Vec<u8>], space: usize) -> Result<Vec<u8>, Refusal> {
    refuse_if(text_length(document, names) > space, 68)?;
    let mut text = Vec::new();
    write_row(document, names, document.last(), &mut text);
    Ok(text)
}

/// The length of the text, found row by row: a text can be far too long ever to be written. Sums
/// stop at the largest number, which is longer than any space.
fn text_length(document: &Document, names: &[Vec<u8>]) -> usize {
    let mut lengths: Vec<usize> = Vec::with_capacity(document.rows.len());
    for row in &document.rows {
        let own = own_part(row, names).len();
        // Two brackets and the commas between: one byte more than there are children.
        let brackets = if row.children.is_empty() { 0 } else { row.children.len() + 1 };
        let children = row.children.iter().map(|&child| lengths[child]);
        lengths.push(children.fold(own + brackets, usize::saturating_add));
    }
    lengths[document.last()]
}

/// A row's name and scalar.
fn own_part(row: &Row, names: &[Vec<u8>]) -> Vec<u8> {
    let scalar = match row.scalar {
        Scalar::Bare => String::new(),
        Scalar::Flag(flag) => format!("={flag}"),
        Scalar::Count(count) => format!("={count}"),
        Scalar::Rate(bits) => format!("~{bits:016x}"),
        Scalar::Name(name) => format!("#{name}"),
    };
    [&names[row.symbol][..], scalar.as_bytes()].concat()
}

fn write_row(document: &Document, names: &[Vec<u8>], row: usize, text: &mut Vec<u8>) {
    let row = &document.rows[row];
    text.extend(own_part(row, names));
    for (place, &child) in row.children.iter().enumerate() {
        text.push(if place == 0 { b'(' } else { b',' });
        write_row(document, names, child, text);
    }
    if !row.children.is_empty() {
        text.push(b')');
    }
}
