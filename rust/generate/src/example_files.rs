//! The files of `examples/`, made anew.

use reference::examples::{lists_of_equal_pairs, set_e};
use reference::{Document, Form, Row, Scalar};

use crate::export::{agreed_set, dead_set, export_text, name_list, Columns};
use crate::json_export::{self, key_list, Layout};
use crate::json_shapes;
use crate::lists::saved_on_windows;
use crate::paired_export::{self, paired_set, strict_set, Servers};

/// Servers in the exports: their rows are fewer than the annotations that the judging program has room for.
const SERVERS: usize = 8;

/// Pairs of servers in the exports of paired servers.
const PAIRS: usize = 4;

/// Every file by its name.
pub fn all() -> Vec<(&'static str, Vec<u8>)> {
    let text = |columns: Columns| export_text(SERVERS, columns).into_bytes();
    let paired = |servers: Servers| paired_export::export_text(PAIRS, servers).into_bytes();
    let json = |columns: Columns| json_export::export_text(SERVERS, columns, Layout::Pretty).into_bytes();
    vec![
        ("e.set", set_e().encode()),
        ("e-wide.set", set_e().encode_in(Form::Wide)),
        ("pairs.set", lists_of_equal_pairs().encode()),
        ("pair-7-7.rows", bytes(&pair(&[7]))),
        ("pair-7-8.rows", bytes(&pair(&[7, 8]))),
        ("pair-7-7.run", low_byte_first(&RUN)),
        ("pair-7-7.term", b"s0(s1=7,s1=7)".to_vec()),
        ("e.names", b"pair\na\nb\n".to_vec()),
        ("agreed.set", agreed_set().encode()),
        ("agreed.names", name_list().into_bytes()),
        ("agreed-windows.names", saved_on_windows(name_list().as_bytes())),
        ("export.term", text(Columns::Agreed)),
        ("export-queue.term", text(Columns::WithQueue)),
        ("export-swapped.term", text(Columns::SwappedOnce)),
        ("json/evening.set", json_shapes::agreed_set().encode()),
        ("json/evening.keys", key_list(&json_export::KEYS)),
        ("json/evening.json", json(Columns::Agreed)),
        ("json/evening-queue.json", json(Columns::WithQueue)),
        ("json/evening-swapped.json", json(Columns::SwappedOnce)),
        ("json/paired.set", paired_set().encode()),
        ("json/paired-strict.set", strict_set().encode_in(Form::Isolating)),
        ("json/paired.keys", key_list(&paired_export::KEYS)),
        ("json/paired.json", paired(Servers::Paired)),
        ("json/paired-mixed.json", paired(Servers::OnePairMixed)),
        ("json/paired-odd.json", paired(Servers::OneMissing)),
        ("json/uwsgi.set", json_shapes::uwsgi_set().encode()),
        ("json/uwsgi.keys", key_list(&json_shapes::UWSGI_KEYS)),
        ("dead.set", dead_set().encode()),
    ]
}

/// The bytes of one file.
pub fn file(name: &str) -> Vec<u8> {
    let found = all().into_iter().find(|(other, _)| *other == name);
    found.expect("a file of the examples").1
}

/// The document pair(a=..,a=..) over E, with one row for each different count.
fn pair(counts: &[u64]) -> Document {
    let leaf = |&count: &u64| Row { symbol: 1, children: vec![], scalar: Scalar::Count(count) };
    let mut rows: Vec<Row> = counts.iter().map(leaf).collect();
    rows.push(Row { symbol: 0, children: vec![0, counts.len() - 1], scalar: Scalar::Bare });
    Document { rows }
}

/// The run of E on pair(a=7,a=7): the leaf by rule 1, then the pair by rule 0 over that step twice.
const RUN: [u16; 12] = [1, 0, 65_535, 65_535, 65_535, 65_535, 0, 1, 0, 0, 65_535, 65_535];

/// A table's cells as a file has them.
fn bytes(document: &Document) -> Vec<u8> {
    low_byte_first(&document.cells())
}

fn low_byte_first(cells: &[u16]) -> Vec<u8> {
    cells.iter().flat_map(|cell| cell.to_le_bytes()).collect()
}
