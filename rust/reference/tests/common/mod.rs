//! Short ways to say what the tests ask.
#![allow(dead_code)] // each test program uses some of these

use reference::limits::{ANNOTATION_CELLS, MAX_ROWS, ROW_CELLS, STEP_CELLS};
use reference::{membership, read_json, read_term, Automaton, Document, Judgement, Refusal, Row, Scalar};

/// Row space for 1,024 rows.
pub const ROW_SPACE: usize = ROW_CELLS * MAX_ROWS;

/// The document of a text without name lists.
pub fn document(automaton: &Automaton, text: &str) -> Document {
    read_term(&automaton.encode(), b"", b"", text.as_bytes(), ROW_SPACE).expect("a sound text")
}

/// A judging with room for so many annotations and run space to match.
pub fn judge_with_room(
    automaton: &Automaton,
    document: &Document,
    room: usize,
) -> Result<Judgement, Refusal> {
    membership(&automaton.encode(), &document.cells(), ANNOTATION_CELLS * room, STEP_CELLS * room)
}

/// Whether a set lets in the document of a text.
pub fn is_let_in(automaton: &Automaton, text: &str) -> bool {
    judge_with_room(automaton, &document(automaton, text), 4096).expect("enough room").is_yes()
}

/// The document of a JSON text with a list of keys.
pub fn json(keys: &str, text: &str) -> Document {
    read_json(keys.as_bytes(), text.as_bytes(), ROW_SPACE)
        .unwrap_or_else(|refusal| panic!("{text}: {refusal:?}"))
}

/// The number and the place with which a JSON text is refused, with no keys and all the row space.
pub fn json_refusal(text: impl AsRef<[u8]>) -> (u8, usize) {
    json_refusal_with("", text)
}

/// The number and the place with which a JSON text is refused, with a list of keys and all the row space.
pub fn json_refusal_with(keys: &str, text: impl AsRef<[u8]>) -> (u8, usize) {
    let refusal = read_json(keys.as_bytes(), text.as_ref(), ROW_SPACE).expect_err("a refusal");
    (refusal.number, refusal.place.expect("a place"))
}

/// A set with nothing forgotten.
pub fn remembering(mut set: Automaton) -> Automaton {
    set.rules.iter_mut().for_each(|rule| rule.forgets = 0);
    set
}

/// A row without children.
pub fn leaf(symbol: usize, scalar: Scalar) -> Row {
    Row { symbol, children: Vec::new(), scalar }
}

/// A row over others.
pub fn over(symbol: usize, children: &[usize]) -> Row {
    Row { symbol, children: children.to_vec(), scalar: Scalar::Bare }
}
