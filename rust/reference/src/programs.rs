//! What the sample program and the judging program print (document 01, "Examples, with the edges"), refusal 69.

use crate::limits::{
    ANNOTATION_CELLS, HEADER_BYTES, MAX_PROGRAM_INPUT, MAX_ROWS, MAX_STATES, ROW_CELLS, STEP_CELLS,
};
use crate::membership::membership;
use crate::names::check_names;
use crate::refusal::{refuse_if, Refusal};
use crate::stored::check_automaton;
use crate::term_reader::read_term;
use crate::term_writer::text_within;
use crate::witness::witness;

/// Bytes of text space in the sample program.
const SAMPLE_TEXT_SPACE: usize = 32_768;
/// Annotations for which the judging program has room, and steps in its run space.
const JUDGING_ROOM: usize = 512;
/// A list without lines.
const NO_LIST: &[u8] = b"";

/// The output of the sample program for an input.
pub fn sample_program(input: &[u8]) -> Vec<u8> {
    match sample_lines(input) {
        Ok(lines) => lines,
        Err(refusal) => refusal_line(refusal),
    }
}

fn sample_lines(input: &[u8]) -> Result<Vec<u8>, Refusal> {
    refuse_if(input.len() > MAX_PROGRAM_INPUT, 69)?;
    let Some(sample) = witness(input, ROW_CELLS * MAX_STATES)? else {
        return Ok(b"dead\n".to_vec());
    };
    let symbols = check_automaton(input)?.arities.len();
    let names = check_names(NO_LIST, NO_LIST, symbols)?;
    let text = text_within(&sample, &names, SAMPLE_TEXT_SPACE)?;
    Ok([format!("alive {}\n", sample.levels()).as_bytes(), &text, b"\n"].concat())
}

/// The output of the judging program for an input.
pub fn judge_program(input: &[u8]) -> Vec<u8> {
    match judged_yes(input) {
        Ok(true) => b"yes\n".to_vec(),
        Ok(false) => b"no\n".to_vec(),
        Err(refusal) => refusal_line(refusal),
    }
}

fn judged_yes(input: &[u8]) -> Result<bool, Refusal> {
    refuse_if(input.len() > MAX_PROGRAM_INPUT, 69)?;
    let (set, text) = input.split_at(set_length(input));
    let document = read_term(set, NO_LIST, NO_LIST, text, ROW_CELLS * MAX_ROWS)?;
    let work = ANNOTATION_CELLS * JUDGING_ROOM;
    let run = STEP_CELLS * JUDGING_ROOM;
    membership(set, &document.cells(), work, run).map(|judgement| judgement.is_yes())
}

/// How much of the input is the set: up to the total its header states, or all where that is shorter.
fn set_length(input: &[u8]) -> usize {
    if input.len() < HEADER_BYTES {
        return input.len();
    }
    let total = u16::from_le_bytes([input[14], input[15]]);
    input.len().min(usize::from(total))
}

/// `refused N`, or `refused N at P` where the number has a place.
fn refusal_line(refusal: Refusal) -> Vec<u8> {
    let number = refusal.number;
    match refusal.place {
        Some(place) => format!("refused {number} at {place}\n").into_bytes(),
        None => format!("refused {number}\n").into_bytes(),
    }
}
