//! Comparisons of one call each, for functions that more than one test program calls. Each answers what both sides
//! answered, but for the steps of a yes, which are the library's.

use cidhomba::{interface, MAX_SET_BYTES};
use reference::limits::{ROW_CELLS, STEP_CELLS};
use reference::{Judgement, Refusal};

use crate::answer::Answer;
use crate::case::{Case, Expected, Input};
use crate::lent::Lent;
use crate::lists::Lists;

/// Compares the check of a table.
pub fn check_document(set: &[u8], rows: &[u16]) -> Answer {
    let library = Answer::of_library(interface::check_document(set, rows));
    let reference = Answer::of_reference(reference::check_document(set, rows).map(|_| 0));
    let inputs = [("set", Input::Set(set)), ("rows", Input::Cells(rows, ROW_CELLS))];
    let expected = Expected::Exactly(reference);
    Case { function: "check_document", inputs: &inputs, library, expected }.same_answer();
    reference
}

/// Compares the check of a written run.
pub fn check_run(set: &[u8], rows: &[u16], run: &[u16]) -> Answer {
    let inputs = [
        ("set", Input::Set(set)),
        ("rows", Input::Cells(rows, ROW_CELLS)),
        ("run", Input::Cells(run, STEP_CELLS)),
    ];
    let library = Answer::of_library(interface::check_run(set, rows, run));
    let reference = Answer::of_reference(reference::check_run(set, rows, run).map(|()| 0));
    let expected = Expected::Exactly(reference);
    Case { function: "check_run", inputs: &inputs, library, expected }.same_answer();
    reference
}

/// Compares a judging with work and run spaces of so many cells. For a yes the answer is the number of steps, which is
/// the library's own choice.
pub fn membership(set: &[u8], rows: &[u16], work_cells: usize, run_cells: usize) -> Answer {
    let reference = reference::membership(set, rows, work_cells, run_cells);
    membership_in(Lent::of_length(work_cells), Lent::of_length(run_cells), set, rows, &reference)
}

/// Compares a judging in spaces that hold what they hold with what the reference answers for their lengths.
pub fn membership_in(
    mut work: Lent<u16>,
    mut run: Lent<u16>,
    set: &[u8],
    rows: &[u16],
    reference: &Result<Judgement, Refusal>,
) -> Answer {
    let inputs = [
        ("set", Input::Set(set)),
        ("rows", Input::Cells(rows, ROW_CELLS)),
        ("work", Input::Space(work.contents().len())),
        ("run", Input::Space(run.contents().len())),
    ];
    let library = Answer::of_library(interface::membership(set, rows, work.space(), run.space()));
    let expected = expected_judgement(reference);
    let case = Case { function: "membership", inputs: &inputs, library, expected };
    case.same_answer();
    case.same_space("work", &work, &work_afterwards(&work, reference));
    let front = run_handed_back(library, &run);
    if !front.is_empty() {
        passes_the_check(&case, set, rows, front);
    }
    case.same_space("run", &run, &run.with_front(front));
    library
}

fn expected_judgement(reference: &Result<Judgement, Refusal>) -> Expected {
    match reference {
        Ok(judgement) if judgement.is_yes() => Expected::RunOfAtMost(judgement.annotations),
        other => Expected::Exactly(Answer::of_reference(other.as_ref().map(|_| 0).map_err(|&e| e))),
    }
}

/// All zeros after every judging that passes 32, refused by 31 or not; else untouched.
fn work_afterwards(work: &Lent<u16>, reference: &Result<Judgement, Refusal>) -> Vec<u16> {
    match reference {
        Ok(_) | Err(Refusal { number: 31, .. }) => work.zeros(),
        Err(_) => work.with_front(&[]),
    }
}

/// The steps that the library wrote: none unless it said yes.
fn run_handed_back(library: Answer, run: &Lent<u16>) -> &[u16] {
    match library {
        Answer::Value(steps) => &run.contents()[..STEP_CELLS * steps as usize],
        Answer::Refused { .. } => &[],
    }
}

fn passes_the_check(case: &Case, set: &[u8], rows: &[u16], run: &[u16]) {
    if let Err(refusal) = reference::check_run(set, rows, run) {
        case.fail(&format!("the run handed back is refused with {}: {run:?}", refusal.number));
    }
}

/// Compares the widening of a set's states into a space of so many bytes.
pub fn widen_states(set: &[u8], space: usize) -> Answer {
    moved("widen_states", interface::widen_states, reference::widen_states, set, space)
}

/// Compares the narrowing of a set's states into a space of so many bytes.
pub fn narrow_states(set: &[u8], space: usize) -> Answer {
    moved("narrow_states", interface::narrow_states, reference::narrow_states, set, space)
}

/// Compares the widening of a set's rules into a space of so many bytes.
pub fn widen_rules(set: &[u8], space: usize) -> Answer {
    moved("widen_rules", interface::widen_rules, reference::widen_rules, set, space)
}

/// Compares the narrowing of a set's rules into a space of so many bytes.
pub fn narrow_rules(set: &[u8], space: usize) -> Answer {
    moved("narrow_rules", interface::narrow_rules, reference::narrow_rules, set, space)
}

/// Compares a move of a set to another form.
fn moved(
    function: &'static str,
    by_library: fn(&[u8], &mut [u8]) -> u64,
    by_reference: fn(&[u8], usize) -> Result<Vec<u8>, Refusal>,
    set: &[u8],
    space: usize,
) -> Answer {
    let inputs = [("set", Input::Set(set)), ("out", Input::Space(space))];
    let mut out = Lent::of_length(space);
    let library = Answer::of_library(by_library(set, out.space()));
    let result = by_reference(set, space);
    let written = result.clone().unwrap_or_default();
    let reference = Answer::of_reference(result.map(|bytes| bytes.len()));
    let expected = Expected::Exactly(reference);
    let case = Case { function, inputs: &inputs, library, expected };
    case.same_answer();
    case.same_space("out", &out, &out.with_front(&written));
    reference
}

/// The set that a call of the library writes, of which its answer is the length.
pub fn written(call: impl Fn(&mut [u8]) -> u64) -> Vec<u8> {
    let mut out = vec![0; MAX_SET_BYTES];
    let Answer::Value(length) = Answer::of_library(call(&mut out)) else { panic!("a refusal") };
    out.truncate(length as usize);
    out
}

/// Compares the reading of a text into a row space of so many cells.
pub fn read_term(set: &[u8], site: &[u8], built_in: &[u8], text: &[u8], row_cells: usize) -> Answer {
    read_term_saved(set, (site, built_in), (site, built_in), text, row_cells)
}

/// Compares where the library is lent the lists as an editor saved them, and the reference as they were before.
pub fn read_term_saved(set: &[u8], saved: Lists, before: Lists, text: &[u8], row_cells: usize) -> Answer {
    let (site, built_in) = saved;
    let inputs = [
        ("set", Input::Set(set)),
        ("site", Input::Text(site)),
        ("built_in", Input::Text(built_in)),
        ("text", Input::Text(text)),
        ("rows", Input::Space(row_cells)),
    ];
    let mut rows = Lent::of_length(row_cells);
    let library = Answer::of_library(interface::read_term(set, site, built_in, text, rows.space()));
    let result = reference::read_term(set, before.0, before.1, text, row_cells);
    let written = result.as_ref().map_or(Vec::new(), |document| document.cells());
    let reference = Answer::of_reference(result.map(|document| document.rows.len()));
    let expected = Expected::Exactly(reference);
    let case = Case { function: "read_term", inputs: &inputs, library, expected };
    case.same_answer();
    case.same_space("rows", &rows, &rows.with_front(&written));
    reference
}

/// Compares the writing of a table into a text space of so many bytes.
pub fn write_term(set: &[u8], site: &[u8], built_in: &[u8], rows: &[u16], space: usize) -> Answer {
    write_term_saved(set, (site, built_in), (site, built_in), rows, space)
}

/// Compares where the library is lent the lists as an editor saved them, and the reference as they were before.
pub fn write_term_saved(set: &[u8], saved: Lists, before: Lists, rows: &[u16], space: usize) -> Answer {
    let (site, built_in) = saved;
    let inputs = [
        ("set", Input::Set(set)),
        ("site", Input::Text(site)),
        ("built_in", Input::Text(built_in)),
        ("rows", Input::Cells(rows, ROW_CELLS)),
        ("text", Input::Space(space)),
    ];
    let mut text = Lent::of_length(space);
    let library = Answer::of_library(interface::write_term(set, site, built_in, rows, text.space()));
    let result = reference::write_term(set, before.0, before.1, rows, space);
    let written = result.clone().unwrap_or_default();
    let reference = Answer::of_reference(result.map(|text| text.len()));
    let expected = Expected::Exactly(reference);
    let case = Case { function: "write_term", inputs: &inputs, library, expected };
    case.same_answer();
    case.same_space("text", &text, &text.with_front(&written));
    reference
}

/// Compares the reading of JSON into a row space of so many cells.
pub fn read_json(keys: &[u8], text: &[u8], row_cells: usize) -> Answer {
    let inputs =
        [("keys", Input::Text(keys)), ("text", Input::Text(text)), ("rows", Input::Space(row_cells))];
    let mut rows = Lent::of_length(row_cells);
    let library = Answer::of_library(interface::read_json(keys, text, rows.space()));
    let result = reference::read_json(keys, text, row_cells);
    let written = result.as_ref().map_or(Vec::new(), |document| document.cells());
    let reference = Answer::of_reference(result.map(|document| document.rows.len()));
    let expected = Expected::Exactly(reference);
    let case = Case { function: "read_json", inputs: &inputs, library, expected };
    case.same_answer();
    case.same_space("rows", &rows, &rows.with_front(&written));
    reference
}

/// Compares the reading of JSON with no keys into a space for 40 rows.
pub fn read_json_plain(text: impl AsRef<[u8]>) -> Answer {
    read_json(b"", text.as_ref(), ROW_CELLS * 40)
}
