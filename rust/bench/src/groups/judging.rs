//! One input judged by both sides.

use bench::measure::Table;
use cidhomba::{membership, Judgement, ANNOTATION_CELLS, STEP_CELLS};
use reference::{Automaton, Document};

/// A judge in Rust: set, rows and room, and the cells of a run for a yes.
pub type Judge = fn(&[u8], &[u16], usize) -> Result<Option<Vec<u16>>, u8>;

/// Lets the library and a judge in Rust judge with room for so many annotations, sees that they agree, and measures
/// them.
pub fn judged_against(
    rust: Judge,
    table: &Table,
    input: &str,
    (set, document): (&Automaton, &Document),
    room: usize,
) {
    let (set, rows) = (set.encode(), document.cells());
    let (mut work, mut run) = (vec![0; ANNOTATION_CELLS * room], vec![0; STEP_CELLS * room]);
    let by_library = match membership(&set, &rows, &mut work, &mut run) {
        Ok(Judgement::Yes(run)) => Ok(Some(run.to_vec())),
        Ok(Judgement::No) => Ok(None),
        Err(refusal) => Err(refusal.number()),
    };
    let by_rust = rust(&set, &rows, room);
    assert_eq!(by_library.as_ref().map(Option::is_some), by_rust.as_ref().map(Option::is_some), "{input}");
    for run in [by_library, by_rust].into_iter().flatten().flatten() {
        assert_eq!(reference::check_run(&set, &rows, &run), Ok(()), "{input}");
    }
    let library = || membership(&set, &rows, &mut work, &mut run).is_ok();
    table.row(input, library, || rust(&set, &rows, room));
}
